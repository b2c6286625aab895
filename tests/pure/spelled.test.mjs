// Numbers and times within sentences: each minute of the day, and what is counted once, twice or
// not at all, in both languages.

import assert from "node:assert/strict";
import fs from "node:fs";
import { test } from "node:test";
import { smooth as english } from "../../pages/words/en/common.js";
import { smooth as spanish } from "../../pages/words/es/common.js";

const DAY = 1440, HALF_DAY = 720, SMOOTH = { en: english, es: spanish };
const ROOT = new URL("../../pages/words/", import.meta.url);
const hourOf = (minute) => Math.floor(minute / 60);
const bare = (minute) => `${hourOf(minute) % 12 || 12}:${String(minute % 60).padStart(2, "0")}`;
const twelve = (minute) => `${bare(minute)} ${minute % DAY < HALF_DAY ? "a. m." : "p. m."}`;
const twentyFour = (minute) =>
    `${String(hourOf(minute) % 24).padStart(2, "0")}:${String(minute % 60).padStart(2, "0")}`;
/** One o'clock takes "la" in Spanish, every other hour "las". */
const article = (minute, isLong) => (
    (isLong ? hourOf(minute) % 24 === 1 : hourOf(minute) % 12 === 1) ? "la" : "las"
);

test("a time in Spanish has its article, at each minute of the day", () => {
    for (let minute = 0; minute < DAY; minute += 1)
        for (const [clock, isLong] of [[twelve, false], [twentyFour, true]]) {
            const time = clock(minute), end = (minute + 30) % DAY;
            for (const before of [
                "a", "de", "desde", "antes de", "alrededor de", "ofrece", "entre"
            ]) {
                assert.equal(
                    spanish(`${before} las ${time} ya`),
                    `${before} ${article(minute, isLong)} ${time} ya`
                );
            }
            assert.equal(
                spanish(`Recogida entre las ${time} y las ${clock(end)}, viaje`),
                `Recogida entre ${article(minute, isLong)} ${time} y ${article(end, isLong)} ${clock(end)}, viaje`
            );
            assert.equal(
                spanish(`Las ${time} es`),
                `${article(minute, isLong) === "la" ? "La" : "Las"} ${time} es`
            );
            assert.equal(spanish(`(las ${time})`), `(${article(minute, isLong)} ${time})`);
        }
    // (a window that shares its half of the day, and one without)
    assert.equal(spanish("entre las 12:50 y las 1:20 p. m."), "entre las 12:50 y la 1:20 p. m.");
    assert.equal(spanish("a las 9:15 a. m.."), "a las 9:15 a. m.");
    assert.equal(spanish("ve las 1 hojas"), "ve las 1 hojas");
});

test("what is counted once is in the singular, and in the plural else", () => {
    for (const [count, minutes, days] of [
        [0, "minutos", "días"],
        [1, "minuto", "día"],
        [2, "minutos", "días"],
        [11, "minutos", "días"],
        [21, "minutos", "días"],
        [101, "minutos", "días"]
    ]) {
        assert.equal(
            spanish(`esperó ${count} minutos de 5, ${count} días`),
            `esperó ${count} ${minutes} de 5, ${count} ${days}`
        );
    }
    for (const [count, minutes, days] of [
        [0, "minutes", "days"],
        [1, "minute", "day"],
        [2, "minutes", "days"],
        [11, "minutes", "days"],
        [21, "minutes", "days"]
    ]) {
        assert.equal(
            english(`waited ${count} minutes of 5, ${count} days`),
            `waited ${count} ${minutes} of 5, ${count} ${days}`
        );
    }
    assert.equal(
        english("$2.1 minutes, 1,001 minutes, 3.1 days"),
        "$2.1 minutes, 1,001 minutes, 3.1 days"
    );
    assert.equal(spanish("de 1 a 14 días"), "de 1 a 14 días");
});

/** A value of a sentence: a number that is a text too, so that each sentence can be made. */
const valuesOf = (count) =>
    new Proxy(
        {},
        {
            get: (_, name) => (
                /day|window|time|from|to$|rider|place|name|text|said|van|vehicle/i.test(
                    String(name)
                )
                    ? `x${count}x`
                    : count
            )
        }
    );
/** What begins with a number of one and stands in the plural all the same. */
const PLURAL = {
    en: /(?<![\d.,:$x])\b1 (?!is\b|stays\b|stands\b|has\b|was\b|does\b|of\b|this\b|as\b)[a-z]+s\b/,
    es:
        /(?<![\d.,:$x])\b1 (?!es\b|más\b|las?\b|los?\b|tras\b|después\b)[a-záéíóúñ]+s(?![a-záéíóúñ])/
};

test("no sentence of the pages counts one in the plural", async () => {
    let made = 0;
    const wrong = [];
    for (const language of ["en", "es"])
        for (const file of fs.readdirSync(new URL(language, ROOT))) {
            const { words } = await import(new URL(`${language}/${file}`, ROOT));
            for (const [key, text] of Object.entries(words)) {
                if (typeof text !== "function") continue;
                let sentence;
                try {
                    sentence = SMOOTH[language](text(valuesOf(1)));
                } catch {
                    // (it wants a list)
                    continue;
                }
                made += 1;
                if (PLURAL[language].test(sentence)) wrong.push(`${language} ${key}: ${sentence}`);
            }
        }
    assert.deepEqual(wrong, []);
    assert.ok(made > 900, `${made} sentences`);
});

/** Words that riders never read: staff's buttons, and denials of what staff ask. */
const OF_STAFF = [
    "booking.mark", "booking.mark-of", "denials.desk.unknown standing/help",
    "denials.desk.unknown caller", "denials.desk.unknown caller/help", "denials.desk.exists rider",
    "denials.37.125(h)/help", "denials.37.125(g) appeal"
];

test("what a rider reads on the own pages speaks to the rider, in both languages", async () => {
    const spoken = {
        en: /\b(?:the|this|that) (?:rider|visitor)\b|\brider's\b/i,
        es: /\b(?:el|al|del|este) (?:pasajero|visitante)\b/i
    },
        missing = [];
    for (const file of ["booking", "trips", "sent", "rider", "denials", "ticket"].filter((it) =>
        fs.existsSync(new URL(`en/${it}.js`, ROOT))
    )) {
        const { words } = await import(new URL(`en/${file}.js`, ROOT)),
            { words: translated } = await import(new URL(`es/${file}.js`, ROOT));
        const plain = (text) => (
            typeof text === "function" ? String(text).replace(/\$\{[^}]*\}/g, "") : text
        );
        for (const [key, text] of Object.entries(words)) {
            if (key.endsWith(" you")) {
                assert.doesNotMatch(plain(text), spoken.en, key);
                assert.doesNotMatch(plain(translated[key]), spoken.es, key);
            } else if (
                spoken.en.test(plain(text)) &&
                !OF_STAFF.includes(key) &&
                !(`${key} you` in words) &&
                key !== "trips.closed"
            )
                missing.push(key);
        }
    }
    assert.deepEqual(missing, []);
});
