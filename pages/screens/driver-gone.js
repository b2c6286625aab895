// A key that nobody has any more, as after a phone was lost: what it read is forgotten at once, and
// what it could not send is said by numbers.

import { agency } from "../parts/agency.js";
import { dayShort } from "../parts/clock.js";
import * as desk from "../parts/desk.js";
import { button, part } from "../parts/element.js";
import { dropNote } from "../parts/notes.js";
import { dropWaiting, forgetKey } from "../parts/queue.js";
import { forgetTexts } from "../parts/tally.js";
import { t } from "../parts/words.js";
import { callLink } from "./driver-list.js";
import { didWords, timeOf } from "./driver-stop.js";

/** @typedef {import("../parts/queue.js").Entry} Entry */

/** An outcome that was not sent, by numbers alone.
 * @param {Entry} entry */
const unsent = ({ tap, order }) =>
    part("li", { key: order },
        t("driver.unsent-one", {
            trip: tap.trip,
            rider: tap.rider,
            what: didWords(tap.what),
            time: `${dayShort(tap.at.slice(0, 10))}, ${timeOf(tap.at)}`
        })
    );

/** What whoever holds the phone is told.
 * @param {string} digest @param {Entry[]} waiting */
const noteOf = (digest, waiting) => [
    part("p", {}, t("driver.key-replaced", { count: waiting.length })),
    part("p", {}, t("driver.key-forgotten")),
    waiting.length > 0 && part("ul", {}, waiting.map(unsent)),
    waiting.length > 0 && agency().telephone && callLink(),
    waiting.length > 0 &&
        button(t("driver.told-dispatch"), () => {
            dropWaiting(digest);
            dropNote("key");
        })
];

let isUnderWay = false;

/** Forgets all of the key that is signed in, and signs it out. */
export async function forgetAndLeave() {
    const digest = desk.digest();
    if (isUnderWay || !digest) return;
    isUnderWay = true;
    const waiting = await forgetKey(digest);
    await forgetTexts(digest);
    const detail = {
        said: t("driver.key-replaced", { count: waiting.length }),
        shown: noteOf(digest, waiting),
        left: Promise.resolve()
    };
    window.dispatchEvent(new CustomEvent("desk.key-gone", { detail }));
    await detail.left;
    isUnderWay = false;
}
