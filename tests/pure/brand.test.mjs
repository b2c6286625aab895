// An agency's mark and color: what is taken, and the style that is made of it.
import assert from "node:assert/strict";
import test from "node:test";
import { isBrand, markOf, styleOfBrand } from "../../pages/parts/brand.js";

const COLORS = {
    accent: "#5b2a86",
    accent_2: "#49226b",
    on_accent: "#ffffff",
    accent_tint: "#ebe5f0",
    accent_line: "#bdaacf"
};

test("a mark of three characters at most, and whole themes alone, are taken", () => {
    for (const it of [
        {},
        { mark: "LT" },
        { mark: "🚐" },
        { light: COLORS },
        { mark: "L", light: COLORS, dark: COLORS }
    ])
        assert.ok(isBrand(it), JSON.stringify(it));
    for (const it of [
        null,
        "LT",
        [],
        { mark: "" },
        { mark: " " },
        { mark: "LAKE" },
        { mark: 5 },
        { light: {} },
        { light: { ...COLORS, accent: "red" } },
        { dark: { ...COLORS, accent_line: "#fff;}" } },
        { light: "teal" }
    ])
        assert.ok(!isBrand(it), JSON.stringify(it));
});

test("each theme has its colors on a screen, and paper has none", () => {
    assert.equal(styleOfBrand({ mark: "LT" }), "");
    const style = styleOfBrand({ light: COLORS, dark: { ...COLORS, accent: "#c9a6ee" } });
    assert.match(style, /^@media screen \{ /);
    assert.match(
        style,
        /prefers-color-scheme: light\) \{ :root \{ --accent: #5b2a86; --accent-2: #49226b; --on-accent: #ffffff; --accent-tint: #ebe5f0; --accent-line: #bdaacf; \}/
    );
    assert.match(style, /prefers-color-scheme: dark\) \{ :root \{ --accent: #c9a6ee;/);
    assert.doesNotMatch(styleOfBrand({ dark: COLORS }), /: light\)/);
});

test("without a mark the first letters of the name stand there", () => {
    assert.equal(markOf({ mark: "3R" }, "Three Rivers Paratransit"), "3R");
    assert.equal(markOf({}, "Three rivers Paratransit"), "TR");
    assert.equal(markOf({}, "Chaparral"), "C");
    assert.equal(markOf({}, "  "), "");
});
