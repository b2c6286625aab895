// The names by which a draft knows the controls of a form that is made anew.
import assert from "node:assert/strict";
import test from "node:test";
import { controlName } from "../../pages/parts/control-name.js";

const control = (type, name, value = "", id = `${name}-7`) => ({ type, name, id, value });

test("each tick of a group has a name of its own, the same in each form", () => {
    const names = Array.from({ length: 12 }, (_, at) =>
        controlName(control("checkbox", `months-${at + 1}`, "on", `months-${at + 1}-${at + 40}`))
    );
    assert.equal(new Set(names).size, 12);
    assert.equal(
        controlName(control("checkbox", "missed-31", "on", "missed-31-9")),
        controlName(control("checkbox", "missed-31", "on", "missed-31-77"))
    );
});

test("what is counted up in a radio's name or in an id is left out", () => {
    assert.equal(
        controlName(control("radio", "attendant-4", "true")),
        controlName(control("radio", "attendant-19", "true"))
    );
    assert.notEqual(
        controlName(control("radio", "attendant-4", "true")),
        controlName(control("radio", "attendant-4", "false"))
    );
    assert.equal(
        controlName(control("checkbox", "", "on", "tick-4")),
        controlName(control("checkbox", "", "on", "tick-19"))
    );
    assert.equal(controlName(control("text", "from")), "from");
});
