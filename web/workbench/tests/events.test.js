/** The table of events, and the schedules that are made of it. */

import assert from "node:assert/strict";
import { test } from "node:test";

import { TABLE } from "../../../python/dorydate/sentences/table.mjs";
import { EVENTS, eventsOf, OF_CARRIERS, OF_RAW, OF_WORLDS } from "../events.js";
import { faultOf } from "../faults.js";
import { readInput } from "../script.js";

const RAW = ["raw = true", "[[imp]]", "id = 1", "hosts = 1", "%"];

test("each event is of one kind, and scripts have those of theirs", () => {
    assert.deepEqual(eventsOf("carrier"), ["giveup", "hostdown", "hostup"]);
    assert.equal(OF_CARRIERS.length, 16);
    assert.deepEqual(OF_RAW.filter((word) => !OF_WORLDS.includes(word)), ["out"]);
    assert.equal(new Set([...OF_RAW, ...OF_WORLDS]).size, Object.keys(EVENTS).length);
});

test("each operand that is a number has a range, and all others a form of their own", () => {
    const named = new Set(Object.values(EVENTS).flatMap(({ operands }) => operands));
    const own = ["S", "D", "H", "P", "OCTETS", "+|-", "TEXT"];
    assert.deepEqual([...named].filter((it) => !(it in TABLE.ranges) && !own.includes(it)), []);
});

test("an event with too few words is refused with its operands", () => {
    for (const [word, { operands }] of Object.entries(EVENTS).filter(([word]) => OF_RAW.includes(word))) {
        const input = readInput([...RAW, word, ""].join("\n"));
        const { text } = faultOf({ input, said: "arpasim: bad script line 1", status: 2 });
        assert(text.includes([word, ...operands].join(" ")), `${word}: ${text}`);
    }
});
