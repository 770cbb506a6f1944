/** What IMPs know of flows: a part for each, which goes when they forget it. */

import assert from "node:assert/strict";
import { test } from "node:test";

import { differingParts, partWords } from "../compare.js";
import { LIMITS, isReplay, replay } from "../runs.js";
import { State } from "../state.js";
import { isOfFlow, put, TraceReader } from "../trace.js";
import { historyOfText, PATIENT, run, twoImps } from "./examples.js";

/** A message and its RFNM, on each link between two hosts. */
const OF_LINK = [
    "deliver 0 + 0", "drop 0 + 0", "take 0/2", "deliver 0 - 1", "drop 0 - 0", "drop 0 - 0", "take 0/1", "drop 0 + 0",
];
const FLOW = "0/1 0/2 5";
const LINKS = Array.from({ length: 256 }, (_, link) => link);
const MANY = twoImps(["calm 2", ...LINKS.flatMap((link) => [`out 0/1 0/2 ${link} 8 41`, ...OF_LINK])]);

test("a script with a message on each of 256 links is shown to its end", async () => {
    const it = await replay(run, MANY, { ...PATIENT, octets: LIMITS.octets });
    assert(isReplay(it));
    assert.equal(it.cut, "");
    const history = await historyOfText(MANY);
    assert.equal(history.length, it.moments.length);
    const state = history.at(history.length);
    assert.deepEqual(state.sourceFlows().map(({ flow }) => flow), LINKS.map((link) => `0/1 0/2 ${link}`));
    assert(state.sourceFlows().every(({ imp, state, number }) => imp === 1 && state === "idle" && number === 0));
    assert(state.keptFlows().every(({ imp, fate, number }) => imp === 2 && fate === "taken" && number === 0));
    assert.equal(state.keptFlows().length, 256);
    assert(it.moments.every(({ parts }) => parts.filter(([name]) => isOfFlow(name)).length <= 1), "an event tells of others");
});

test("a flow that an IMP forgets is there no more, at any step", async () => {
    const gone = ["forget 2 1", "impdown 1", "impup 1"];
    const history = await historyOfText(twoImps(["calm 2", "out 0/1 0/2 5 8 41", ...OF_LINK, ...gone]));
    const at = (/** @type {number} */ before) => history.at(history.length - before);
    assert.deepEqual([at(3).source(FLOW), at(3).kept(FLOW)], [{ state: "idle", number: 0 }, { fate: "taken", number: 0 }]);
    assert.deepEqual([at(2).source(FLOW)?.state, at(2).kept(FLOW)], ["idle", null]);
    assert.deepEqual([at(1).source(FLOW), at(0).source(FLOW)], [null, null]);
    assert.deepEqual(Object.keys(at(0).parts).filter(isOfFlow), []);
});

test("flows are in order of source, destination and link", async () => {
    const outs = ["out 1/1 0/1 5 1 80", "out 0/1 1/1 200 1 80", "out 0/1 1/1 20 1 80", "out 0/1 0/1 255 1 80"];
    const history = await historyOfText(["raw = true", "[[imp]]", "id = 1", "hosts = 2", "%", ...outs, ""].join("\n"));
    const flows = history.at(4).sourceFlows().map(({ flow }) => flow);
    assert.deepEqual(flows, ["0/1 0/1 255", "0/1 1/1 20", "0/1 1/1 200", "1/1 0/1 5"]);
});

test("where two states differ in a flow the IMP is named that knows it", async () => {
    const history = await historyOfText(twoImps(["calm 2", "out 0/1 0/2 5 8 41", ...OF_LINK]));
    const state = history.at(history.length);
    const names = (/** @type {{[name: string]: any}} */ parts) => (
        differingParts(state, new State(history.network, parts)).map((name) => partWords(history.network, name))
    );
    const { [`source ${FLOW}`]: _, ...others } = state.parts;
    assert.deepEqual(names({ ...state.parts }), []);
    assert.deepEqual(names({ ...state.parts, [`kept ${FLOW}`]: { fate: "waits", number: 0 } }), ["IMP 2"]);
    assert.deepEqual(names(others), ["IMP 1"]);
    assert.deepEqual(names({ ...others, [`kept ${FLOW}`]: { fate: "taken", number: 1 } }), ["IMP 1", "IMP 2"]);
});

test("parts are put in their places, and those of flows that are gone are taken away", () => {
    /** @type {{[name: string]: any}} */
    const parts = { "imp 1": { hosts: [] }, "source 0/1 0/2 5": { state: "idle", number: 0 } };
    put(parts, [["imp 1", null], ["source 0/1 0/2 5", null], ["kept 0/1 0/2 5", { fate: "dead", number: 7 }]]);
    assert.deepEqual(parts, { "imp 1": null, "kept 0/1 0/2 5": { fate: "dead", number: 7 } });
});

test("a trace of another format is refused by name", () => {
    for (const format of [1, 2, 4]) {
        const reader = new TraceReader();
        reader.add(new TextEncoder().encode(`{"trace":${format},"parts":{"imp 1":{"sources":[]}}}\n{"line":1}\n`));
        assert.throws(() => reader.read(), /not of format 3/);
    }
});
