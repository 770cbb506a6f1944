/**
 * What each event leaves inside, beside the independent model in Python, which ./check workbench has written into a
 * file.
 */

import assert from "node:assert/strict";
import { readFileSync } from "node:fs";
import { test } from "node:test";

import { wrongLine, wrongTopology } from "../faults.js";
import { readInput } from "../script.js";
import { partIn } from "../trace.js";
import { behind, historyOf } from "./examples.js";

const file = process.env.STATES ?? "";
/**
 * States of the model, and random lines and topologies, each with what ./explain says is wrong with it.
 *
 * @type {{states: {[name: string]: {[part: string]: any}[]}, lines: [string, boolean, string][], topologies: [string, string][]}}
 */
const given = file ? JSON.parse(readFileSync(file, "utf8")) : { states: {}, lines: [], topologies: [] };
const model = given.states;

/**
 * A host's program with its pairs in one order and without those of which nothing is known; any other part as it is.
 *
 * @param {any} part
 */
function inOrder(part) {
    if (!part?.pairs) return part;
    const isKnown = (/** @type {any} */ { phase, owed, busy, ends, commands }) => (
        phase !== "closed" || owed || busy.length + ends.length + commands.length
    );
    const pairs = part.pairs.filter(isKnown).map((/** @type {any} */ it) => ({ ...it, busy: [...it.busy].sort() }));
    return {
        pairs: pairs.sort((/** @type {any} */ a, /** @type {any} */ b) => (a.peer < b.peer ? -1 : 1)),
        listening: [...part.listening].sort((a, b) => a.socket - b.socket),
    };
}

for (const [name, states] of Object.entries(model)) {
    test(`${name}: the inside is that of the independent model after each event`, async () => {
        const history = await historyOf(name);
        assert(history);
        assert.equal(states.length, history.replay.input.events.length);
        states.forEach((parts, event) => {
            const state = history.at(behind(history, event));
            const { line } = history.replay.input.events[event];
            for (const [part, told] of Object.entries(parts)) {
                assert.deepEqual(inOrder(state.parts[part]), inOrder(partIn(part, told)), `${part} after line ${line}`);
            }
        });
    });
}

if (file) {
    // which word is meant that is near to one in no list each finds in its own way
    const plain = (/** @type {string} */ text) => text.replace(/ (?:Is `[^`]*` meant\?|Its events are .*)$/, "");

    test("lines have the fault that ./explain finds in them", () => {
        assert(given.lines.length > 1000);
        for (const [line, raw, why] of given.lines) {
            assert.equal(plain(wrongLine(line, raw) ?? ""), plain(why), `${raw ? "raw" : "programs"}: ${line}`);
        }
    });

    test("topologies have the fault that ./explain finds in them", () => {
        const found = new Set();
        for (const [text, told] of given.topologies) {
            const why = told.replace(/^Line \d+ of the file:\n.*\n/, "");
            found.add(why.replace(/[\d`]+/g, ""));
            if (/TOML/.test(why)) continue;
            assert.equal(plain(wrongTopology(readInput(text))?.text ?? ""), plain(why), text);
        }
        assert(found.size > 20, [...found].join("\n"));
    });

    test("a fold that forgets a part is found", async () => {
        const history = await historyOf("rerouted-over-a-triangle");
        assert(history);
        const states = model["rerouted-over-a-triangle"];
        const old = JSON.stringify(history.at(0).parts["line 1"]);
        assert(states.some((parts) => old !== JSON.stringify(partIn("line 1", parts["line 1"]))));
    });

    test("a fold that forgets what a host's program holds is found", async () => {
        const history = await historyOf("lo-of-login");
        assert(history);
        const old = JSON.stringify(inOrder(history.at(0).parts["program 0/2"]));
        assert(model["lo-of-login"].some((parts) => old !== JSON.stringify(inOrder(parts["program 0/2"]))));
    });
}
