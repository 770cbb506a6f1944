/** What can happen now is what the program says, at random positions of every example. */

import assert from "node:assert/strict";
import { test } from "node:test";

import { chance } from "../../check/chance.js";
import { goOn } from "../edits.js";
import { octetsOf, textOf } from "../octets.js";
import { candidates, possible } from "../possible.js";
import { Talk } from "../talk.js";
import { exampleNames, historyOf, PATIENT, program } from "./examples.js";

test("each event that can happen is not refused, each other is, and it prints what is said", async () => {
    const draw = chance(80);
    let [can, cannot] = [0, 0];
    for (const name of exampleNames()) {
        const history = await historyOf(name);
        if (!history || history.network.sites.length > 12 || /stream|slots-are-held/.test(name)) continue;
        const position = draw(history.length + 1);
        const tried = candidates(history.at(position), new Talk(history.replay).goTo(position));
        const lines = tried.map((it) => it.line);
        assert.equal(new Set(lines).size, lines.length, `${name}: a candidate is there twice`);
        const found = await possible(program.batch, history, position, tried);
        assert(found.count === tried.length && found.possible.length > 0, name);
        const known = new Map(found.possible.map((it) => [it.line, it]));
        for (const { line } of [tried[draw(tried.length)], tried[draw(tried.length)]]) {
            const printed = async (/** @type {string[]} */ more) => {
                const outcome = await program.run([], octetsOf(goOn(history, position, more, true).text), PATIENT);
                return textOf(outcome).split("\n").slice(0, -2);
            };
            const own = (await printed([line])).slice((await printed([])).length);
            const isRefused = own.some((it) => it.startsWith("refused "));
            assert.equal(known.has(line), !isRefused, `${name} at ${position}: ${line}`);
            if (!isRefused) assert.deepEqual(known.get(line)?.printed, own, `${name} at ${position}: ${line}`);
            if (isRefused) cannot += 1;
            else can += 1;
        }
    }
    assert(can > 40 && cannot > 5, `${can} ${cannot}`);
});
