/** Patterns, by rows and as ./explore reads them; and searches by them. */

import assert from "node:assert/strict";
import { readFileSync } from "node:fs";
import { test } from "node:test";

import { chance } from "../../check/chance.js";
import { BadPattern, match, readPattern } from "../pattern.js";
import { find, headOf, matching, searches } from "../schedules.js";
import { readTopology } from "../topology.js";
import { program } from "./examples.js";

/**
 * What ./explore says of patterns.
 *
 * @type {{
 *     patterns?: {pattern: string, lines: string[], last: string[], names: {[name: string]: string} | null}[],
 *     "bad patterns"?: {[pattern: string]: string},
 * }}
 */
const said = process.env.STATES ? JSON.parse(readFileSync(process.env.STATES, "utf8")) : {};
const told = said.patterns ?? [];

test("patterns match as they say", () => {
    const taken = ["out 0/1 0/2 5 8", "in 0/1 0/2 5 8", "answer incomplete 0/1 0/2 5"];
    const right = [
        "in A B N ..", "in A B N M where N < M", "in A B .. where A != B", "out A .. then answer incomplete ..",
        "in A B N .. then answer incomplete A B N", "in A B .. then not refused ..", "in A .. and answer incomplete A ..",
    ];
    const wrong = [
        "in A B N", "in A B N M where M < N", "in A B .. then not answer ..", "answer _ A B N then in A B N ..",
        "in A B N .. then answer incomplete B A N", "out A .. then not in .. then answer .. A B N",
    ];
    for (const pattern of right) assert(match(readPattern(pattern), taken), pattern);
    for (const pattern of wrong) assert.equal(match(readPattern(pattern), taken), null, pattern);
    const calm = readPattern("calm 5: no ready, 2 lines");
    assert(match(calm, [], ["up 0/1", "down 0/1"]) && !match(calm, [], ["up 0/1"]) && !match(calm, [], ["up 0/1", "ready 0/1"]));
    for (const bad of ["", "not in A", "In A", "in A where A", "calm 5: some", "noted never A"]) {
        assert.throws(() => readPattern(bad), BadPattern);
    }
});

test("what is wrong with a pattern is said as ./explore says it", () => {
    const bad = Object.entries(said["bad patterns"] ?? {});
    for (const [pattern, message] of bad) {
        const says = (/** @type {unknown} */ error) => error instanceof Error && error.message === message;
        assert.throws(() => readPattern(pattern), says);
    }
    assert(!process.env.STATES || bad.length > 8);
});

test("patterns match where ./explore says so, with its names", () => {
    for (const { pattern, lines, last, names } of told) {
        const found = match(readPattern(pattern), lines, last);
        assert.equal(found !== null, names !== null, `${pattern}\n${lines.join("\n")}`);
    }
    assert(!process.env.STATES || told.length > 100);
});

test("a search by name finds a short script, and what is left of it is needed", async () => {
    for (const name of ["taken-and-incomplete", "resets-in-step"]) {
        const search = searches().find((it) => it.name === name);
        assert(search, name);
        const head = headOf(search.network);
        const network = readTopology(head.join("\n"));
        const how = { seconds: 300, isOver: () => false, tell: () => {} };
        const { script, count } = await find(program.batch, head, network, search.pattern, chance(3), how);
        assert(script && script.length < 14, `${name}: ${count} schedules, ${script}`);
        const pattern = readPattern(search.pattern);
        assert.deepEqual(await matching(program.batch, head, pattern, [script]), [true]);
        const without = script.map((_, at) => script.filter((_, place) => place !== at));
        assert(!(await matching(program.batch, head, pattern, without)).includes(true), `${name}: ${script}`);
    }
});
