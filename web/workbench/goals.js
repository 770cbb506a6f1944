/**
 * Goals: what a script shall reach, as a pattern in the comment at the head of an input, and whether it does.
 *
 *     # Goal: in A B N .. then answer incomplete A B N
 *     # Shortest known: 7 events
 *     # Hint: cut the line before the answer is through
 */

import { TABLE } from "../../python/dorydate/sentences/table.mjs";
import { BadPattern, readPattern } from "./pattern.js";
import { matching } from "./schedules.js";
import { filled } from "./words.js";

/** @typedef {import("../run/runner.js").Runner} Runner */
/** @typedef {import("./script.js").Input} Input */

/** @typedef {{pattern: string, shortest: number, hint: string}} Goal the shortest is 0 where none is known, the hint "" where there is none */

const GOAL = /^#\s*Goal:\s*(.+)$/;
const HINT = /^#\s*Hint:\s*(.+)$/;
const SHORTEST = /^#\s*Shortest known:\s*(\d+) events?\.?$/;

/**
 * The goal of an input; null where it has none.
 *
 * @param {Input} input
 * @returns {Goal | null}
 */
export function goalOf({ head }) {
    const of = (/** @type {RegExp} */ form) => head.map((line) => form.exec(line)?.[1]).find((it) => it !== undefined);
    const pattern = of(GOAL);
    if (pattern === undefined) return null;
    return { pattern: pattern.trim(), shortest: Number(of(SHORTEST) ?? 0), hint: (of(HINT) ?? "").trim() };
}

/**
 * Whether an input reaches its goal, in a sentence; "" where it has none.
 *
 * @param {Runner["batch"]} batch
 * @param {Input} input
 * @returns {Promise<{isReached: boolean, text: string}>}
 */
export async function judged(batch, input) {
    const goal = goalOf(input);
    if (!goal) return { isReached: false, text: "" };
    const known = goal.shortest ? filled(TABLE.goals.shortest, { events: goal.shortest }) : "";
    try {
        const script = input.events.map((it) => it.text);
        const head = input.head.filter((line) => !line.startsWith("#"));
        const [isReached] = await matching(batch, head, readPattern(goal.pattern), [script]);
        const text = isReached ? filled(TABLE.goals.reached, { events: script.length }) : TABLE.goals["not reached"];
        return { isReached, text: `${text} ${known}`.trim() };
    } catch (why) {
        if (why instanceof BadPattern) return { isReached: false, text: filled(TABLE.goals.bad, { why: why.message }) };
        throw why;
    }
}
