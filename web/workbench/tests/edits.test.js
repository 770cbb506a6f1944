import assert from "node:assert/strict";
import { test } from "node:test";

import { addedLines, goOn } from "../edits.js";
import { stopsOf } from "../stops.js";
import { isQuiet, REST } from "../trace.js";
import { exampleNames, exampleText, historyInRounds, historyOf, historyOfText } from "./examples.js";

/** @typedef {import("../fold.js").History} History */
/** @typedef {import("../edits.js").Edit} Edit */

const NAMES = exampleNames().filter((name) => !/a-bad-line|an-unknown-event|a-stream-over|late-seventies/.test(name));
const GRAINS = /** @type {const} */ (["event", "arrival", "round"]);

/**
 * Numbers that look random, the same each time.
 *
 * @param {number} seed
 */
function chance(seed) {
    let state = seed >>> 0;
    return (/** @type {number} */ below) => {
        state = (Math.imul(state, 1664525) + 1013904223) >>> 0;
        return Math.floor((state / 2 ** 32) * below);
    };
}

/**
 * What is printed by the moments before a position.
 *
 * @param {History} history
 * @param {number} position
 */
function printedBefore(history, position) {
    return history.replay.moments.slice(0, position).flatMap((moment) => moment.printed);
}

/**
 * Whether a replay has quiet rounds as a whole, and not what happens within them.
 *
 * @param {History} history
 */
function hasQuiet({ replay }) {
    return replay.moments.some(isQuiet);
}

/**
 * The rounds of all calms of a text.
 *
 * @param {string} text
 */
function rounds(text) {
    return [...text.matchAll(/^calm (\d+)$/gm)].reduce((sum, found) => sum + Number(found[1]), 0);
}

/**
 * What is wrong with an edit: the state and the printed lines before the added ones have to be those of the position,
 * and no round is lost.
 *
 * @param {History} history
 * @param {number} position
 * @param {Edit} edit
 */
async function wrongWith(history, position, edit) {
    const after = await historyOfText(edit.text);
    const found = [];
    if (JSON.stringify(after.at(edit.position).parts) !== JSON.stringify(history.at(edit.position).parts)) {
        found.push("state");
    }
    if (JSON.stringify(printedBefore(after, edit.position)) !== JSON.stringify(printedBefore(history, edit.position))) {
        found.push("printed");
    }
    if (rounds(edit.text) !== rounds(history.replay.input.text)) found.push("rounds");
    if (hasQuiet(after) !== hasQuiet(history)) found.push("inside");
    const script = edit.text.split("\n%\n")[1].split("\n");
    if (script[edit.line - 1] !== "calm 0") found.push("place");
    return position < 0 ? [] : found;
}

for (const name of NAMES) {
    test(`${name}: going on from a position is exact`, async () => {
        const history = await historyOf(name);
        assert(history);
        const next = chance(name.length * 7919 + name.charCodeAt(3));
        for (const grain of GRAINS) {
            const stops = stopsOf(history, grain);
            for (let turn = 0; turn < 2; turn += 1) {
                const place = next(stops.length + 1);
                const position = place ? stops[place - 1].to : 0;
                assert.deepEqual(
                    await wrongWith(history, position, goOn(history, position, ["calm 0"])),
                    [],
                    `${grain}, position ${position}`,
                );
            }
        }
    });
}

test("after a quiet round as a whole, which is no script line, one goes on at the end of its round", async () => {
    const history = await historyInRounds(exampleText("arpanet-of-the-late-seventies"));
    const { moments } = history.replay;
    const isSame = (/** @type {number} */ at) => moments[at].event === moments[at - 1].event
        && moments[at].round === moments[at - 1].round;
    const position = moments.findIndex((_, at) => at > 1 && isQuiet(moments[at - 1]) && isSame(at));
    const edit = goOn(history, position, ["calm 0"]);
    assert(edit.position > position && isSame(edit.position - 1) && !isSame(edit.position));
    const after = await historyInRounds(edit.text);
    assert.deepEqual(after.at(edit.position).parts, history.at(edit.position).parts);
    assert.deepEqual(printedBefore(after, edit.position), printedBefore(history, edit.position));
    assert.deepEqual(goOn(history, edit.position, ["calm 0"]), edit);
});

test("within a round in which uneventful moments are joined, one goes on after each of their events", async () => {
    const history = await historyOf("arpanet-of-the-late-seventies");
    assert(history);
    const { moments } = history.replay;
    const isSame = (/** @type {number} */ at) => moments[at]?.event === moments[at - 1].event
        && moments[at].round === moments[at - 1].round;
    const within = moments.flatMap(({ words }, at) => (words[0] === REST && isSame(at + 1) ? [at + 1] : []));
    const position = within[within.length >> 1];
    const edit = goOn(history, position, ["calm 0"]);
    assert(edit.position > position && edit.text.includes(`\n${moments[position - 1].events?.join("\n")}\n`));
    const after = await historyOfText(edit.text);
    assert.deepEqual(after.at(edit.position).parts, history.at(position).parts);
    assert.deepEqual(printedBefore(after, edit.position), printedBefore(history, position));
});

test("planted faults of going on are found", async () => {
    const history = await historyOf("arpanet-of-december-1969");
    assert(history);
    const stops = stopsOf(history, "event");
    const within = stops.map((stop) => stop.to).filter(
        (at) => history.replay.moments[at]?.round > 1
            && history.replay.moments[at - 1]?.round === history.replay.moments[at].round
            && history.replay.moments[at - 1].words[0] === "deliver",
    );
    const edits = within.filter((_, place) => place % 61 === 7).slice(0, 12).map(
        (position) => ({ position, edit: goOn(history, position, ["calm 0"]) }),
    );
    /** @type {[string, (text: string) => string][]} */
    const planted = [
        [
            "a round is lost",
            (text) => text.replace(/(calm 0\ncalm )(\d+)/, (_, start, count) => `${start}${Number(count) - 1}`),
        ],
        ["the last event of the round is left out", (text) => text.replace(/\n[^\n]*\ncalm 0\n/, "\ncalm 0\n")],
        ["drop before deliver", (text) => text.replace(/\n(deliver [^\n]*)\n(drop [^\n]*)\n/, "\n$2\n$1\n")],
    ];
    for (const [what, fault] of planted) {
        let found = 0;
        for (const { position, edit } of edits) {
            found += (await wrongWith(history, position, { ...edit, text: fault(edit.text) })).length;
        }
        assert(found > 0, what);
    }
});

test("lines that were added are told from those that were there", () => {
    assert.deepEqual([...addedLines(["a", "b", "c"], ["a", "x", "b", "c", "y"])], [2, 5]);
    assert.deepEqual([...addedLines(["calm 4"], ["calm 2", "enddown 1 0", "calm 2"])], [1, 2, 3]);
    assert.deepEqual([...addedLines(["a"], ["a"])], []);
});
