/** Two replays beside each other. */

import assert from "node:assert/strict";
import { test } from "node:test";

import { beside, differingParts, partWords, placeBeside, printedBy } from "../compare.js";
import { goOn } from "../edits.js";
import { stopsOf } from "../stops.js";
import { historyOf, historyOfText, twoImps } from "./examples.js";

test("what two replays printed stands in pairs, alike lines together", async () => {
    const before = await historyOfText(twoImps(["calm 2", "out 0/1 0/2 5 8 41", "calm 4"]));
    const after = await historyOfText(twoImps(["calm 2", "out 0/1 0/2 5 8 41", "hostdown 0/2", "calm 4"]));
    const pairs = beside(printedBy(before.replay), printedBy(after.replay));
    assert.deepEqual(pairs.map((pair) => [pair.before?.text ?? "", pair.after?.text ?? ""]), [
        ["out 0/1 0/2 5 8 41", "out 0/1 0/2 5 8 41"],
        ["in 0/1 0/2 5 8 41", ""],
        ["answer rfnm 0/1 0/2 5", ""],
        ["", "down 0/2"],
        ["", "answer dead 0/1 0/2 5"],
    ]);
    assert(beside(printedBy(after.replay), printedBy(after.replay)).every((pair) => pair.before && pair.after));
});


/**
 * The words of the last moment before a position, with its line and round.
 *
 * @param {import("../fold.js").History} history
 * @param {number} position
 */
function lastDone({ replay }, position) {
    const moment = replay.moments[position - 1];
    return moment ? `${replay.input.events[moment.event].text} r${moment.round}` : "";
}

/** A script, what it became, and for a line and round of the second where the first is then. */
const BESIDE = /** @type {[string, string[], string[], [string, string][]][]} */ ([
    [
        "an added event moves nothing",
        ["calm 2", "out 0/1 0/2 5 8 41", "calm 4"],
        ["calm 2", "out 0/1 0/2 5 8 41", "hostdown 0/2", "calm 4"],
        [
            ["calm 2 r1", "calm 2 r1"],
            ["out 0/1 0/2 5 8 41 r0", "out 0/1 0/2 5 8 41 r0"],
            ["hostdown 0/2 r0", "out 0/1 0/2 5 8 41 r0"],
            ["calm 4 r3", "calm 4 r3"],
        ],
    ],
    [
        "a calm that is divided has its rounds in both parts",
        ["calm 2", "out 0/1 0/2 5 8 41", "calm 4"],
        ["calm 2", "out 0/1 0/2 5 8 41", "calm 1", "hostdown 0/2", "calm 3"],
        [
            ["calm 1 r1", "calm 4 r1"],
            ["hostdown 0/2 r0", "calm 4 r1"],
            ["calm 3 r1", "calm 4 r2"],
            ["calm 3 r2", "calm 4 r3"],
        ],
    ],
    [
        "an event that is gone is waited for by none",
        ["calm 2", "out 0/1 0/2 5 8 41", "calm 4", "take 0/1"],
        ["calm 2", "calm 4", "take 0/1"],
        [["calm 4 r1", "calm 4 r1"], ["take 0/1 r0", "take 0/1 r0"]],
    ],
]);

for (const [what, before, after, places] of BESIDE) {
    test(`the same step in another replay: ${what}`, async () => {
        const [was, now] = [await historyOfText(twoImps(before)), await historyOfText(twoImps(after))];
        assert.equal(placeBeside(was.replay, now.replay, 0), 0);
        assert.equal(placeBeside(was.replay, now.replay, now.length), was.length);
        for (const [here, there] of places) {
            const ends = now.replay.moments.flatMap((_, at) => (lastDone(now, at + 1) === here ? [at + 1] : []));
            const at = ends[ends.length - 1];
            assert.equal(lastDone(was, placeBeside(was.replay, now.replay, at)), there, here);
        }
    });
}

test("at a step from which one goes on, both replays are alike inside, in every lesson that is tried", async () => {
    for (const name of ["rerouted-over-a-triangle", "an-rfnm-is-lost-and-asked-for", "lo-of-login"]) {
        const was = await historyOf(name);
        assert(was);
        const stops = stopsOf(was, "event").filter((_, place) => place % 17 === 5);
        for (const { to } of stops) {
            const edit = goOn(was, to, ["calm 0"]);
            const now = await historyOfText(edit.text);
            const place = placeBeside(was.replay, now.replay, edit.position);
            assert.deepEqual(differingParts(was.at(place), now.at(edit.position)), [], `${name} at ${to}: ${place}`);
        }
    }
});

test("the parts that differ are named by sites and lines", async () => {
    const was = await historyOfText(twoImps(["calm 2"]));
    const now = await historyOfText(twoImps(["calm 2", "enddown 1 0"]));
    const differs = differingParts(was.at(was.length), now.at(now.length));
    assert.deepEqual(differs, ["imp 1"]);
    const words = ["imp 1", "line 0", "host 0/1", "down"].map((name) => partWords(was.network, name));
    assert.deepEqual(words, ["IMP 1", "line 0", "host 0/1", "hosts that are down"]);
});
