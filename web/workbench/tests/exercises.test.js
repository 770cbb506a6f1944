/** Each exercise can be done with as many events as it says, and what is near to a solution is not taken for one. */

import assert from "node:assert/strict";
import { test } from "node:test";

import { EXERCISES, inputOf } from "../exercises.js";
import { goalOf, judged } from "../goals.js";
import { headComment, readInput } from "../script.js";
import { program } from "./examples.js";

/** @type {{[name: string]: string[]}} */
const SOLVED = {
    "exercise-an-rfnm": ["calm 1", "out 0/1 0/2 0 8 41", "calm 2"],
    "exercise-dead-at-once": ["out 0/1 0/2 0 8 41", "take 0/1"],
    "exercise-dead-under-way": [
        "calm 1",
        "out 0/1 0/2 0 8 41",
        "calm 1",
        "out 0/1 0/2 1 8 42",
        "hostdown 0/2",
        "calm 2",
    ],
    "exercise-the-other-way-round": [
        "calm 1",
        "out 0/1 0/2 0 8 41",
        "out 0/1 0/2 1 8 42",
        "deliver 0 + 1",
        "calm 1",
    ],
    "exercise-given-up-and-not-taken": ["calm 1", "out 0/1 0/2 0 8 41", "ask 0/1 0/2 0", "drop 0 + 0", "calm 1"],
    "exercise-taken-and-incomplete": [
        "calm 1",
        "out 0/1 0/2 0 0 -",
        "enddown 1 0",
        "calm 2",
        "enddown 2 0",
        "giveup 0/1 0/2 0",
        "calm 1",
    ],
    "exercise-three-refusals": [
        "calm 1",
        "out 0/1 0/2 0 8 41",
        "out 0/1 0/2 0 8 41",
        "giveup 0/1 0/2 0",
        "hostdown 0/1",
        "hostup 0/1",
    ],
    "exercise-eight-bits": [
        "contact 0/1 0/2",
        "calm 9",
        "listen 0/2 16 8",
        "opensend 0/1 0/2 33 16 8",
        "calm 9",
        "grant 0/2 16 1 8",
        "send 0/1 33 8 41",
        "calm 9",
    ],
    "exercise-resets-in-step": ["contact 0/1 0/2", "contact 0/2 0/1", "calm 1", "contact 0/2 0/1"],
    "exercise-half-open": [
        "contact 0/1 0/2",
        "calm 3",
        "listen 0/2 16 8",
        "opensend 0/1 0/2 33 16 8",
        "calm 3",
        "hostdown 0/2",
        "hostup 0/2",
    ],
};

for (const exercise of EXERCISES) {
    test(`${exercise.name}: reached by the shortest script that is known, and by none without one of its events`, async () => {
        const script = SOLVED[exercise.name];
        assert.equal(script.length, exercise.shortest);
        const text = inputOf(exercise);
        const verdict = (/** @type {string[]} */ lines) =>
            judged(program.batch, readInput(`${text}${lines.map((it) => `${it}\n`).join("")}`));
        assert.deepEqual(await verdict([]), {
            isReached: false,
            text: `The goal is not reached yet. The shortest script that is known has ${exercise.shortest} events.`,
        });
        const { isReached, text: told } = await verdict(script);
        assert(isReached && told.startsWith(`The goal is reached, with ${exercise.shortest} events.`), told);
        for (const at of script.keys()) {
            const without = script.filter((_, place) => place !== at);
            assert(!(await verdict(without)).isReached, `without ${script[at]}`);
        }
        assert.equal(headComment(readInput(text)), exercise.task);
    });
}

test("a goal is in the head of an input, and one that can't be read is said to be so", async () => {
    assert.equal(goalOf(readInput("raw = true\n%\n# Goal: in A\n")), null);
    assert.deepEqual(goalOf(readInput("# Goal: in A ..\n%\n")), { pattern: "in A ..", shortest: 0, hint: "" });
    const { text } = await judged(program.batch, readInput("# Goal: In A\n%\n"));
    assert(text.startsWith("The goal can't be read: `In A` does not begin with"), text);
});
