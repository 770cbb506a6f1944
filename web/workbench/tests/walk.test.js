/** Where a step leads, and what Undo brings back. */

import assert from "node:assert/strict";
import { test } from "node:test";

import { Past } from "../past.js";
import { notesOf } from "../script.js";
import { stopsOf } from "../stops.js";
import { answerTo, nextFollowed, nextFound, nextLine, nextRefusal, questionAt } from "../walk.js";
import { historyOfText, twoImps } from "./examples.js";

const SCRIPT = ["calm 2", "#? What comes?", "#! That.", "out 0/1 0/2 5 8 41", "out 0/1 0/2 5 8 42", "calm 4"];

test("lines are gone through forth and back", async () => {
    const stops = stopsOf(await historyOfText(twoImps(SCRIPT)), "round");
    assert.deepEqual(stops.map((stop) => stop.event), [0, 0, 1, 2, 3, 3, 3, 3]);
    assert.deepEqual([0, 1, 2, 3, 4].map((at) => nextLine(stops, at, 1)), [2, 2, 3, 4, 8]);
    assert.deepEqual([8, 5, 4, 3, 2, 1, 0].map((at) => nextLine(stops, at, -1)), [4, 4, 3, 2, 0, 0, 0]);
});

test("a flow and what is found are gone through forth and back", () => {
    assert.deepEqual([0, 3, 4, 8].map((at) => nextFollowed([2, 3, 7], at, 1, 9)), [3, 4, 8, 9]);
    assert.deepEqual([9, 8, 4, 3].map((at) => nextFollowed([2, 3, 7], at, -1, 9)), [8, 4, 3, 0]);
    assert.deepEqual([0, 3, 8].map((at) => nextFound([2, 7], at, 1)), [2, 7, 2]);
    assert.deepEqual([9, 8, 3].map((at) => nextFound([2, 7], at, -1)), [7, 2, 7]);
    assert.equal(nextFound([], 3, 1), undefined);
});

test("the next refusal is found, and after the last none", async () => {
    const history = await historyOfText(twoImps(SCRIPT));
    const stops = stopsOf(history, "round");
    assert.equal(nextRefusal(history, stops, 0), 3);
    assert.equal(nextRefusal(history, stops, 4), -1);
});

test("a question is asked before its event, once, and answered after it", async () => {
    const history = await historyOfText(twoImps(SCRIPT));
    const stops = stopsOf(history, "round");
    const notes = notesOf(history.replay.input);
    const question = questionAt(notes, stops, 2, new Set());
    assert(question?.text === "What comes?");
    assert.deepEqual([0, 1, 3, 8].map((at) => questionAt(notes, stops, at, new Set())), [null, null, null, null]);
    assert.equal(questionAt(notes, stops, 2, new Set([question])), null);
    assert.equal(answerTo(notes, stops, 2, question), null);
    assert.equal(answerTo(notes, stops, 3, question)?.text, "That.");
});

test("Undo brings back each change and the lesson before, and Redo does it again", () => {
    const past = new Past();
    const kept = (/** @type {string} */ text, origin = "a") => ({ text, position: 1, example: "", origin });
    past.add(kept("a"));
    past.add(kept("b"));
    past.add(kept("b"));
    assert.equal(past.done.length, 2);
    assert.equal(past.undo(kept("c"))?.text, "b");
    assert.equal(past.redo(kept("b"))?.text, "c");
    assert.equal(past.redo(kept("c")), undefined);
    past.leave(kept("c"));
    assert.deepEqual(past.done.map((it) => it.text), ["a", "b", "c"]);
    past.leave(kept("a"));
    assert.deepEqual(past.done, []);
    assert.equal(past.undo(kept("a")), undefined);
});
