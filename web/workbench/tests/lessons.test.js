/** The lessons: their order, and the questions that are asked in them. */

import assert from "node:assert/strict";
import { test } from "node:test";

import { INTRODUCTIONS } from "../introductions.js";
import { arranged, opened, withQuestions } from "../lessons.js";
import { QUESTIONS } from "../questions.js";
import { headComment, notesOf, readInput } from "../script.js";
import { exampleNames, exampleText, historyOf, historyOfText, twoImps } from "./examples.js";

const REFUSED = ["a-bad-line", "an-unknown-event"];

/** Words that say nothing a plainer word doesn't say. */
const UNPLAIN = /\b(?:told|stands?|goes on|so many|behind|alone)\b/;

/** @param {string} name */
function given(name) {
    return { name, title: name, text: exampleText(name) };
}

test("questions and answers are comments before their line", () => {
    const input = readInput(withQuestions(twoImps(["calm 2", "out 0/1 0/2 5 8 41"]), [[2, "What comes?", "That."]]));
    assert.deepEqual(notesOf(input), [
        { kind: "question", line: 2, last: 2, before: 1, text: "What comes?" },
        { kind: "answer", line: 3, last: 3, before: 1, text: "That." },
    ]);
});

test("thousands of comments have few rows, and are counted", () => {
    const rows = /** @type {[string, string[], number, string][]} */ ([
        ["in a row", Array(5000).fill("#x"), 200, "x … 4800 more"],
        ["with nothing between", Array(5000).fill("#x\n"), 200, "x … 4800 more"],
        ["between events", Array(5000).fill("#x\ntake 0/2"), 1000, "x … 4000 more"],
    ]);
    for (const [what, script, count, text] of rows) {
        const notes = notesOf(readInput(twoImps(["calm 2", ...script])));
        assert.equal(notes.length, count, what);
        assert.equal(notes[count - 1].text, text, what);
    }
});

test("each example is in one group, and each that runs has a question", () => {
    const names = exampleNames();
    const lessons = arranged(names.map(given));
    const own = lessons.filter((it) => !it.name.startsWith("exercise-"));
    assert.deepEqual(own.map((it) => it.name).sort(), [...names].sort());
    assert.deepEqual(lessons.slice(0, 2).map((it) => it.name), ["first-message", "a-message-given-up"]);
    assert.deepEqual(lessons.filter((it) => it.group === "What is refused").map((it) => it.name).sort(), REFUSED);
    assert.deepEqual(names.filter((name) => !QUESTIONS[name]), REFUSED);
    assert.deepEqual(Object.keys(QUESTIONS).filter((name) => !names.includes(name)), []);
});

test("each lesson says what it is about before its first step, in a few words", () => {
    for (const { name, text } of arranged(exampleNames().map(given))) {
        const introduction = headComment(readInput(text));
        assert(introduction.length > 40 && !UNPLAIN.test(INTRODUCTIONS[name] ?? ""), `${name}: ${introduction}`);
    }
    for (const [name, text] of Object.entries(INTRODUCTIONS)) {
        assert(exampleNames().includes(name) && /[.?]$/.test(text) && text.length < 200, name);
    }
});

test("an example with which a page opens has its questions, and another input is as it is", () => {
    const lesson = given("first-message");
    const [example, other] = opened([lesson, { name: "x", title: "x", text: twoImps([]) }], [lesson]);
    assert.equal(example.text, arranged([lesson])[0].text);
    assert.deepEqual([example.name, other.name, other.text], ["opened-1", "opened-2", twoImps([])]);
});

test("questions are in plain words, and end as questions and answers do", () => {
    for (const [name, asked] of Object.entries(QUESTIONS)) {
        for (const [, ask, answer] of asked) {
            assert(!UNPLAIN.test(`${ask} ${answer}`), `${name}: ${ask} ${answer}`);
            assert(/\?$/.test(ask) && /[.)]$/.test(answer), `${name}: ${ask} ${answer}`);
        }
    }
});

for (const name of Object.keys(QUESTIONS)) {
    test(`${name}: each question is before an event, and changes nothing that is printed`, async () => {
        const { text } = /** @type {{ text: string }} */ (arranged([given(name)]).find((it) => it.name === name));
        const { lines } = readInput(exampleText(name));
        for (const [line] of QUESTIONS[name]) assert.equal(lines[line - 1].kind, "event", `line ${line}`);
        const asked = notesOf(readInput(text)).filter((it) => it.kind !== "comment");
        assert.equal(asked.length, 2 * QUESTIONS[name].length);
        const [asking, without] = [await historyOfText(text), await historyOf(name)];
        const printed = (/** @type {typeof without} */ it) => it?.replay.moments.map((moment) => moment.printed);
        assert.deepEqual(printed(asking), printed(without));
    });
}
