/** Codes of exercises: what is solved comes back, and a letter that is mistyped is found. */

import assert from "node:assert/strict";
import { test } from "node:test";

import { classIn, codeOf, solvedIn } from "../codes.js";
import { EXERCISES, inputOf } from "../exercises.js";
import { goalOf } from "../goals.js";
import { headComment, notesOf, readInput } from "../script.js";

test("a code says what was solved, also in small letters and with letters that look alike", () => {
    const solved = Object.fromEntries(EXERCISES.map(({ name, shortest }, at) => [name, at % 3 ? shortest + at : 0]));
    const code = codeOf(solved);
    assert(/^[0-9A-Z]{5}-[0-9A-Z]{5}-[0-9A-Z]{4}$/.test(code), code);
    assert.deepEqual(solvedIn(code), EXERCISES.map(({ name }) => solved[name]));
    assert.deepEqual(solvedIn(code.toLowerCase().replace(/0/g, "o").replace(/-/g, " ")), solvedIn(code));
});

test("a letter that is changed makes a code none, but for a few of a thousand", () => {
    const code = codeOf({ [EXERCISES[0].name]: 3, [EXERCISES[9].name]: 31 }).replace(/-/g, "");
    let missed = 0;
    for (let at = 0; at < code.length; at += 1) {
        for (const letter of "0123456789ABCDEFGHJKMNPQRSTVWXYZ") {
            if (letter !== code[at] && solvedIn(code.slice(0, at) + letter + code.slice(at + 1))) missed += 1;
        }
    }
    assert(missed < 3, String(missed));
    assert.equal(solvedIn(""), null);
    assert.equal(solvedIn(code.slice(1)), null);
});

test("a class is read line by line", () => {
    const code = codeOf({ [EXERCISES[2].name]: 6 });
    const read = classIn(`Ada Lovelace, ${code}\n\nBob ${code.replace("-", "")}\n${code}\nnobody`);
    assert.deepEqual(read.map((it) => it.who), ["Ada Lovelace", "Bob", "?", "nobody"]);
    assert.deepEqual(read.map((it) => it.solved?.[2] ?? null), [6, 6, 6, null]);
});

test("each exercise has a hint, which is no part of its task", () => {
    for (const it of EXERCISES) {
        const input = readInput(inputOf(it));
        assert.equal(goalOf(input)?.hint, it.hint);
        assert.equal(headComment(input), it.task);
    }
});

test("thousands of comments in a row have few rows", () => {
    const input = readInput(`raw = true\n%\n${"#x\n".repeat(5000)}calm 1\n# y\n`);
    const notes = notesOf(input);
    assert(notes.length < 300, String(notes.length));
    assert(/… 4800 more$/.test(notes[notes.length - 2].text));
    assert.equal(notes[notes.length - 1].text, "y");
});
