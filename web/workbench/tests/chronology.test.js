/** The years in the page: each row of docs/chronology.md, and each of its links is a lesson of the page. */

import assert from "node:assert/strict";
import { readFileSync } from "node:fs";
import { test } from "node:test";

import { readChronology } from "../chronology.js";
import { exampleNames } from "./examples.js";

const text = readFileSync(new URL("../../../docs/chronology.md", import.meta.url), "utf8");

test("each year has its row, and its links lead to lessons", () => {
    const { rows, notes } = readChronology(text);
    const plain = (/** @type {import("../chronology.js").Piece[]} */ it) =>
        it.map((piece) => (typeof piece === "string" ? piece : piece.text)).join("");
    const whens = rows.map(({ when }) => plain(when));
    for (const when of ["29 October 1969, 22:30", "December 1969", "August 1972", "July 1977", "27 October 1980"]) {
        assert(whens.includes(when), when);
    }
    const all = [...rows.flatMap((row) => Object.values(row)), ...notes];
    const lessons = all.flat().flatMap((piece) => (typeof piece === "string" ? [] : [piece.lesson]));
    assert.equal(lessons.length, [...text.matchAll(/\]\(\.\.\/examples\//g)].length);
    assert(lessons.length >= 8 && lessons.every((it) => exampleNames().includes(it)), lessons.join());
    assert(all.every((it) => !/[*\]|]|\.md/.test(plain(it))), "nothing of the spelling is left");
    assert(notes.some((it) => plain(it).startsWith("October 1980. ")), "why it can't happen here");
});
