/**
 * An input and its script: lines, events, comments, questions.
 *
 * Lines of the script are counted from 1 after the marker, as the program counts them.
 */

import { joinedWords } from "./words.js";

/**
 * @typedef {object} ScriptLine
 * @property {number} line its number, from 1 after the marker
 * @property {string} text
 * @property {"event" | "comment" | "blank"} kind
 */

/**
 * @typedef {object} ScriptEvent
 * @property {number} line
 * @property {string} text
 * @property {string[]} words
 */

/**
 * @typedef {object} Input
 * @property {string} text
 * @property {string[]} head the lines before the marker
 * @property {boolean} marked whether there is a marker
 * @property {ScriptLine[]} lines the lines after it
 * @property {ScriptEvent[]} events those that ask for an event
 */

/**
 * A comment of several lines as one, or a question that is asked before the event that follows.
 *
 * @typedef {object} Note
 * @property {"comment" | "question" | "answer"} kind
 * @property {number} line its first line
 * @property {number} last its last line
 * @property {number} before the place among the events of the one that follows
 * @property {string} text
 */

/**
 * Splits an input.
 *
 * @param {string} text
 * @returns {Input}
 */
export function readInput(text) {
    const all = text.split("\n");
    const at = all.indexOf("%");
    const after = at < 0 ? [] : all.slice(at + 1);
    if (after.length && after[after.length - 1] === "") after.pop();
    /** @type {ScriptLine[]} */
    const lines = after.map(
        (it, place) => (
            { line: place + 1, text: it, kind: it === "" ? "blank" : it.startsWith("#") ? "comment" : "event" }
        ),
    );
    const events = lines.filter((it) => it.kind === "event").map(
        (it) => ({ line: it.line, text: it.text, words: wordsOf(it.text) }),
    );
    return { text, head: at < 0 ? all : all.slice(0, at), marked: at >= 0, lines, events };
}

/**
 * The words of an event. What is typed is one word, spaces included.
 *
 * @param {string} text
 * @returns {string[]}
 */
export function wordsOf(text) {
    const words = text.split(" ");
    return words[0] === "type" && words.length > 2 ? [...words.slice(0, 2), words.slice(2).join(" ")] : words;
}

/**
 * The text of an input with other lines after the marker.
 *
 * @param {Input} input
 * @param {string[]} lines
 * @returns {string}
 */
export function withScript(input, lines) {
    return `${[...input.head, "%", ...lines].join("\n")}\n`;
}

const MOST_ALONE = 200; // comments in a row that have a row each
const MOST_NOTES = 1000; // comments of a script that have one

/**
 * The comments of a script; `#?` asks a question and `#!` gives its answer.
 *
 * A comment whose line is full, and that continues in the next one, is one comment.
 *
 * @param {Input} input
 * @returns {Note[]}
 */
export function notesOf(input) {
    /** @type {Note[]} */
    const notes = [];
    let events = 0;
    let alone = 0; // comments since the last event
    let more = 0; // comments that are only counted, after the last one that has a row
    for (const { line, text, kind } of input.lines) {
        if (kind === "event") [events, alone] = [events + 1, 0];
        if (kind !== "comment") continue;
        alone += 1;
        const sort = text.startsWith("#?") ? "question" : text.startsWith("#!") ? "answer" : "comment";
        const told = text.replace(/^#[?!]?\s*/, "");
        const last = notes[notes.length - 1];
        const before = last && input.lines[last.last - 1].text;
        const goesOn = last
            && last.last === line - 1
            && sort === "comment"
            && (last.kind !== "comment" || (before !== undefined && before.length > 60 && !/[.:!?]$/.test(before)));
        if (last && (alone > MOST_ALONE || notes.length >= MOST_NOTES)) {
            more += 1;
            last.text = `${last.text.replace(/ … \d+ more$/, "")} … ${more} more`;
            last.last = line;
        } else if (goesOn) {
            last.text = joinedWords([last.text, told]);
            last.last = line;
        } else {
            more = 0;
            notes.push({ kind: sort, line, last: line, before: events, text: told });
        }
    }
    return notes.filter((it) => it.text);
}

/**
 * What a file says of itself before all else: the comment at its head.
 *
 * @param {Input} input
 * @returns {string}
 */
export function headComment(input) {
    const found = [];
    for (const line of input.head) {
        if (!line.startsWith("#")) break;
        if (/^#\s*(?:Goal|Shortest known|Hint):/.test(line)) continue;
        found.push(line.replace(/^#\s*/, ""));
    }
    return found.join(" ").trim();
}

/**
 * The IMPs that events name, and those of the hosts that they name.
 *
 * @param {string[][]} events
 */
export function impsNamed(events) {
    const isHost = (/** @type {string} */ word) => /^\d+\/\d+$/.test(word);
    return new Set(events.flatMap(([kind, ...words]) => (
        /^(?:enddown|endup|impdown|impup)$/.test(kind)
            ? [Number(words[0])]
            : words.slice(0, 2).filter(isHost).map((it) => Number(it.split("/")[1]))
    )));
}
