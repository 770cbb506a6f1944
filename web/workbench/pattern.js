/**
 * Patterns over what a replay prints, as ./explore reads them (docs/python.md): lines in their order, with names that
 * are bound, and what must not come between. `noted`, `arrives` and `slots`, which only a trace has, are not read here.
 */

import { TABLE } from "../../python/dorydate/sentences/table.mjs";
import { filled } from "./words.js";

/** @typedef {{words: string[], hasRest: boolean, ending: string[]}} Part a line */
/** @typedef {{parts: {barred: Part[], part: Part}[], never: Part[]}} Sequel */
/** @typedef {{left: string, sign: string, right: string}} Where */
/** @typedef {{rounds: number, nothing: boolean, least: number, barred: Part[]}} LastCalm */
/** @typedef {{[name: string]: string}} Names */

/**
 * @typedef {object} Pattern
 * @property {string} text
 * @property {Sequel[]} sequels
 * @property {Where[]} conditions
 * @property {LastCalm} calm what is wanted of a last calm that is added; of 0 rounds nothing is
 */

const SAID = /** @type {{[rule: string]: string}} */ (TABLE.patterns);

/** What is wrong with a pattern, in the words that ./explore has for it too. */
export class BadPattern extends Error {
    /**
     * @param {string} rule
     * @param {{[hole: string]: string | number}} [holes]
     */
    constructor(rule, holes = {}) {
        super(filled(SAID[rule], holes));
    }
}

const TRACED = ["noted", "arrives", "slots"];

/**
 * A pattern by its text.
 *
 * @param {string} text
 * @returns {Pattern}
 */
export function readPattern(text) {
    const [body, ...conditions] = text.split(/\bwhere\b/);
    const pieces = body.split(/\band\b|\n/).map((it) => it.trim()).filter(Boolean);
    /** @type {LastCalm} */
    let calm = { rounds: 0, nothing: false, least: 0, barred: [] };
    /** @type {Sequel[]} */
    const sequels = [];
    for (const piece of pieces) {
        const found = /^calm (\d+):(.*)$/.exec(piece);
        if (found) calm = readCalm(number(found[1]), found[2]);
        else sequels.push(readSequel(piece));
    }
    if (!sequels.length && !calm.rounds) throw new BadPattern("empty");
    return { text: text.trim(), sequels, conditions: conditions.map(readWhere), calm };
}

/**
 * @param {string} text
 * @returns {Sequel}
 */
function readSequel(text) {
    /** @type {Sequel["parts"]} */
    const parts = [];
    /** @type {Part[]} */
    let barred = [];
    for (const piece of text.split(/\bthen\b/).map((it) => it.trim())) {
        if (/^not(?: |$)/.test(piece)) barred.push(readPart(piece.slice(4)));
        else {
            parts.push({ barred, part: readPart(piece) });
            barred = [];
        }
    }
    if (!parts.length) throw new BadPattern("nothing comes", { text });
    return { parts, never: barred };
}

/**
 * @param {string} text
 * @returns {Part}
 */
function readPart(text) {
    const words = text.trim().split(/\s+/).map((it) => (it === "..." ? ".." : it));
    const at = words.indexOf("..") < 0 ? words.length : words.indexOf("..");
    const ending = words.slice(at + 1);
    const whole = { text: text.trim() };
    if (at === 0 || !words[0] || ending.includes("..")) throw new BadPattern("no line", whole);
    if (!/^[a-z]+$/.test(words[0])) throw new BadPattern("no beginning", whole);
    const small = words.find((it) => /^[a-z]$/.test(it));
    if (small) throw new BadPattern("small", { ...whole, word: small });
    if (TRACED.includes(words[0])) throw new BadPattern("traced", { word: words[0] });
    return { words: words.slice(0, at), hasRest: at < words.length, ending };
}

/**
 * @param {string} text
 * @returns {Where}
 */
function readWhere(text) {
    const found = /^\s*([A-Z]|\d+)\s*(<=|<|>|!=|=)\s*([A-Z]|\d+)\s*$/.exec(text);
    if (!found) throw new BadPattern("no comparison", { text });
    const [, left, sign, right] = found;
    for (const side of [left, right]) if (/^\d/.test(side)) number(side);
    return { left, sign, right };
}

/**
 * A number of a pattern. No line has one of more than ten digits.
 *
 * @param {string} digits
 */
function number(digits) {
    if (digits.length > 10) throw new BadPattern("digits", { word: digits.slice(0, 10), digits: digits.length });
    return Number(digits);
}

/**
 * @param {number} rounds
 * @param {string} text
 * @returns {LastCalm}
 */
function readCalm(rounds, text) {
    /** @type {LastCalm} */
    const calm = { rounds, nothing: false, least: 0, barred: [] };
    for (const piece of text.split(",").map((it) => it.trim())) {
        const lines = /^(?:at least )?(\d+) lines$/.exec(piece);
        if (piece === "nothing") calm.nothing = true;
        else if (lines) calm.least = number(lines[1]);
        else if (piece.startsWith("no ")) calm.barred.push(readPart(`${piece.slice(3)} ..`));
        else throw new BadPattern("calm", { text: piece });
    }
    return calm;
}

/**
 * The names with which words are a line of a pattern; null where they aren't.
 *
 * @param {Part} part
 * @param {string[]} words
 * @param {Names} names
 * @returns {Names | null}
 */
function bound({ words: wanted, hasRest, ending }, words, names) {
    if (words[0] !== wanted[0] || words.length < wanted.length + ending.length) return null;
    if (!hasRest && words.length > wanted.length) return null;
    const found = { ...names };
    const isWord = (/** @type {string} */ want, /** @type {string} */ word) => {
        if (want === word || want === "_") return true;
        if (!/^[A-Z]$/.test(want)) return false;
        found[want] ??= word;
        return found[want] === word;
    };
    const last = words.slice(words.length - ending.length);
    const isAll = wanted.every((want, at) => isWord(want, words[at])) && ending.every((want, at) => isWord(want, last[at]));
    return isAll ? found : null;
}

/**
 * How a sequel ends in lines: the names of each way in which it does.
 *
 * @param {Sequel} sequel
 * @param {string[][]} lines
 * @returns {Names[]}
 */
function ends({ parts, never }, lines) {
    /** @type {Map<string, {at: number, names: Names}>} */
    let state = new Map([["0 {}", { at: 0, names: {} }]]);
    for (const words of lines) {
        /** @type {typeof state} */
        const next = new Map();
        const put = (/** @type {number} */ at, /** @type {Names} */ names) =>
            next.set(`${at} ${JSON.stringify(Object.entries(names).sort())}`, { at, names });
        for (const { at, names } of state.values()) {
            const barred = at < parts.length ? parts[at].barred : never;
            if (!barred.some((it) => bound(it, words, names))) put(at, names);
            const found = at < parts.length ? bound(parts[at].part, words, names) : null;
            if (found) put(at + 1, found);
        }
        state = next;
    }
    return [...state.values()].filter((it) => it.at === parts.length).map((it) => it.names);
}

/**
 * The names with which printed lines match a pattern, the last calm's lines being `last`; null where they don't.
 *
 * @param {Pattern} pattern
 * @param {string[]} lines
 * @param {string[]} [last]
 * @returns {Names | null}
 */
export function match({ sequels, conditions, calm }, lines, last = []) {
    if ((calm.nothing && last.length) || last.length < calm.least) return null;
    if (calm.barred.some((part) => last.some((line) => bound(part, line.split(" "), {})))) return null;
    const split = lines.map((it) => it.split(" "));
    /** @type {Names[]} */
    let found = [{}];
    for (const sequel of sequels) {
        const ways = ends(sequel, split);
        found = found.flatMap((one) =>
            ways
                .filter((other) => Object.entries(other).every(([name, word]) => (one[name] ?? word) === word))
                .map((other) => ({ ...one, ...other })),
        );
    }
    return found.find((names) => conditions.every((it) => holds(it, names))) ?? null;
}

/**
 * @param {Where} where
 * @param {Names} names
 */
function holds({ left, sign, right }, names) {
    const [a, b] = [left, right].map((it) => names[it] ?? it);
    if (sign === "!=") return a !== b;
    if (!/^\d+$/.test(a) || !/^\d+$/.test(b)) return false;
    const [x, y] = [BigInt(a), BigInt(b)];
    return sign === "<" ? x < y : sign === ">" ? x > y : sign === "<=" ? x <= y : x === y;
}

/**
 * Whether a pattern asks for lines of the book.
 *
 * @param {Pattern} pattern
 */
export function needsBook({ sequels }) {
    return sequels.some((it) => it.parts.some(({ part }) => part.words[0] === "life"));
}
