/**
 * Codes by which a class hands exercises in: which of them a page has solved, and with how many events. A code has a check,
 * so that a letter that is mistyped is found. It proves nothing to who reads this file.
 */

import { EXERCISES } from "./exercises.js";

const LETTERS = "0123456789ABCDEFGHJKMNPQRSTVWXYZ"; // without those that are taken for others
const MOST = LETTERS.length - 1; // events that a code tells apart
const NAME = "dorydate-solved";

/** @typedef {{[exercise: string]: number}} Solved of each exercise the fewest events with which it was solved here */

/**
 * Four letters that follow from a text.
 *
 * @param {string} text
 */
function check(text) {
    let hash = 0x811c9dc5;
    for (const letter of text) hash = Math.imul(hash ^ letter.charCodeAt(0), 0x01000193) >>> 0;
    return [0, 5, 10, 15].map((shift) => LETTERS[(hash >>> shift) & 31]).join("");
}

/**
 * The code of what is solved.
 *
 * @param {Solved} solved
 */
export function codeOf(solved) {
    const digits = EXERCISES.map(({ name }) => LETTERS[Math.min(MOST, solved[name] ?? 0)]).join("");
    return `${digits.slice(0, 5)}-${digits.slice(5)}-${check(digits)}`;
}

/**
 * What a code says: of each exercise the events of its solution, 0 where it is not solved. Null for what is no code.
 *
 * @param {string} code
 * @returns {number[] | null}
 */
export function solvedIn(code) {
    const letters = code.toUpperCase().replace(/O/g, "0").replace(/[IL]/g, "1").replace(/[^0-9A-Z]/g, "");
    const digits = letters.slice(0, EXERCISES.length);
    const isCode = letters.length === EXERCISES.length + 4 && check(digits) === letters.slice(EXERCISES.length);
    return isCode ? [...digits].map((it) => LETTERS.indexOf(it)) : null;
}

/**
 * The lines of a class, each a name and a code.
 *
 * @param {string} text
 * @returns {{who: string, solved: number[] | null}[]}
 */
export function classIn(text) {
    return text.split("\n").map((it) => it.trim()).filter(Boolean).map((line) => {
        const found = /^(.*?)[\s,;:]*([0-9A-Za-z]{5}-?[0-9A-Za-z]{5}-?[0-9A-Za-z]{4})$/.exec(line);
        return found ? { who: found[1].trim() || "?", solved: solvedIn(found[2]) } : { who: line, solved: null };
    });
}

/**
 * What this browser has solved.
 *
 * @returns {Solved}
 */
export function solvedHere() {
    try {
        return JSON.parse(window.localStorage.getItem(NAME) ?? "{}");
    } catch {
        return {};
    }
}

/**
 * Notes that an exercise is solved, and answers all that are.
 *
 * @param {string} name
 * @param {number} events
 * @returns {Solved}
 */
export function solve(name, events) {
    const before = solvedHere();
    const solved = { ...before, [name]: Math.min(events, before[name] ?? Infinity) };
    try {
        window.localStorage.setItem(NAME, JSON.stringify(solved));
    } catch {
        // a browser that keeps nothing: the code has this exercise only
    }
    return solved;
}
