/**
 * Another way on from a position: lines are added after the moments that are done, and what results is a plain script.
 *
 * Between two lines of the script the lines are put after the first. At the end of round r of `calm N` it becomes `calm
 * r`, the lines, and `calm N-r`. Within round r it becomes `calm r-1`, the events of round r that are done, as script
 * lines below a comment, the lines, and `calm N-r+1`: the rest of the round begins anew, so nothing is left lying. Where
 * a quiet round as a whole is among the events that are done, which is no script line, the lines are put at the end of
 * round r.
 */

import { inPairs } from "./alike.js";
import { withScript } from "./script.js";
import { isQuiet } from "./trace.js";

/** @typedef {import("./fold.js").History} History */

/**
 * @typedef {object} Edit
 * @property {string} text the whole input
 * @property {number} position the position in the new replay after what was done before: the one that was asked for, or
 *   the end of its round
 * @property {number} added how many lines of the script were added
 * @property {number} line the first of them
 */

/**
 * Adds lines after a position.
 *
 * @param {History} history
 * @param {number} position
 * @param {string[]} lines
 * @param {boolean} [cutOff] whether what follows is left out
 * @returns {Edit}
 */
export function goOn(history, position, lines, cutOff = false) {
    const { input } = history.replay;
    const script = input.lines.map((it) => it.text);
    const at = spelledFrom(history, position);
    const place = placeOf(history, at);
    const before = script.slice(0, place.line);
    const left = cutOff ? [] : [...place.after, ...script.slice(place.next)];
    const begun = [...before, ...place.before];
    return {
        text: withScript(input, [...begun, ...lines, ...left]),
        position: at + place.more,
        added: lines.length,
        line: begun.length + 1,
    };
}

/**
 * The first position from a given one on at which what is done has script lines.
 *
 * @param {History} history
 * @param {number} position
 */
function spelledFrom({ replay: { moments } }, position) {
    const isSame = (/** @type {number} */ one, /** @type {number} */ other) => moments[one]?.round > 0
        && moments[one].event === moments[other]?.event
        && moments[one].round === moments[other].round;
    let from = position;
    while (isSame(from - 1, from - 2)) from -= 1;
    if (!moments.slice(from - 1, position).some(isQuiet)) return position;
    let to = position;
    while (isSame(to - 1, to)) to += 1;
    return to;
}

/**
 * Where lines are put: after the first lines of the script and `before`, before `after` and the lines from `next` on.
 *
 * @param {History} history
 * @param {number} position
 * @returns {{line: number, before: string[], after: string[], next: number, more: number}} and by how many moments more
 *   the lines before them are done than by the position
 */
function placeOf(history, position) {
    const { input, moments } = history.replay;
    const after = (/** @type {number} */ line) => ({ line, before: [], after: [], next: line, more: 0 });
    if (position >= moments.length) return after(input.lines.length);
    if (position === 0) return after(input.events[0].line - 1);
    const { event, round } = moments[position - 1];
    const { line, words } = input.events[event];
    if (round === 0) return after(line);
    const rounds = Number(words[1]);
    const next = moments[position];
    if (next.event !== event || next.round !== round) {
        return { line: line - 1, before: calm(round), after: calm(rounds - round), next: line, more: 0 };
    }
    let from = position;
    while (from > 0 && moments[from - 1].event === event && moments[from - 1].round === round) from -= 1;
    const done = moments.slice(from, position).flatMap((moment) => moment.events ?? [moment.words.join(" ")]);
    const comment = `# round ${round} of calm ${rounds}, its first ${done.length} events`;
    return {
        line: line - 1,
        before: [...calm(round - 1), comment, ...done],
        after: calm(rounds - round + 1),
        next: line,
        more: done.length - (position - from),
    };
}

/** @param {number} rounds */
function calm(rounds) {
    return rounds > 0 ? [`calm ${rounds}`] : [];
}

/**
 * How many events of the round a comment of `goOn` announces, 0 if it is none.
 *
 * @param {string} text
 */
export function announced(text) {
    const found = /^(?:# )?round \d+ of calm \d+, its first (\d+) events$/.exec(text);
    return found ? Number(found[1]) : 0;
}

/**
 * Which lines of a script are not in another one: those that were added.
 *
 * @param {string[]} before
 * @param {string[]} after
 * @returns {Set<number>} lines of `after`, from 1
 */
export function addedLines(before, after) {
    return new Set(inPairs(before, after).flatMap(([a, b]) => (a < 0 ? [b + 1] : [])));
}
