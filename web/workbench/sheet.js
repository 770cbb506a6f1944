/**
 * The rows of the sheet: each line of the script, and below a calm its stops.
 *
 * A calm is folded to its head and the rows that printed something; only the calm of the present step is unfolded.
 */

import { notesOf } from "./script.js";
import { siteName, wayOf } from "./topology.js";
import { LOSSES, REST } from "./trace.js";

/** @typedef {import("./fold.js").History} History */
/** @typedef {import("./stops.js").Stop} Stop */

/**
 * @typedef {object} Row
 * @property {"comment" | "question" | "event" | "stop" | "more"} kind `more` stands for rows that are left out
 * @property {number} line the line of the script, 0 for a stop
 * @property {string} number the text of the number column
 * @property {string} text
 * @property {number} event the place of its event; of a comment that of the event that follows
 * @property {number} stop the place of its stop, -1 where it has none
 * @property {number} at the position from which on it is past
 * @property {boolean} printed whether it printed something, so that it shows in a folded calm
 * @property {boolean} refused
 * @property {number} steps of the head of a calm: how many stops it has, otherwise 0
 */

/**
 * The rows of a replay.
 *
 * @param {History} history
 * @param {Stop[]} stops
 * @returns {Row[]}
 */
export function rowsOf(history, stops) {
    const { input } = history.replay;
    const notes = notesOf(input);
    /** @type {Row[]} */
    const rows = [];
    let note = 0;
    let stop = 0;
    let position = 0;
    const comments = (/** @type {number} */ event) => {
        for (; note < notes.length && notes[note].before <= event; note += 1) {
            const { kind, line, text } = notes[note];
            if (kind !== "answer") rows.push({ ...ROW, kind, line, text, event, at: position });
        }
    };
    input.events.forEach(({ line, words }, event) => {
        comments(event);
        const first = stop;
        while (stop < stops.length && stops[stop].event === event) stop += 1;
        const mine = stops.slice(first, stop);
        const isCalm = words[0] === "calm" && mine.length > 0 && !(mine.length === 1 && mine[0].main < 0);
        const only = isCalm ? undefined : mine[0];
        const printed = only
            ? history.replay.moments.slice(only.from, only.to).flatMap((moment) => moment.printed)
            : [];
        rows.push({
            ...ROW,
            kind: "event",
            line,
            number: String(line),
            text: shortened(words),
            event,
            stop: only ? first : -1,
            at: only ? only.to : mine.length ? mine[0].from : position,
            printed: true,
            refused: printed.some((it) => it.startsWith("refused ")),
            steps: isCalm ? mine.length : 0,
        });
        if (isCalm) rows.push(...calmRows(history, mine, first, event));
        if (mine.length) position = mine[mine.length - 1].to;
    });
    comments(input.events.length);
    return rows;
}

/** @type {Row} */
const ROW = {
    kind: "event",
    line: 0,
    number: "",
    text: "",
    event: 0,
    stop: -1,
    at: 0,
    printed: false,
    refused: false,
    steps: 0,
};

/**
 * The rows of a calm's stops. The round is in the number column, once.
 *
 * @param {History} history
 * @param {Stop[]} stops
 * @param {number} first the place of the first of them
 * @param {number} event
 * @returns {Row[]}
 */
function calmRows(history, stops, first, event) {
    let round = 0;
    return stops.map((stop, place) => {
        const number = stop.round === round ? "" : stop.round === stop.last ? `r${stop.round}` : `r${stop.last}`;
        round = stop.last;
        const printed = stop.main >= 0 && history.replay.moments[stop.main].printed.length > 0;
        return {
            ...ROW,
            kind: "stop",
            number,
            text: stopWords(history, stop),
            event,
            stop: first + place,
            at: stop.to,
            printed,
        };
    });
}

/**
 * A stop in the words of the script's column.
 *
 * @param {History} history
 * @param {Stop} stop
 */
export function stopWords(history, stop) {
    if (stop.main < 0) {
        return stop.round === stop.last ? "nothing new" : `rounds ${stop.round} to ${stop.last}: nothing new`;
    }
    const { words } = history.replay.moments[stop.main];
    const { frame, line, from, to } = history.notes[stop.main];
    if (words[0] === "quiet") return "a quiet round";
    if (words[0] === REST) return "the rest of the round";
    if (words[0] !== "deliver" && !LOSSES.has(words[0])) return words.join(" ");
    if (!frame || line < 0) return words.join(" ");
    const [a, b] = from ? [from, to] : wayOf(history.network, line, words[2]);
    const what = frame.packet ? packetWords(frame.packet) : frame.routes ? "distances" : "ack";
    const short = (/** @type {number} */ imp) => siteName(history.network, imp).replace(/^IMP /, "");
    return `${short(a)}→${short(b)} ${what}${{ drop: " dropped", garble: " garbled" }[words[0]] ?? ""}`;
}

/**
 * A packet in the words of the script's column.
 *
 * @param {import("./trace.js").Packet} packet
 */
function packetWords({ kind, source, destination, link, last, place }) {
    const isPiece = kind === "data" && !(last && place === 0);
    return `${SHORT[kind]} ${source}→${destination} ${link}${isPiece ? `.${place + 1}` : ""}`;
}

/** The names of packets that are short enough for a row. */
export const SHORT = { data: "data", rfnm: "RFNM", dead: "Dead", ask: "question", never: "Never" };

/**
 * A script line, long octets cut.
 *
 * @param {string[]} words
 */
export function shortened(words) {
    return words.map((word) => (word.length > 40 ? `${word.slice(0, 24)}…${word.slice(-4)}` : word)).join(" ");
}

/** @typedef {{row: Row, place: number, count: number}} Shown a row and its place, or one that stands for `count` rows */

/** Rows of an unfolded calm are shown by blocks: the one in which one is, the one before it and the one after it. */
const BLOCK = 200;

/**
 * The rows that are shown: of a calm that is folded those that printed something, and of one that is unfolded those near
 * the present one. A row in place of those that are left out there leads to the nearest of them.
 *
 * @param {Row[]} rows
 * @param {number} current the place of the present row, -1 for none
 * @returns {Shown[]}
 */
export function shownRows(rows, current) {
    const open = current >= 0 ? rows[current].event : -1;
    const block = Math.floor(current / BLOCK);
    /** @type {Shown[]} */
    const shown = [];
    rows.forEach((row, place) => {
        const isNear = row.event === open && Math.abs(Math.floor(place / BLOCK) - block) <= 1;
        if (row.kind !== "stop" || row.printed || isNear) return shown.push({ row, place, count: 1 });
        if (row.event !== open) return;
        const last = shown[shown.length - 1];
        const isMore = last.row.kind === "more" && last.place + last.count === place;
        const count = isMore ? last.count + 1 : 1;
        const first = isMore ? last.place : place;
        const at = place < current ? row.at : rows[first].at;
        const text = `… ${count} more ${count === 1 ? "step" : "steps"}`;
        const more = { row: { ...row, kind: /** @type {const} */ ("more"), number: "", text, stop: -1, at }, place: first, count };
        shown.splice(isMore ? shown.length - 1 : shown.length, isMore ? 1 : 0, more);
    });
    return shown;
}
