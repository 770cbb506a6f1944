/** Where a step leads: to the next stop, line, refusal or question. All places count stops that are done, from 0. */

/** @typedef {import("./fold.js").History} History */
/** @typedef {import("./stops.js").Stop} Stop */
/** @typedef {import("./script.js").Note} Note */

/**
 * The end of the next line of the script, or of the one before.
 *
 * @param {Stop[]} stops
 * @param {number} at
 * @param {number} by 1 or -1
 */
export function nextLine(stops, at, by) {
    const event = at ? stops[at - 1].event : -1;
    const isEnd = (/** @type {number} */ place) => stops[place + 1]?.event !== stops[place].event;
    const ends = stops.flatMap((_, place) => (isEnd(place) ? [place + 1] : []));
    if (by > 0) return ends.find((end) => end > at) ?? stops.length;
    return [...ends].reverse().find((end) => end < at && stops[end - 1].event < event) ?? 0;
}

/**
 * The end of the next stop of those that are followed, or of the one before.
 *
 * @param {number[]} followed
 * @param {number} at
 * @param {number} by 1 or -1
 * @param {number} count how many stops there are
 */
export function nextFollowed(followed, at, by, count) {
    if (by > 0) return (followed.find((place) => place >= at) ?? count - 1) + 1;
    return ([...followed].reverse().find((place) => place + 1 < at) ?? -1) + 1;
}

/**
 * The next one of the stops that were found, or the one before; after the last comes the first.
 * Undefined where none was found.
 *
 * @param {number[]} found
 * @param {number} at
 * @param {number} by 1 or -1
 */
export function nextFound(found, at, by) {
    if (by > 0) return found.find((place) => place >= at) ?? found[0];
    return [...found].reverse().find((place) => place + 1 < at) ?? found[found.length - 1];
}

/**
 * The next stop that was refused, -1 where none follows.
 *
 * @param {History} history
 * @param {Stop[]} stops
 * @param {number} at
 */
export function nextRefusal(history, stops, at) {
    const { moments } = history.replay;
    const isRefused = (/** @type {Stop} */ { main }) => main >= 0 && moments[main].printed[0]?.startsWith("refused ");
    return stops.findIndex((stop, place) => place >= at && isRefused(stop));
}

/**
 * The question before the next stop that was not asked yet.
 *
 * @param {Note[]} notes
 * @param {Stop[]} stops
 * @param {number} at
 * @param {Set<Note>} asked
 * @returns {Note | null}
 */
export function questionAt(notes, stops, at, asked) {
    if (at >= stops.length) return null;
    const { event } = stops[at];
    if (at > 0 && stops[at - 1].event === event) return null;
    return notes.find((it) => it.kind === "question" && it.before === event && !asked.has(it)) ?? null;
}

/**
 * The answer to a question, where the script gives one and the event that it is about is over.
 *
 * @param {Note[]} notes
 * @param {Stop[]} stops
 * @param {number} at
 * @param {Note} question
 * @returns {Note | null}
 */
export function answerTo(notes, stops, at, question) {
    if (stops[at]?.event === question.before) return null;
    return notes.find((it) => it.kind === "answer" && it.before === question.before) ?? null;
}
