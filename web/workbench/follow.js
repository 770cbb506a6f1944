/** Which stops are of one flow, and which have a text: for who follows a message, or looks for something. */

import { sentenceOf } from "./sentences.js";
import { stopWords } from "./sheet.js";

/** @typedef {import("./fold.js").History} History */
/** @typedef {import("./stops.js").Stop} Stop */

/**
 * The stops in which something of a flow happens: it crosses, a packet of it arrives for the first time or is lost, or
 * it is given up.
 *
 * @param {History} history
 * @param {Stop[]} stops
 * @param {string} flow
 * @returns {number[]} their places
 */
export function stopsOfFlow(history, stops, flow) {
    return stops.flatMap((stop, place) => {
        if (stop.main < 0) return [];
        const { words, printed } = history.replay.moments[stop.main];
        const { frame, freed } = history.notes[stop.main];
        const isOfFlow = frame?.packet?.flow === flow
            || freed.some((packet) => packet.flow === flow)
            || words.slice(1, 4).join(" ") === flow
            || printed.some((line) => ` ${line} `.includes(` ${flow} `));
        return isOfFlow ? [place] : [];
    });
}

/**
 * The stops whose line, printed lines or sentence have a text, letters of both cases alike.
 *
 * @param {History} history
 * @param {Stop[]} stops
 * @param {string} text
 * @returns {number[]} their places
 */
export function stopsWith(history, stops, text) {
    const wanted = text.trim().toLowerCase();
    if (!wanted) return [];
    const has = (/** @type {string} */ it) => it.toLowerCase().includes(wanted);
    return stops.flatMap((stop, place) => {
        const { printed } = stop.main < 0 ? { printed: [] } : history.replay.moments[stop.main];
        const isThere = has(history.replay.input.events[stop.event].text)
            || has(stopWords(history, stop))
            || printed.some(has)
            || (stop.main >= 0 && has(sentenceOf(history, stop.main)));
        return isThere ? [place] : [];
    });
}
