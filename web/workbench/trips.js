/** Which packets move along lines in a step: for the eye, and for the sentence of a quiet round as a whole. */

import { wayOf } from "./topology.js";
import { isQuiet } from "./trace.js";

/** @typedef {import("./fold.js").History} History */
/** @typedef {import("./stops.js").Stop} Stop */
/** @typedef {import("./state.js").State} State */
/** @typedef {import("./trace.js").Frame} Frame */
/** @typedef {import("./trace.js").Packet} Packet */
/** @typedef {{line: number, from: number, frame: Frame}} Trip */

const MOST = 24;

/**
 * The trips of a step: what arrives, its packets before its tables of distances. In a quiet round all frames arrive that
 * are on lines when it begins.
 *
 * @param {History} history
 * @param {Stop} stop
 * @returns {Trip[]}
 */
export function tripsOf(history, stop) {
    /** @type {Trip[]} */
    const found = [];
    for (let at = stop.from; at < stop.to; at += 1) {
        const moment = history.replay.moments[at];
        const { frame, fate, line, from } = history.notes[at];
        if (isQuiet(moment)) found.push(...framesOn(history.at(at)));
        else if (moment.words[0] === "deliver" && frame && fate) found.push({ line, from, frame });
    }
    const packets = found.filter((it) => it.frame.packet);
    return (packets.length ? packets : found.filter((it) => it.frame.routes)).slice(0, MOST);
}

/**
 * The packets on lines.
 *
 * @param {State} state
 * @returns {Trip[]}
 */
function framesOn(state) {
    const { network } = state;
    if (network.plain) return [];
    return network.lines.flatMap((_, line) =>
        /** @type {const} */ (["+", "-"]).flatMap((way) => {
            const [from] = wayOf(network, line, way);
            return state.line(line)[way].map((frame) => ({ line, from, frame }));
        }),
    );
}

/**
 * Where the packets of a network have come in a step: each that an IMP holds now that did not hold it before.
 *
 * @param {State} before
 * @param {State} after
 * @returns {{packet: Packet, to: number[]}[]} each packet with the IMPs to which it has come
 */
export function movesOf(before, after) {
    const were = holders(before);
    return [...holders(after)].flatMap(([key, { packet, imps }]) => {
        const to = [...imps].filter((imp) => !were.get(key)?.imps.has(imp));
        return to.length ? [{ packet, to }] : [];
    });
}

/**
 * Each packet that IMPs hold, by its key, and which of them do.
 *
 * @param {State} state
 */
function holders(state) {
    /** @type {Map<string, {packet: Packet, imps: Set<number>}>} */
    const found = new Map();
    for (const { packet, place } of state.everything()) {
        if (!packet || place.at === "line") continue;
        const it = found.get(packet.key) ?? { packet, imps: new Set() };
        found.set(packet.key, { packet, imps: it.imps.add(place.imp) });
    }
    return found;
}
