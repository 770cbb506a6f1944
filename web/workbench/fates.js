/**
 * What each moment did: of a frame that is delivered what became of it, and how much a moment matters.
 *
 * A packet whose channel expects the other bit is thrown away. It is a repeat only if it was accepted before at this
 * end since the end's IMP started; otherwise the two ends of the line disagree, and it is lost.
 */

import { FAR } from "./state.js";
import { farEnd, wayOf } from "./topology.js";
import { isQuiet, LOSSES, REST } from "./trace.js";

/** @typedef {import("./runs.js").Moment} Moment */
/** @typedef {import("./state.js").State} State */
/** @typedef {import("./trace.js").Frame} Frame */
/** @typedef {import("./trace.js").Packet} Packet */
/** @typedef {import("./fold.js").Accepted} Accepted */

/**
 * What became of a frame that was delivered, null where a trace doesn't say it:
 * - `fresh`: a packet that the IMP took in or passed on,
 * - `repeat`: a packet that it had accepted before,
 * - `lost`: a packet that it never accepted, thrown away for its channel bit,
 * - `full`: a packet for which there was no room,
 * - `news`, `same`: distances that changed what the IMP had heard, or did not,
 * - `ack`: acknowledgements only,
 * - `end`, `imp`: the end of the line, or the IMP, was down.
 *
 * @typedef {"fresh" | "repeat" | "lost" | "full" | "news" | "same" | "ack" | "end" | "imp"} Fate
 */

/**
 * @typedef {object} MomentNote
 * @property {Fate | null} fate of a frame that was delivered
 * @property {Frame | null} frame that was delivered or dropped
 * @property {number} line -1 where there is none
 * @property {number} from the IMP from which the frame came
 * @property {number} to the IMP to which it came
 * @property {Packet[]} freed the packets that its acknowledgement bits freed
 * @property {{frame: Frame, line: number, to: number}[]} sent the frames that the moment put on lines, without bare
 *   acknowledgements; none of a quiet round as a whole
 * @property {0 | 1 | 2} weight 2: it printed something; 1: something new happened; 0: the rest
 */

/** @type {MomentNote} */
const NOTHING = { fate: null, frame: null, line: -1, from: 0, to: 0, freed: [], sent: [], weight: 0 };

/**
 * What a moment did. Takes note of what is accepted.
 *
 * @param {Moment} moment
 * @param {State} before
 * @param {State} after
 * @param {Accepted} accepted
 * @returns {MomentNote}
 */
export function noteOf(moment, before, after, accepted) {
    const [kind, ...rest] = moment.words;
    const isRefused = moment.printed.some((line) => line.startsWith("refused "));
    if (kind === "impup" && !isRefused) accepted.start(Number(rest[0]));
    const isFrame = (kind === "deliver" || LOSSES.has(kind)) && !isRefused && `line ${rest[0]}` in before.parts;
    const note = isFrame ? frameNote(moment, before, after, accepted) : { ...NOTHING };
    note.sent = sentBy(moment, before, after);
    note.weight = weightOf(moment, note);
    return note;
}

/**
 * @param {Moment} moment
 * @param {State} before
 * @param {State} after
 * @param {Accepted} accepted
 * @returns {MomentNote}
 */
function frameNote({ words: [kind, number, way, place], fate }, before, after, accepted) {
    const line = Number(number);
    const [from, to] = wayOf(before.network, line, way);
    const frame = before.line(line)[way === "+" ? "+" : "-"][Number(place)] ?? null;
    const note = { ...NOTHING, frame, line, from, to };
    if (LOSSES.has(kind) || !frame) return note;
    note.fate = fate ? fateOf(fate, frame, line, to, before, after, accepted) : null;
    note.freed = freedBy(line, to, before, after);
    return note;
}

/** What the page calls the fates of a trace; each that is not here is that of a fresh packet. */
const FATES = /** @type {{[fate: string]: Fate}} */ ({ impdown: "imp", enddown: "end", acks: "ack", noroom: "full" });

/**
 * What became of a frame, by what the program says; of distances whether they are news, and of a packet with the
 * channel's other bit whether it came before.
 *
 * @param {string} told
 * @param {Frame} frame
 * @param {number} line
 * @param {number} to
 * @param {State} before
 * @param {State} after
 * @param {Accepted} accepted
 * @returns {Fate}
 */
function fateOf(told, frame, line, to, before, after, accepted) {
    if (told === "distances") return hasNews(to, before, after) ? "news" : "same";
    if (FATES[told] || !frame.packet) return FATES[told] ?? "ack";
    if (told === "repeat") return accepted.at(to, line).has(frame.packet.key) ? "repeat" : "lost";
    accepted.add(to, line, frame.packet.key);
    return "fresh";
}

/**
 * Whether what an IMP heard changed its distances.
 *
 * @param {number} imp
 * @param {State} before
 * @param {State} after
 */
function hasNews(imp, before, after) {
    const [was, is] = [before.imp(imp), after.imp(imp)];
    if (was === is || !was || !is) return false;
    return before.network.sites.some(
        ({ number }) => was.distances[number] !== is.distances[number] || was.next[number] !== is.next[number],
    );
}

/**
 * The packets of an end that are acknowledged now.
 *
 * @param {number} line
 * @param {number} imp
 * @param {State} before
 * @param {State} after
 */
function freedBy(line, imp, before, after) {
    if (before.imp(imp) === after.imp(imp)) return [];
    const were = before.port(imp, line)?.sending ?? [];
    const are = after.port(imp, line)?.sending ?? [];
    return were.flatMap(
        ({ bit, packet }, channel) => (packet && are[channel] && are[channel].bit !== bit ? [packet] : []),
    );
}

/**
 * The frames that a moment put on lines.
 *
 * @param {Moment} moment
 * @param {State} before
 * @param {State} after
 */
function sentBy(moment, before, after) {
    /** @type {MomentNote["sent"]} */
    const found = [];
    if (before.network.plain || LOSSES.has(moment.words[0]) || moment.words[0] === REST || isQuiet(moment)) return found;
    for (const [name] of moment.parts) {
        if (!name.startsWith("line ")) continue;
        const line = Number(name.slice(5));
        const [were, are] = [before.line(line), after.line(line)];
        for (const way of WAYS) {
            const to = wayOf(before.network, line, way)[1];
            for (const frame of are[way].slice(were[way].length)) {
                if (frame.packet || frame.routes) found.push({ frame, line, to });
            }
        }
    }
    return found;
}

const WAYS = /** @type {const} */ (["+", "-"]);

/**
 * How much a moment matters.
 *
 * @param {Moment} moment
 * @param {MomentNote} note
 * @returns {0 | 1 | 2}
 */
function weightOf(moment, note) {
    if (moment.printed.length) return 2;
    if (moment.round === 0 || isQuiet(moment)) return 1;
    return note.fate === "fresh" || note.fate === "lost" || note.fate === "news" ? 1 : 0;
}

/**
 * The IMPs whose distance to another one a moment changed, for the marks of changed cells.
 *
 * @param {State} before
 * @param {State} after
 */
export function changedWays(before, after) {
    /** @type {Set<string>} */
    const found = new Set();
    for (const { number: imp } of before.network.sites) {
        if (before.parts[`imp ${imp}`] === after.parts[`imp ${imp}`]) continue;
        for (const { number: to } of before.network.sites) {
            const was = before.way(imp, to);
            const is = after.way(imp, to);
            if (was.distance !== is.distance || was.line !== is.line) found.add(`${imp} ${to}`);
        }
    }
    return found;
}

/**
 * How both ends of a line are reset, as script lines.
 *
 * @param {State} state
 * @param {number} line
 * @param {number} imp the one that threw a packet away
 */
export function cureOf(state, line, imp) {
    const far = farEnd(state.network, line, imp);
    return [`enddown ${far} ${line}`, `enddown ${imp} ${line}`, `endup ${far} ${line}`, `endup ${imp} ${line}`];
}

/**
 * Whether a distance leads anywhere.
 *
 * @param {number} distance
 */
export function isReachable(distance) {
    return distance < FAR;
}
