/**
 * The chart beside the script: a lane for each host that sends, receives or is sent to, words at the lanes, and arrows
 * between moments.
 */

import { saying } from "./texts.js";
import { ANSWERS } from "./waits.js";

/** @typedef {import("./fold.js").History} History */

/**
 * @typedef {object} Mark a word at a lane
 * @property {number} at the moment
 * @property {number} lane
 * @property {"out" | "in" | "rfnm" | "dead" | "incomplete" | "note" | "bad"} kind
 * @property {string} words
 */

/**
 * An arrow from one moment and lane to another. A message that is not taken ends in the air: `to` is -1.
 *
 * @typedef {object} Arrow
 * @property {"message" | "rfnm" | "dead" | "incomplete"} kind
 * @property {number} from
 * @property {number} lane
 * @property {number} to
 * @property {number} end the lane
 * @property {number} failed of a message that was not taken the moment of its answer, otherwise -1
 */

/** @typedef {{lane: number, from: number, to: number}} Down a host is down between these moments; -1: it stays so */

/**
 * @typedef {object} Chart
 * @property {string[]} lanes
 * @property {Mark[]} marks
 * @property {Arrow[]} arrows
 * @property {Down[]} down
 */

/**
 * The chart of a replay.
 *
 * @param {History} history
 * @returns {Chart}
 */
export function chartOf(history) {
    const drawing = new Drawing(history);
    history.replay.moments.forEach(
        (moment, at) => moment.printed.forEach((line, place) => drawing.line(at, place, line.split(" "))),
    );
    drawing.finish();
    return { lanes: drawing.lanes, marks: joined(drawing.marks), arrows: drawing.arrows, down: drawing.down };
}

/**
 * The hosts that need a lane.
 *
 * @param {History} history
 * @returns {string[]}
 */
export function lanesOf(history) {
    /** @type {Set<string>} */
    const found = new Set();
    for (const { printed, words } of history.replay.moments) {
        for (const line of printed) {
            const parts = line.split(" ");
            if (parts[0] === "out") found.add(parts[1]).add(parts[2]);
            else for (const part of parts.slice(1, 4)) found.add(part);
            if (parts[0] === "refused") found.add(words[1]);
        }
    }
    return history.network.hosts.filter((host) => found.has(host));
}

class Drawing {
    /** @param {History} history */
    constructor(history) {
        this.history = history;
        this.lanes = lanesOf(history);
        this.place = new Map(this.lanes.map((host, lane) => [host, lane]));
        /** @type {Mark[]} */
        this.marks = [];
        /** @type {Arrow[]} */
        this.arrows = [];
        /** @type {Down[]} */
        this.down = [];
        /** @type {Map<string, {arrow: Arrow, taken: number}>} */
        this.sent = new Map();
    }

    /**
     * @param {number} at
     * @param {number} place which line of the moment it is
     * @param {string[]} words
     */
    line(at, place, [kind, ...words]) {
        const { network } = this.history;
        const moment = this.history.replay.moments[at];
        const flow = words.slice(0, 3).join(" ");
        const said = () => saying(network.raw, Number(words[2]), Number(words[3]), words[4]) || "empty";
        switch (kind) {
            case "out": {
                const arrow = {
                    kind: /** @type {const} */ ("message"),
                    from: at,
                    lane: this.lane(words[0]),
                    to: -1,
                    end: this.lane(words[1]),
                    failed: -1,
                };
                this.mark(at, words[0], "out", said());
                this.arrows.push(arrow);
                this.sent.set(flow, { arrow, taken: -1 });
                return;
            }
            case "in":
                this.mark(at, words[1], "in", this.sent.has(flow) ? "takes" : `takes ${said()}`);
                return this.take(flow, at);
            case "answer":
                return this.answer(at, words, moment.kinds[place]);
            case "down":
                this.mark(at, words[0], "bad", "stops");
                if (this.lane(words[0]) >= 0) this.down.push({ lane: this.lane(words[0]), from: at, to: -1 });
                for (const key of [...this.sent.keys()]) if (key.startsWith(`${words[0]} `)) this.sent.delete(key);
                return;
            case "up": {
                this.mark(at, words[0], "note", "starts");
                const open = this.down.find((it) => it.lane === this.lane(words[0]) && it.to < 0);
                if (open) open.to = at;
                return;
            }
            case "refused":
                return this.mark(at, moment.words[1], "bad", `refused: ${words[0]}`);
        }
        this.mark(
            at,
            kind === "done" || kind === "failed" ? words[1] : words[0],
            kind === "failed" || kind === "error" || kind === "contactfailed" || kind === "pairreset" ? "bad" : "note",
            noticeWords(kind, words),
        );
    }

    /** @param {string} host */
    lane(host) {
        return this.place.get(host) ?? -1;
    }

    /**
     * @param {number} at
     * @param {string} host
     * @param {Mark["kind"]} kind
     * @param {string} words
     */
    mark(at, host, kind, words) {
        const lane = this.lane(host ?? "");
        if (lane >= 0) this.marks.push({ at, lane, kind, words });
    }

    /**
     * @param {string} flow
     * @param {number} at
     */
    take(flow, at) {
        const sent = this.sent.get(flow);
        if (!sent) return;
        sent.arrow.to = at;
        sent.taken = at;
    }

    /**
     * @param {number} at
     * @param {string[]} words
     * @param {string} kind
     */
    answer(at, words, kind) {
        const sort = /** @type {"rfnm" | "dead" | "incomplete"} */ (words[0]);
        this.mark(at, words[1], sort, ANSWERS[/** @type {keyof typeof ANSWERS} */ (kind)]);
        const flow = words.slice(1, 4).join(" ");
        const sent = this.sent.get(flow);
        if (!sent) return;
        this.sent.delete(flow);
        const lane = this.lane(words[1]);
        if (sent.taken >= 0) {
            this.arrows.push({ kind: sort, from: sent.taken, lane: sent.arrow.end, to: at, end: lane, failed: -1 });
        }
        else {
            sent.arrow.failed = at;
            this.arrows.push({ kind: sort, from: sent.arrow.from, lane, to: at, end: lane, failed: -1 });
        }
    }

    finish() {
        this.arrows = this.arrows.filter((it) => it.lane >= 0);
    }
}

/**
 * Marks of one moment at one lane as one.
 *
 * @param {Mark[]} marks
 */
function joined(marks) {
    /** @type {Mark[]} */
    const found = [];
    for (const mark of marks) {
        const last = found[found.length - 1];
        if (last && last.at === mark.at && last.lane === mark.lane) last.words = `${last.words} · ${mark.words}`;
        else found.push({ ...mark });
    }
    return found;
}

/**
 * The word at a lane for a notice to a user.
 *
 * @param {string} kind
 * @param {string[]} words
 */
function noticeWords(kind, words) {
    const [, b, c, d] = words;
    switch (kind) {
        case "ready":
            return `ready with ${b}`;
        case "contactfailed":
            return `contact with ${b} failed`;
        case "pairreset":
            return `reset with ${b}`;
        case "opened":
            return `${b} opened with ${d}`;
        case "ended":
            return `${b} ended`;
        case "sent":
            return `sent ${c} bits`;
        case "arrived":
            return `got ${c} bits`;
        case "returned":
            return `has ${d} bits back`;
        case "interrupt":
            return `${b} interrupted`;
        case "echoed":
            return `${c} echoed`;
        case "error":
            return `error ${c} from ${b}`;
        case "done":
        case "failed":
            return `${words[0]} ${kind}: ${words.slice(2).join(", ")}`;
        case "line":
            return `line: ${words.slice(1).join(" ")}`;
    }
    return [kind, ...words].join(" ");
}
