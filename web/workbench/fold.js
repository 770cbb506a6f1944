/**
 * The states of a replay, folded from its moments: what holds at each position, and what each moment did.
 *
 * A position is the number of moments that are done. Every 32nd state is kept; a state is at most 31 moments away from
 * one.
 */

import { noteOf } from "./fates.js";
import { State } from "./state.js";
import { impOf } from "./topology.js";
import { isOfHost, put } from "./trace.js";

/** @typedef {import("./runs.js").Replay} Replay */
/** @typedef {import("./runs.js").Moment} Moment */
/** @typedef {import("./trace.js").Part} Part */
/** @typedef {import("./fates.js").MomentNote} MomentNote */

const KEPT_EVERY = 32;

/** The states of a replay. */
export class History {
    /** @param {Replay} replay */
    constructor(replay) {
        this.replay = replay;
        this.network = replay.network;
        /** @type {MomentNote[]} */
        this.notes = [];
        /** @type {{[name: string]: Part}[]} */
        this.kept = [];
        /** @type {number[]} how many rounds have passed at each position */
        this.rounds = [0];
        this.fold();
    }

    /** How many moments there are: the last position. */
    get length() {
        return this.notes.length;
    }

    fold() {
        const { moments, opening } = this.replay;
        /** @type {Accepted} */
        const accepted = new Accepted(this.network);
        /** @type {Moment[]} */
        const left = [];
        const before = new State(this.network, { ...opening });
        const after = new State(this.network, { ...opening });
        this.kept.push(opening);
        for (const moment of moments) {
            if (isIdle(moment, before)) continue;
            put(after.parts, moment.parts);
            this.notes.push(noteOf(moment, before, after, accepted));
            this.number(this.notes[this.notes.length - 1], before);
            left.push(moment);
            put(before.parts, moment.parts);
            if (left.length % KEPT_EVERY === 0) this.kept.push({ ...after.parts });
        }
        this.replay.moments = left;
        left.forEach((moment, at) => this.rounds.push(this.rounds[at] + roundsBetween(left[at - 1], moment)));
    }

    /**
     * Notes the flow of a packet that is not of its flow's last message: two messages of it are alive.
     *
     * @param {MomentNote} note
     * @param {State} before
     */
    number({ frame }, before) {
        const packet = frame?.packet;
        if (!packet) return;
        const last = before.source(packet.flow);
        if (last && last.number !== packet.number) this.network.numbered.add(packet.flow);
    }

    /**
     * The state at a position.
     *
     * @param {number} position
     * @returns {State}
     */
    at(position) {
        const place = Math.floor(position / KEPT_EVERY);
        const parts = { ...this.kept[place] };
        for (let at = place * KEPT_EVERY; at < position; at += 1) put(parts, this.replay.moments[at].parts);
        return new State(this.network, parts);
    }
}

/**
 * Whether a moment of a calm is none of the elementary events that docs/trace.md names: a raw script that crossings
 * drive has more.
 *
 * @param {Moment} moment
 * @param {State} before
 */
function isIdle(moment, before) {
    const [kind, what] = moment.words;
    if (kind !== "resend" && kind !== "deliver") return false;
    if (moment.round === 0 || moment.printed.length || moment.parts.some(([name]) => isOfHost(name))) return false;
    if (kind === "resend") {
        const imp = before.imp(Number(what));
        return !imp || (imp.store.length === 0 && imp.ports.every((port) => port.sending.every((it) => !it.packet)));
    }
    const [a, b] = before.network.lines[Number(what)];
    return !before.imp(moment.words[2] === "+" ? b : a);
}

/** Which packets each end of a line accepted since its IMP started. */
export class Accepted {
    /** @param {import("./topology.js").Network} network */
    constructor(network) {
        this.network = network;
        /** @type {Map<string, Set<string>>} by IMP and line the keys of packets */
        this.ends = new Map();
    }

    /**
     * @param {number} imp
     * @param {number} line
     */
    at(imp, line) {
        return this.ends.get(`${imp} ${line}`) ?? new Set();
    }

    /**
     * @param {number} imp
     * @param {number} line
     * @param {string} key
     */
    add(imp, line, key) {
        this.ends.set(`${imp} ${line}`, this.at(imp, line).add(key));
    }

    /**
     * An IMP starts: it knows nothing, and no packet of a flow from it or to it is alive. So each that comes from now
     * on is another one, whatever its number.
     *
     * @param {number} imp
     */
    start(imp) {
        const isOfImp = (/** @type {string} */ key) => key.split(" ").slice(1, 3).some((host) => impOf(host) === imp);
        for (const [end, keys] of this.ends) {
            if (Number(end.split(" ")[0]) === imp) this.ends.delete(end);
            else for (const key of keys) if (isOfImp(key)) keys.delete(key);
        }
    }
}

/**
 * How many rounds pass until a moment, from the one before.
 *
 * @param {Moment | undefined} before
 * @param {Moment} moment
 */
function roundsBetween(before, { event, round }) {
    return before?.event === event ? Math.max(0, round - before.round) : round;
}
