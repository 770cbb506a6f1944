/**
 * What happens within the quiet rounds of a network whose hosts have programs, by a raw script that their crossings
 * drive.
 *
 * The trace of such a network has a quiet round as one event, and not what becomes of a frame. But each `out` that
 * crosses is a line of a raw script. So a raw script over the same topology does inside what the programs did: each
 * crossing in its order, each inner event of the script as it is, and each quiet round that changed something event by
 * event. Its trace is used only if it prints exactly the crossings of the real one, and leaves exactly the network that
 * the real one has after each event.
 */

import { OF_CARRIERS } from "./events.js";
import { octetsOf, textOf } from "./octets.js";
import { isOfHost, isQuiet, put, REST, TraceReader } from "./trace.js";

/** @typedef {import("../run/runner.js").Runner} Runner */
/** @typedef {import("./topology.js").Network} Network */
/** @typedef {import("./script.js").Input} Input */
/** @typedef {import("./runs.js").Moment} Moment */
/** @typedef {import("./trace.js").Part} Part */
/** @typedef {import("./trace.js").Record} Record */
/** @typedef {{seconds: number, octets: number}} Limits */

/**
 * The trace of a network with host programs: its parts at the opening, and its events with all that each changed.
 *
 * @typedef {{opening: {[name: string]: Part}, steps: Moment[]}} Traced
 */

/** A line of a raw script, the step that it belongs to, and whether it is of a quiet round that is spelled out. */
/** @typedef {{text: string, step: number, quiet: boolean}} Line */

/** The most octets of an input that the program reads. */
const MOST_OCTETS = 268_435_456;

/** Of how many moments a replay may be, and from how many on the uneventful ones of its rounds are joined. */
const [MOST_MOMENTS, MOST_SPELLED] = [60_000, 20_000];

/** What does a round in which no host sends, and all take. */
const ROUND = "calm 1";

/** The events of a raw script that happen in a network with host programs as they are. */
const INNER = ["take", ...OF_CARRIERS];

/**
 * The moments of a replay, event by event within its quiet rounds; null where they can't be had.
 *
 * @param {Runner["run"]} run
 * @param {Input} input
 * @param {Network} network
 * @param {Traced} traced
 * @param {Limits} limits
 * @returns {Promise<Moment[] | null>}
 */
export async function driven(run, input, network, traced, limits) {
    if (network.plain) return traced.steps;
    const head = rawHead(input);
    const frames = await framesOfRounds(run, head, network, traced, limits);
    if (!frames) return null;
    const lines = rawScript(network, traced, (step) => quietRound(network, frames.get(step) ?? []));
    const text = [...head, ...lines.map((line) => line.text), ""].join("\n");
    if (text.length > MOST_OCTETS) return null;
    const joined = new Joined(network, lines, traced);
    const reader = new TraceReader(Infinity, () => {}, (record) => joined.add(record));
    const more = { seconds: 2 * limits.seconds, octets: 2 * limits.octets };
    const { ended, status } = await run(["--trace"], octetsOf(text), more, (octets) => reader.add(octets));
    return ended === "exit" && status === 0 && reader.read() ? joined.whole() : null;
}

/**
 * The topology of an input, as that of a raw network.
 *
 * @param {Input} input
 * @returns {string[]}
 */
export function rawHead(input) {
    return ["raw = true", ...input.head.filter((line) => !/^\s*(?:raw|foreign)\s*=/.test(line)), "%"];
}

/** @param {string} line */
function isOut(line) {
    return line.startsWith("out ");
}

/**
 * The place after the last step of a round, or after an event in no calm.
 *
 * @param {Moment[]} steps
 * @param {number} from its first step
 */
function endOfRound(steps, from) {
    const { event, round } = steps[from];
    let to = from + 1;
    while (round && to < steps.length && steps[to].event === event && steps[to].round === round) to += 1;
    return to;
}

/**
 * The raw script. A quiet round is one line with the takings after it, unless some host sends in its round, or some are
 * strangers, which take nothing in a round.
 *
 * @param {Network} network
 * @param {Traced} traced
 * @param {(step: number) => string[]} quietLines the lines of a quiet round that is spelled out
 * @returns {Line[]}
 */
function rawScript({ strangers }, { steps }, quietLines) {
    /** @type {Line[]} */
    const lines = [];
    for (let from = 0; from < steps.length; ) {
        const to = endOfRound(steps, from);
        const mine = steps.slice(from, to);
        if (!strangers.length && isQuiet(mine[0]) && !mine.some((it) => it.words[0] === "offer")) {
            lines.push({ text: ROUND, step: from, quiet: false });
        } else {
            mine.forEach((it, place) => {
                const step = from + place;
                const texts = isQuiet(it) ? quietLines(step) : linesOf(it);
                lines.push(...texts.map((text) => ({ text, step, quiet: isQuiet(it) })));
            });
        }
        from = to;
    }
    return lines;
}

/**
 * The lines that do inside what an event did that is no quiet round.
 *
 * @param {Moment} step
 */
function linesOf({ words, printed }) {
    if (words[0] === "offer" || words[0] === "out") return printed.filter(isOut);
    return INNER.includes(words[0]) ? [words.join(" ")] : [];
}

/**
 * A quiet round, event by event.
 *
 * @param {Network} network
 * @param {number[]} frames how many arrive, line by line, first `+` and then `-`
 */
function quietRound(network, frames) {
    const lines = network.sites.flatMap(({ number }) => [`route ${number}`, `resend ${number}`]);
    frames.forEach((count, place) => {
        const way = `${place >> 1} ${place % 2 ? "-" : "+"} 0`;
        for (let frame = 0; frame < count; frame += 1) lines.push(`deliver ${way}`, `drop ${way}`);
    });
    return lines;
}

/**
 * How many frames arrive in each quiet round that is spelled out: the raw script is run with more deliveries than there
 * are frames, and those beyond are refused.
 *
 * @param {Runner["run"]} run
 * @param {string[]} head
 * @param {Network} network
 * @param {Traced} traced
 * @param {Limits} limits
 * @returns {Promise<Map<number, number[]> | null>}
 */
async function framesOfRounds(run, head, network, traced, limits) {
    const inRounds = rawScript(network, traced, () => [ROUND]);
    const spelled = [...new Set(inRounds.flatMap((it) => (it.quiet ? [it.step] : [])))];
    if (spelled.length === 0) return new Map();
    for (let most = 8; most <= 256; most *= 2) {
        const padded = rawScript(network, traced, () => paddedRound(network, most));
        const text = [...head, ...padded.map((line) => line.text), ""].join("\n");
        if (text.length > MOST_OCTETS) return null;
        const outcome = await run([], octetsOf(text), limits);
        if (outcome.ended !== "exit" || outcome.status !== 0) return null;
        const counts = counted(textOf(outcome).split("\n"), 2 * network.lines.length, most);
        if (counts.length !== spelled.length) return null;
        if (counts.every((it) => it.every((count) => count < most))) {
            return new Map(spelled.map((step, place) => [step, counts[place]]));
        }
    }
    return null;
}

/**
 * What is always refused, and not as NoSuch: the mark after each direction of a line.
 *
 * @param {Network} network
 */
function separator(network) {
    return `giveup ${network.hosts[0]} ${network.hosts[0]} 255`;
}

/**
 * What begins a round: it prints a pair that no event prints.
 *
 * @param {Network} network
 */
function beginning(network) {
    return ["drop 4294967295 + 0", separator(network), separator(network)];
}

/**
 * A quiet round with `most` deliveries for each direction of a line, and a mark after each direction.
 *
 * @param {Network} network
 * @param {number} most
 */
function paddedRound(network, most) {
    const lines = [...quietRound(network, []), ...beginning(network)];
    for (let place = 0; place < 2 * network.lines.length; place += 1) {
        const way = `${place >> 1} ${place % 2 ? "-" : "+"} 0`;
        for (let frame = 0; frame < most; frame += 1) lines.push(`deliver ${way}`, `drop ${way}`);
        lines.push(separator(network));
    }
    return lines;
}

/**
 * How many frames arrived, round by round: of `most` deliveries and drops for each direction the rest was refused.
 *
 * @param {string[]} lines what was printed
 * @param {number} ways
 * @param {number} most
 */
function counted(lines, ways, most) {
    /** @type {number[][]} */
    const rounds = [];
    const isMark = (/** @type {string | undefined} */ line) => line !== undefined
        && line.startsWith("refused ")
        && line !== "refused NoSuch";
    for (let at = 0; at + 2 < lines.length; at += 1) {
        if (lines[at] !== "refused NoSuch" || !isMark(lines[at + 1]) || !isMark(lines[at + 2])) continue;
        at += 3;
        const counts = [];
        for (let way = 0; way < ways; way += 1, at += 1) {
            let refused = 0;
            for (; lines[at] === "refused NoSuch"; at += 1) refused += 1;
            counts.push(most - refused / 2);
        }
        at -= 1;
        rounds.push(counts);
    }
    return rounds;
}

/**
 * Joins the trace of a raw script, as it comes, to the steps of the real replay. It may be long, and only what is shown
 * of it is kept.
 */
class Joined {
    /**
     * @param {Network} network
     * @param {Line[]} lines
     * @param {Traced} traced
     */
    constructor(network, lines, { opening, steps }) {
        this.network = network;
        this.lines = lines;
        this.steps = steps;
        this.isLarge = isLarge(network, steps);
        this.inside = { ...opening };
        this.real = { ...opening };
        /** @type {Moment[] | null} null once a crossing or a part differs, or too much has to be kept */
        this.moments = [];
        /** @type {Record[]} of the step that is next */
        this.records = [];
        this.next = 0;
        this.event = -1;
        this.taken = 0;
    }

    /**
     * Of a quiet round that is spelled out, what was refused is left out.
     *
     * @param {Record} record
     */
    add(record) {
        const { text, quiet, step } = this.lines[record.event];
        if (record.event !== this.event) this.taken = 0;
        this.event = record.event;
        if (text === ROUND && record.words[0] === "take") this.taken += 1;
        if (quiet && record.printed.length) return;
        this.endBefore(step + this.taken);
        this.records.push(record);
    }

    /** @param {number} step */
    endBefore(step) {
        for (; this.next < step && this.moments; this.next += 1) this.end(this.steps[this.next]);
    }

    /** @param {Moment} step */
    end(step) {
        const moments = momentsOfStep(step, this.records);
        this.records = [];
        const parts = moments?.flatMap((it) => it.parts) ?? [];
        const shown = moments && this.isLarge && isQuiet(step) ? condensed(moments, this.inside) : moments;
        const isAlike = areAlike(this.inside, parts, this.real, step.parts);
        if (!this.moments || !shown || !isAlike) this.moments = null;
        else this.moments.push(...shown);
        if (this.moments && this.moments.length > MOST_MOMENTS) this.moments = null;
    }

    /** The moments of the real replay, with what happens within its quiet rounds. */
    whole() {
        this.endBefore(this.steps.length);
        return this.moments;
    }
}

/**
 * Whether a replay has so many moments that rounds are shown without those in which nothing new happens.
 *
 * @param {Network} network
 * @param {Moment[]} steps
 */
function isLarge(network, steps) {
    return steps.filter(isQuiet).length * (network.sites.length + 4 * network.lines.length) > MOST_SPELLED;
}

/**
 * A round of a large network: each arrival of a packet and each that changes a distance, and in one moment each what
 * happens between them.
 *
 * @param {Moment[]} moments
 * @param {{[name: string]: Part}} before
 * @returns {Moment[]}
 */
export function condensed(moments, before) {
    const now = { ...before };
    /** @type {Moment[]} */
    const found = [];
    /** @type {Moment[]} */
    let between = [];
    const join = () => {
        if (!between.length) return;
        const parts = [...new Map(between.flatMap((it) => it.parts))];
        found.push({ ...between[0], words: [REST], fate: "", parts, events: between.map((it) => it.words.join(" ")) });
        between = [];
    };
    for (const moment of moments) {
        if (isNew(moment, now)) {
            join();
            found.push(moment);
        } else between.push(moment);
        put(now, moment.parts);
    }
    join();
    return found;
}

/**
 * Whether an event is the arrival of a packet, or changes a distance.
 *
 * @param {Moment} moment
 * @param {{[name: string]: Part}} before
 */
function isNew({ words, fate, parts }, before) {
    if (words[0] !== "deliver" || fate === "acks") return false;
    if (fate !== "distances") return true;
    return parts.some(([name, part]) => {
        if (!name.startsWith("imp ")) return false;
        const [is, was] = /** @type {(import("./trace.js").Imp | null)[]} */ ([part, before[name] ?? null]);
        return !is || !was || !areSame(is.distances, was.distances) || !areSame(is.next, was.next);
    });
}

/**
 * Whether two tables of numbers are the same.
 *
 * @param {{[key: string]: number}} one
 * @param {{[key: string]: number}} other
 */
function areSame(one, other) {
    let more = 0;
    for (const key in one) {
        if (one[key] !== other[key]) return false;
        more += 1;
    }
    for (const _ in other) more -= 1;
    return more === 0;
}

/**
 * The moments of a step, with the parts that each left; null where a crossing differs.
 *
 * @param {Moment} step
 * @param {Record[]} records
 * @returns {Moment[] | null}
 */
function momentsOfStep(step, records) {
    if (isQuiet(step)) return records.map(({ words, fate, parts }) => ({ ...step, words, fate, parts }));
    const crossed = step.printed.filter((line) => /^(?:out|in|answer|down|up|refused) /.test(line));
    const [record, ...more] = records;
    if (more.length || (!record && crossed.some((line) => !line.startsWith("refused ")))) return null;
    if (record && JSON.stringify(record.printed) !== JSON.stringify(crossed)) return null;
    const ofHosts = step.parts.filter(([name]) => isOfHost(name));
    return [{ ...step, fate: record?.fate ?? "", parts: [...(record?.parts ?? []), ...ofHosts] }];
}

/**
 * Whether two folds of parts are alike after what each of them is given.
 *
 * @param {{[name: string]: Part}} one
 * @param {[string, Part][]} left
 * @param {{[name: string]: Part}} other
 * @param {[string, Part][]} right
 */
function areAlike(one, left, other, right) {
    put(one, left);
    put(other, right);
    const names = new Set([...left, ...right].map(([name]) => name));
    return [...names].every((name) => JSON.stringify(one[name]) === JSON.stringify(other[name]));
}
