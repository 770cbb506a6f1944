/** Two replays beside each other: where one is in the other, what differs inside, and what each printed. */

import { inPairs } from "./alike.js";
import { addedLines, announced } from "./edits.js";
import { hostName, impOf, siteName } from "./topology.js";
import { isOfFlow } from "./trace.js";

/** @typedef {import("./runs.js").Replay} Replay */
/** @typedef {import("./state.js").State} State */
/** @typedef {import("./topology.js").Network} Network */

/**
 * @typedef {object} Printed
 * @property {number} line the script's line
 * @property {string} text what was printed
 * @property {number} position the position after it
 */

/** @typedef {{before: Printed | null, after: Printed | null}} Pair */

/**
 * What a replay printed.
 *
 * @param {Replay} replay
 * @returns {Printed[]}
 */
export function printedBy({ moments, input }) {
    return moments.flatMap(({ printed, event }, at) =>
        printed.map((text) => ({ line: input.events[event].line, text, position: at + 1 })),
    );
}

/**
 * The printed lines of two replays in pairs: alike ones together, and each other one by itself.
 *
 * @param {Printed[]} before
 * @param {Printed[]} after
 * @returns {Pair[]}
 */
export function beside(before, after) {
    const texts = (/** @type {Printed[]} */ lines) => lines.map((it) => it.text);
    const pairs = inPairs(texts(before), texts(after));
    return pairs.map(([a, b]) => ({ before: before[a] ?? null, after: after[b] ?? null }));
}

/**
 * How far a replay is.
 *
 * @typedef {object} Clock
 * @property {number} events that are done and that another replay has, too
 * @property {number} rounds that have begun since the last of them
 * @property {number} within how many moments of the last round are done
 * @property {boolean} isOver whether that round is over
 */

/**
 * The clock at each position of a replay.
 *
 * Of a calm that was divided within a round, the events in place of the round's beginning count as that round, which
 * the rest of the calm begins anew.
 *
 * @param {Replay} replay
 * @param {Set<number>} own lines of its script that the other one lacks
 * @returns {Clock[]}
 */
function clocks({ moments, input }, own) {
    const begun = linesOfRounds(input);
    /** @type {Clock} */
    let clock = { events: 0, rounds: 0, within: 0, isOver: true };
    let isBegun = false;
    const found = [clock];
    moments.forEach((moment, at) => {
        const { line } = input.events[moment.event];
        const [isFirst, isLast] = [!isSameRound(moments[at - 1], moment), !isSameRound(moments[at + 1], moment)];
        const { events, rounds, within } = clock;
        if (begun.has(line)) {
            clock = { events, rounds: rounds + (isBegun ? 0 : 1), within: isBegun ? within + 1 : 1, isOver: false };
            isBegun = true;
        } else if (moment.round > 0) {
            const more = isFirst && !isBegun ? 1 : 0;
            clock = { events, rounds: rounds + more, within: isFirst ? 1 : within + 1, isOver: isLast };
            isBegun = false;
        } else if (!own.has(line)) clock = { events: events + 1, rounds: 0, within: 0, isOver: true };
        found.push(clock);
    });
    return found;
}

/**
 * @param {import("./runs.js").Moment | undefined} one
 * @param {import("./runs.js").Moment} other
 */
function isSameRound(one, other) {
    return one !== undefined && one.event === other.event && one.round === other.round;
}

/**
 * The lines in place of the beginning of a round, by the comment above them.
 *
 * @param {import("./script.js").Input} input
 */
function linesOfRounds({ lines }) {
    const found = new Set();
    for (const { text, line, kind } of lines) {
        const count = kind === "comment" ? announced(text) : 0;
        for (let more = 1; more <= count; more += 1) found.add(line + more);
    }
    return found;
}

/**
 * Where another replay is at the same time: the last of its positions that isn't later than one of the present replay.
 *
 * @param {Replay} other
 * @param {Replay} now
 * @param {number} position
 */
export function placeBeside(other, now, position) {
    if (position === now.moments.length) return other.moments.length;
    const texts = (/** @type {Replay} */ it) => it.input.lines.map(({ text }) => text);
    const here = clocks(now, addedLines(texts(other), texts(now)))[position];
    const isLater = (/** @type {Clock} */ it) => {
        if (it.events !== here.events) return it.events > here.events;
        if (it.rounds !== here.rounds) return it.rounds > here.rounds;
        return !here.isOver && it.within > here.within;
    };
    const later = clocks(other, addedLines(texts(now), texts(other))).findIndex(isLater);
    return (later < 0 ? other.moments.length + 1 : later) - 1;
}

/**
 * The parts that are not alike in two states. A flow is told as a part of the IMP that knows it.
 *
 * @param {State} a
 * @param {State} b
 * @returns {string[]} their names
 */
export function differingParts(a, b) {
    const names = [...new Set([...Object.keys(a.parts), ...Object.keys(b.parts)])];
    const isOther = (/** @type {string} */ name) => JSON.stringify(a.parts[name]) !== JSON.stringify(b.parts[name]);
    const found = new Set(names.filter(isOther).map(holderOf));
    return names.filter((name) => found.has(name));
}

/**
 * The name of the part that the map shows for a part: of a flow the IMP that knows it.
 *
 * @param {string} name
 */
function holderOf(name) {
    if (!isOfFlow(name)) return name;
    const [kind, source, destination] = name.split(" ");
    return `imp ${impOf(kind === "source" ? source : destination)}`;
}

/**
 * A part's name for a reader.
 *
 * @param {Network} network
 * @param {string} name
 */
export function partWords(network, name) {
    const [kind, what] = name.split(" ");
    if (kind === "imp") return siteName(network, Number(what));
    if (kind === "program" || kind === "services") return `${kind} of ${hostName(network, what)}`;
    return kind === "down" ? "hosts that are down" : name;
}
