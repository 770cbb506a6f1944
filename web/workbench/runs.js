/**
 * Runs the program on an input and gives its moments: the elementary events in turn, what each printed, and the parts
 * that it left.
 *
 * The trace of a raw network is all that is needed. Where hosts have programs it has a quiet round as one event;
 * `driven.js` finds out what happens within it.
 */

import { driven } from "./driven.js";
import { octetsOf } from "./octets.js";
import { readInput, withScript } from "./script.js";
import { readTopology } from "./topology.js";
import { TraceReader } from "./trace.js";

/** @typedef {import("../run/runner.js").Runner} Runner */
/** @typedef {import("../run/runner.js").Outcome} Outcome */
/** @typedef {import("./topology.js").Network} Network */
/** @typedef {import("./script.js").Input} Input */
/** @typedef {import("./trace.js").Part} Part */

/**
 * @typedef {object} Moment
 * @property {number} event the place of its event among those of the script
 * @property {number} round the round of its calm, from 1; 0 in no calm
 * @property {string[]} words the elementary event, `quiet` for a quiet round as a whole, or `rest` for several of a round
 * @property {string[]} [events] of `rest`: the elementary events, as lines of a script
 * @property {string[]} printed with the octets of messages
 * @property {string[]} kinds of each printed line what crossed; "" of a notice
 * @property {string} fate of a frame that was delivered, as the program judged it; "" of anything else
 * @property {[string, Part][]} parts the parts that it left
 */

/**
 * @typedef {object} Replay
 * @property {Input} input
 * @property {Network} network
 * @property {Moment[]} moments
 * @property {{[name: string]: Part}} opening the parts before the first moment
 * @property {string} cut why there is less than the whole replay, "" if all is there
 */

/**
 * @typedef {object} Refusal why there is no replay
 * @property {Input} input
 * @property {number} status
 * @property {string} said what the program wrote on standard error
 */

/** How long a run may take and how much it may print. */
export const LIMITS = { seconds: 8, octets: 36_000_000 };

/** The limits of a lesson: it is known to end, so no clock cuts it on a slow machine. */
export const OF_LESSON = { ...LIMITS, seconds: Infinity };

/** @typedef {(text: string) => {seconds: number, octets: number}} LimitsOf the limits of a run of a text */

/**
 * The limits of texts, by the lessons of a page.
 *
 * @param {{text: string}[]} lessons
 * @returns {LimitsOf}
 */
export function limitsBy(lessons) {
    const known = new Set(lessons.map((it) => it.text));
    return (text) => (known.has(text) ? OF_LESSON : LIMITS);
}

/** The most octets of a trace whose quiet rounds are shown event by event. */
const MOST_WITHIN = 8_000_000;

/** The most lines of the trace of an input with host programs that are followed. */
const MOST_STEPS = 6_000;

/**
 * Replays an input.
 *
 * @param {Runner["run"]} run
 * @param {string} text
 * @param {{seconds: number, octets: number}} [limits]
 * @param {(opened: Replay) => void} [opened] is given the replay before its first moment, while the program still runs
 * @returns {Promise<Replay | Refusal>}
 */
export async function replay(run, text, limits = LIMITS, opened = () => {}) {
    const input = readInput(text);
    const checked = await run(["--check"], octetsOf(text), limits);
    const { ended, status, stderr } = checked;
    if (ended !== "exit" || status !== 0) return { input, status, said: stderr };
    const network = readTopology(input.head.join("\n"));
    const nothing = { input, network, moments: [], opening: {}, cut: "" };
    const reader = new TraceReader(network.raw ? Infinity : MOST_STEPS, (opening) => opened({ ...nothing, opening }));
    const outcome = await run(["--trace"], octetsOf(text), limits, (octets) => reader.add(octets));
    const cut = whyCut(outcome, limits);
    const trace = reader.read();
    const brief = outcome.ended === "time" ? shortened(input, trace?.records.at(-1)) : null;
    if (brief) return { ...await replay(run, brief.text, limits, opened), .../** @type {{}} */ (brief.why) };
    if (!trace) return { ...nothing, cut };
    const { opening, records: moments } = trace;
    if (network.raw) return { input, network, moments, opening, cut };
    return programReplay(run, { input, network, moments, opening, cut }, reader.octets, limits);
}

const BRIEF = 60; // rounds to which a calm is shortened of which nothing came in the time that a run has

/**
 * An input with its long calms shortened, and why; null where it has none that came to nothing. A calm in which nothing ends
 * can hold back even what was before it.
 *
 * @param {Input} input
 * @param {Moment} [last] the last moment that came
 * @returns {{text: string, why: {cut: string}} | null}
 */
function shortened(input, last = undefined) {
    /** @type {(event: import("./script.js").ScriptEvent) => boolean} */
    const isLong = ({ words: [kind, rounds] }) => kind === "calm" && Number(rounds) > BRIEF;
    const isLeft = (/** @type {number} */ event) => !last || event > last.event || (event === last.event && last.round < BRIEF);
    const long = input.events.filter((it, place) => isLong(it) && isLeft(place));
    if (!long.length) return null;
    const lines = new Set(long.map((it) => it.line));
    const text = withScript(input, input.lines.map((it) => (lines.has(it.line) ? `calm ${BRIEF}` : it.text)));
    const [{ line, text: calm }] = long;
    return { text, why: { cut: `Nothing came of the run in time, so \`${calm}\` in line ${line} is shown as \`calm ${BRIEF}\`.` } };
}

/**
 * @param {Replay | Refusal} it
 * @returns {it is Replay}
 */
export function isReplay(it) {
    return "moments" in it;
}

/**
 * Why an outcome is not whole, "" if it is.
 *
 * @param {Outcome} outcome
 * @param {{seconds: number, octets: number}} limits
 */
export function whyCut(outcome, limits) {
    const { ended, status, stderr } = outcome;
    if (ended === "exit") return status === 0 ? "" : `The program ended with status ${status}: ${stderr.trim()}`;
    const after = {
        time: ` after ${limits.seconds} seconds`,
        output: ` after ${Math.round(limits.octets / 1e6)} million octets`,
        stopped: "",
    };
    return `The program was stopped${after[ended]}. What it printed till then is shown.`;
}

/**
 * The replay of a network with host programs: event by event within quiet rounds where `driven.js` finds that out,
 * otherwise with each of them as a whole.
 *
 * @param {Runner["run"]} run
 * @param {Replay} traced by its own trace
 * @param {number} octets of that
 * @param {{seconds: number, octets: number}} limits
 * @returns {Promise<Replay>}
 */
async function programReplay(run, { input, network, moments, opening, cut: why }, octets, limits) {
    const steps = moments.map((it) => (it.round ? it : { ...it, words: input.events[it.event].words }));
    const cut = why || (steps.length < MOST_STEPS ? "" : `Only the first ${MOST_STEPS} events are shown.`);
    const isLarge = octets > MOST_WITHIN;
    const within = cut || isLarge ? null : await driven(run, input, network, { opening, steps }, limits);
    return { input, network, moments: within ?? steps, opening, cut };
}
