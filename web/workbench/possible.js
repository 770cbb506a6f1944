/**
 * What can happen now: events are tried from a position, in the program itself, and those that it would not refuse are
 * kept with what each would print.
 */

import { RST } from "./choices.js";
import { goOn } from "./edits.js";
import { octetsOf, textOf } from "./octets.js";
import { frameName } from "./sentences.js";
import { hostName, impName, impOf, linesOf, siteName, wayOf } from "./topology.js";
import { messageName } from "./waits.js";
import { capital } from "./words.js";

/** @typedef {import("../run/runner.js").Runner} Runner */
/** @typedef {import("./fold.js").History} History */
/** @typedef {import("./state.js").State} State */
/** @typedef {import("./talk.js").Talk} Talk */

/** @typedef {"hosts" | "lines" | "IMPs"} Kind */

/**
 * @typedef {object} Candidate
 * @property {Kind} kind
 * @property {string} part the part that it is of, in words
 * @property {string} words
 * @property {string} line the script's line
 */

/** @typedef {Candidate & {printed: string[]}} Possible */

const MOST_FRAMES = 3; // of each way of a line
const MOST_PEERS = 3;
const MOST = 240;
const LIMITS = { seconds: 6, octets: 20_000_000 };

/**
 * The events that may be possible, as far as a look at the network tells.
 *
 * @param {State} state
 * @param {Talk} talk
 * @returns {Candidate[]}
 */
export function candidates(state, talk) {
    const { network } = state;
    const found = [
        ...network.hosts.flatMap((host) => ofHost(state, talk, host)),
        ...(network.plain ? [] : network.lines.flatMap((_, line) => ofLine(state, line))),
        ...(network.plain ? [] : network.sites.flatMap(({ number }) => ofImp(state, number))),
    ];
    return found.slice(0, MOST);
}

/**
 * @param {State} state
 * @param {Talk} talk
 * @param {string} host
 * @returns {Candidate[]}
 */
function ofHost(state, talk, host) {
    const { network } = state;
    const part = capital(hostName(network, host));
    const one = (/** @type {string} */ words, /** @type {string} */ line) => (
        { kind: /** @type {Kind} */ ("hosts"), part, words, line }
    );
    const others = network.hosts.filter((it) => it !== host).slice(0, MOST_PEERS);
    const open = [...talk.messages.keys()].filter((flow) => flow.startsWith(`${host} `));
    const sends = others.map((other) => (
        network.strangers.includes(host)
            ? one(`says RST to ${hostName(network, other)}`, `out ${host} ${other} 0 ${RST}`)
            : network.raw
            ? one(`sends “HI” to ${hostName(network, other)}`, `out ${host} ${other} 5 16 4849`)
            : one(`contacts ${hostName(network, other)}`, `contact ${host} ${other}`)
    ));
    const box = state.box(host);
    const isWaited = box !== null && box.messages.length + box.answers.length > 0;
    return [
        one(isWaited ? "takes what waits for it" : "takes, and nothing waits for it", `take ${host}`),
        ...(network.raw || network.strangers.includes(host) ? [] : [one("offers its next message", `offer ${host}`)]),
        ...sends,
        ...open.flatMap((flow) => [
            ...(network.plain ? [] : [one(`asks what became of ${messageName(network, flow)}`, `ask ${flow}`)]),
            one(`gives up ${messageName(network, flow)}`, `giveup ${flow}`),
        ]),
        one("stops", `hostdown ${host}`),
        one("starts", `hostup ${host}`),
    ];
}

/**
 * @param {State} state
 * @param {number} line
 * @returns {Candidate[]}
 */
function ofLine(state, line) {
    const { network } = state;
    const part = `Line ${line}: ${network.lines[line].map((imp) => siteName(network, imp)).join(" – ")}`;
    const one = (/** @type {string} */ words, /** @type {string} */ event) => (
        { kind: /** @type {Kind} */ ("lines"), part, words, line: event }
    );
    const frames = /** @type {const} */ (["+", "-"]).flatMap((way) => {
        const to = siteName(network, wayOf(network, line, way)[1]);
        return state.line(line)[way].slice(0, MOST_FRAMES).flatMap((frame, place) => [
            one(`${frameName(network, frame)} arrives at ${to}`, `deliver ${line} ${way} ${place}`),
            one(`${frameName(network, frame)} to ${to} is gone`, `drop ${line} ${way} ${place}`),
            one(`${frameName(network, frame)} arrives at ${to} garbled`, `garble ${line} ${way} ${place}`),
        ]);
    });
    const ends = network.lines[line].map((imp) => (
        state.isEndUp(imp, line)
            ? one(`its end at ${siteName(network, imp)} goes down`, `enddown ${imp} ${line}`)
            : one(`its end at ${siteName(network, imp)} comes up`, `endup ${imp} ${line}`)
    ));
    return [...frames, ...ends];
}

/**
 * @param {State} state
 * @param {number} imp
 * @returns {Candidate[]}
 */
function ofImp(state, imp) {
    const { network } = state;
    const part = capital(impName(network, imp));
    const one = (/** @type {string} */ words, /** @type {string} */ line) => (
        { kind: /** @type {Kind} */ ("IMPs"), part, words, line }
    );
    const it = state.imp(imp);
    if (!it) return [one("starts", `impup ${imp}`)];
    const kept = state.keptFlows().filter((noted) => noted.imp === imp);
    const others = new Set(kept.map(({ flow }) => impOf(flow.split(" ")[0])).filter((other) => other !== imp));
    return [
        ...(linesOf(network, imp).length ? [one("tells its distances", `route ${imp}`)] : []),
        ...(linesOf(network, imp).length ? [one("sends again", `resend ${imp}`)] : []),
        ...[...others].map((other) => one(`forgets the numbers of ${impName(network, other)}`, `forget ${imp} ${other}`)),
        ...it.slots.map(([piece]) => one(`throws pieces of ${messageName(network, piece.flow)} away`, `abandon ${piece.flow}`)),
        ...(linesOf(network, imp).length ? [one("claims to be nearest to every IMP", `claim ${imp}`)] : []),
        one("stops", `impdown ${imp}`),
    ];
}

/**
 * Those of the candidates that the program does not refuse from a position on, with what each prints.
 *
 * @param {Runner["batch"]} batch
 * @param {History} history
 * @param {number} position
 * @param {Candidate[]} tried
 * @returns {Promise<{possible: Possible[], count: number}>} and how many were tried
 */
export async function possible(batch, history, position, tried) {
    const { text } = goOn(history, position, [], true);
    const inputs = [text, ...tried.map(({ line }) => `${text}${line}\n`)].map(octetsOf);
    const [first, ...outcomes] = await batch([], inputs, LIMITS);
    if (!first || first.status !== 0) return { possible: [], count: 0 };
    const before = printedLines(textOf(first));
    /** @type {Possible[]} */
    const found = [];
    outcomes.forEach((outcome, place) => {
        if (outcome.status !== 0) return;
        const printed = printedLines(textOf(outcome)).slice(before.length);
        if (!printed.some((line) => line.startsWith("refused "))) found.push({ ...tried[place], printed });
    });
    return { possible: found, count: outcomes.length };
}

/**
 * The printed lines, without the last one, which says that the script is at its end.
 *
 * @param {string} text
 */
function printedLines(text) {
    return text.split("\n").slice(0, -2);
}
