/** What users are asked for: each deed by names and letters, and what becomes of it at its host. */

import { TABLE } from "../../python/dorydate/sentences/table.mjs";
import { commandWords, octetValues, shown } from "./texts.js";
import { hostName } from "./topology.js";
import { count, filled, joinedWords } from "./words.js";

/** @typedef {import("./state.js").State} State */
/** @typedef {import("./trace.js").HostEnd} HostEnd */
/** @typedef {import("./trace.js").Peer} Peer */
/** @typedef {{end: HostEnd, pair: Peer}} Held an end of a connection, and what its host keeps about its peer */

/** What each deed has after its first word, and its sentence. */
const DEEDS = /** @type {{[kind: string]: string[]}} */ (TABLE.deeds);

const NEXT = TABLE["after deeds"];

/** Which of these words name hosts. */
const HOSTS = ["host", "peer"];

/**
 * Whether an event is what a user asks for.
 *
 * @param {string} kind
 */
export function isDeed(kind) {
    return Object.hasOwn(DEEDS, kind);
}

/**
 * A deed that was not refused.
 *
 * @param {string[]} words
 * @param {State} before
 * @param {State} after
 * @returns {string}
 */
export function deedSentence([kind, ...words], before, after) {
    const [names, sentence] = DEEDS[kind];
    /** @type {{[name: string]: string | number}} */
    const holes = Object.fromEntries(
        names.split(" ").map((name, place) => [
            name,
            HOSTS.includes(name) ? hostName(after.network, words[place]) : words[place],
        ]),
    );
    const sends = Number(holes.socket) % 2 === 1;
    const text = kind === "send" ? shown(octetValues(words[3]), Number(words[2])) : "";
    const socket = kind === "type" ? before.services(words[0])?.typing ?? "" : holes.socket;
    const verb = text.startsWith("“") || kind === "type" ? "types" : "hands over";
    const bits = kind === "type" ? 8 * (words[1].length + 2) : holes.bits ?? "";
    const way = TABLE.ways[sends ? "sends" : "receives"];
    return joinedWords([
        filled(sentence, { ...holes, way, text: text || holes.text || "", verb, bits }),
        ...next(kind, words[0], Number(socket), before, after),
    ]);
}

/**
 * What becomes of a deed at its host: commands that wait, bits that a grant allows or not, a close that waits.
 *
 * @param {string} kind
 * @param {string} host
 * @param {number} socket
 * @param {State} before
 * @param {State} after
 */
function next(kind, host, socket, before, after) {
    const name = hostName(after.network, host);
    const end = heldEnd(after, host, socket);
    if (kind === "send" || kind === "type") return end ? [bitsNext(end, name)] : [];
    const commands = newCommands(before, after, host);
    if (commands.length) return [filled(NEXT.commands, { commands: commands.join(", "), host: name })];
    if (kind === "contact") return [filled(NEXT.contact, { host: name })];
    if (kind !== "close") return [];
    return [end ? NEXT["close waits"] : NEXT["no longer listens"]];
}

/**
 * What becomes of bits that were handed over.
 *
 * @param {Held} held
 * @param {string} host
 */
function bitsNext({ end, pair }, host) {
    const { messages, bits } = end.allocation;
    const size = end.size ?? 1;
    if (messages === 0 || bits < size) {
        return filled(NEXT["no grant"], { messages: count(messages, "message"), bits: count(bits, "bit") });
    }
    if (end.link !== null && pair.busy.includes(end.link)) return filled(NEXT.busy, { link: end.link });
    if (bits < end.waiting.bits) return filled(NEXT["in part"], { bits: count(bits - (bits % size), "bit"), host });
    return filled(NEXT.allowed, { host });
}

/**
 * An end of a host that is its own, by its socket.
 *
 * @param {State} state
 * @param {string} host
 * @param {number} socket
 * @returns {Held | null}
 */
function heldEnd(state, host, socket) {
    for (const pair of state.program(host)?.pairs ?? []) {
        const end = pair.ends.find((it) => it.socket === socket && it.mine);
        if (end) return { end, pair };
    }
    return null;
}

/**
 * The commands that a deed added to those that wait at its host.
 *
 * @param {State} before
 * @param {State} after
 * @param {string} host
 */
function newCommands(before, after, host) {
    const were = new Map(before.program(host)?.pairs.map((pair) => [pair.peer, pair.commands.length]));
    return (after.program(host)?.pairs ?? []).flatMap(
        ({ peer, commands }) => commands.slice(were.get(peer) ?? 0).map(commandWords),
    );
}
