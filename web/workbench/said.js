/**
 * What a contact, a request or a close of a host waits for: which command has to go out, to arrive or to be taken next.
 *
 * Of the two hosts it looks at what is queued and at what is out on link 0, each way. `./explain` has the same facts
 * (python/dorydate/explain/said.py), and both read the rules of the thing "said" in the table of sentences.
 */

import { commandsIn } from "./commands.js";
import { octetValues } from "./texts.js";
import { hostName } from "./topology.js";

/** @typedef {import("./state.js").State} State */
/** @typedef {import("./talk.js").Talk} Talk */
/** @typedef {import("./trace.js").HostEnd} HostEnd */
/** @typedef {import("./trace.js").Peer} Peer */
/** @typedef {import("./waits.js").Holes} Holes */
/** @typedef {{[fact: string]: boolean | undefined}} Facts */

/**
 * @typedef {object} Way what goes from one host to another on link 0
 * @property {boolean} isUp
 * @property {boolean} isStranger
 * @property {Peer | undefined} pair
 * @property {{name: string, link: number, sockets: number[]}[]} commands those of the message that is out and was not taken
 * @property {boolean} isHere whether that waits for its destination to take it
 * @property {boolean} isAnswered whether an answer waits for its source to take it
 */

/**
 * @param {State} state
 * @param {Talk} talk
 * @param {string} source
 * @param {string} destination
 * @returns {Way}
 */
export function wayOf(state, talk, source, destination) {
    const flow = `${source} ${destination} 0`;
    const message = talk.messages.get(flow);
    const isStranger = state.network.strangers.includes(source);
    return {
        isUp: isStranger ? state.isUp(source) : state.program(source) !== null,
        isStranger,
        pair: state.program(source)?.pairs.find((it) => it.peer === destination),
        commands: message && !message.taken ? commandsIn(octetValues(message.octets)) : [],
        isHere: (state.box(destination)?.messages ?? []).some((it) => it.flow === flow),
        isAnswered: (state.box(source)?.answers ?? []).some((it) => it.flow === flow),
    };
}

/**
 * Where a command of a host is.
 *
 * @param {Way} way
 * @param {"own" | "peer"} whose
 * @param {string} name
 * @param {number[]} sockets none where it has none
 * @param {boolean} isQueued
 * @returns {Facts}
 */
function facts({ pair, commands, isHere }, whose, name, sockets, isQueued) {
    const isSame = (/** @type {number[]} */ it) => sockets.every((socket, place) => it[place] === socket);
    const isOut = commands.some((it) => it.name === name && isSame(it.sockets));
    const busy = pair?.busy ?? [];
    const isAlone = pair?.phase === "want" || pair?.owed; // a reset and its reply wait for all answers
    return {
        [`${whose} queued`]: isQueued,
        [`${whose} busy`]: isAlone ? busy.length > 0 : busy.includes(0),
        [`${whose} out`]: isOut,
        [`${whose} here`]: isOut && isHere,
    };
}

/**
 * What a host and a peer have to say to each other.
 *
 * @param {State} state
 * @param {Talk} talk
 * @param {string} host
 * @param {string} peer
 */
export function saying(state, talk, host, peer) {
    const there = wayOf(state, talk, host, peer);
    const back = wayOf(state, talk, peer, host);
    const { network } = state;
    const names = { host: hostName(network, host), peer: hostName(network, peer), own: host, other: peer };
    const known = { "peer down": !back.isUp, "stranger": back.isUp && back.isStranger };
    const partner = (/** @type {HostEnd} */ end) => (
        back.pair?.ends.find((it) => it.socket === end.foreign && it.foreign === end.socket)
    );
    const phase = back.pair?.phase ?? "closed";
    const isKnown = back.isUp && !back.isStranger;
    const contacts = { "forgotten": isKnown && phase === "closed", "resets": isKnown && phase !== "closed" && phase !== "ready" };
    return {
        names,
        /**
         * What a contact waits for: the RST and its answer, then the RRP.
         *
         * @param {Peer} pair
         * @returns {[Facts, Holes]}
         */
        contact: (pair) => {
            const isOut = pair.phase === "gone" || pair.phase === "early";
            return [
                {
                    ...known,
                    "contact": true,
                    ...facts(there, "own", "RST", [], pair.phase === "want"),
                    ...facts(back, "peer", "RRP", [], pair.phase === "heard" && (back.pair?.owed ?? false)),
                    "answer here": isOut && there.isAnswered,
                    "answer out": isOut,
                },
                { ...names, said: "RST", reply: "RRP" },
            ];
        },
        /**
         * What a request waits for: that it comes to the peer, and then the peer's own, or the CLS that refuses it.
         *
         * @param {HostEnd} end
         * @param {"request" | "initial"} [thing]
         * @returns {[Facts, Holes]}
         */
        request: (end, thing = "request") => {
            const [said, answer] = end.kind === "receive" ? ["RTS", "STR"] : ["STR", "RTS"];
            const theirs = partner(end);
            const isRefused = theirs?.mine === false;
            const reply = isRefused ? "CLS" : answer;
            const isQueued = theirs !== undefined
                && (isRefused ? theirs.closing.own !== "sent" : theirs.requests.own === null);
            return [
                {
                    ...known,
                    ...contacts,
                    [thing]: true,
                    "refused": isRefused,
                    ...facts(there, "own", said, [end.socket, end.foreign], end.requests.own === null),
                    ...facts(back, "peer", reply, [end.foreign, end.socket], isQueued),
                },
                { ...names, said, reply, socket: end.foreign },
            ];
        },
        /**
         * What a close waits for: the answers to what was sent, its own CLS, and the peer's.
         *
         * @param {HostEnd} end
         * @returns {[Facts, Holes]}
         */
        close: (end) => {
            const theirs = partner(end);
            return [
                {
                    ...known,
                    ...contacts,
                    "close": true,
                    "own due": end.closing.own === "due",
                    ...facts(there, "own", "CLS", [end.socket, end.foreign], end.closing.own === "queued"),
                    ...facts(back, "peer", "CLS", [end.foreign, end.socket], theirs?.closing.own === "queued"),
                    "peer due": theirs?.closing.peer === true && (theirs.closing.own === "no" || theirs.closing.own === "due"),
                },
                { ...names, said: "CLS", reply: "CLS", socket: end.foreign },
            ];
        },
    };
}
