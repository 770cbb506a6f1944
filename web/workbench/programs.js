/**
 * What the program of a host and its services hold, in named cells: how far each peer is reset, the ends of connections
 * with their counters and what waits to be sent, commands that wait, sockets that listen, servers, users and terminals.
 */

import { commandWords, octetValues, shown } from "./texts.js";
import { hostName } from "./topology.js";
import { count, possessive } from "./words.js";

/** @typedef {import("./state.js").State} State */
/** @typedef {import("./talk.js").Talk} Talk */
/** @typedef {import("./topology.js").Network} Network */
/** @typedef {import("./trace.js").HostEnd} HostEnd */
/** @typedef {import("./trace.js").Peer} Peer */

/** @typedef {[string, string]} Cell a name and a value */

/** @typedef {{key: string, title: string, cells: Cell[]}} Group */

const PHASES = {
    closed: "not reset",
    want: "the RST waits to go out",
    gone: "the RST is out, without its RFNM",
    early: "the RST is out, and an RRP came before its RFNM",
    heard: "the RST was taken, and its RRP is awaited",
    ready: "ready",
};

const CLOSINGS = {
    no: "",
    due: "it closes when what it sent is answered",
    queued: "its CLS waits to go out",
    sent: "its CLS is out",
};

/**
 * @param {string} name
 * @param {string} value
 * @returns {Cell}
 */
function cell(name, value) {
    return [name, value];
}

/**
 * All that a host's program and services hold; nothing where the host is down, or has no program.
 *
 * @param {State} state
 * @param {Talk} talk as of the same position
 * @param {string} host
 * @returns {Group[]}
 */
export function groupsOf(state, talk, host) {
    const program = state.program(host);
    if (!program) return [];
    const listening = program.listening.map(
        ({ socket, size }) => cell(`socket ${socket}`, size ? `bytes of ${count(size, "bit")}` : "listens"),
    );
    return [
        ...program.pairs.flatMap((pair) => [
            pairGroup(state.network, pair),
            ...pair.ends.map((end) => endGroup(state.network, talk, host, pair.peer, end)),
        ]),
        ...(listening.length ? [{ key: "listening", title: "Listens", cells: listening }] : []),
        ...serviceGroups(state, host),
    ];
}

/**
 * @param {Network} network
 * @param {Peer} pair
 * @returns {Group}
 */
function pairGroup(network, { peer, phase, owed, busy, commands }) {
    const links = busy.length ? `${busy.length === 1 ? "link" : "links"} ${busy.join(", ")}` : "none";
    return {
        key: `with ${peer}`,
        title: `With ${hostName(network, peer)}`,
        cells: [
            ["reset", PHASES[phase]],
            ["RRP owed", owed ? "yes" : "no"],
            ["messages without answer", links],
            ["commands that wait", commands.map(commandWords).join("; ") || "none"],
        ],
    };
}

/**
 * @param {Network} network
 * @param {Talk} talk
 * @param {string} host
 * @param {string} peer
 * @param {HostEnd} end
 * @returns {Group}
 */
function endGroup(network, talk, host, peer, end) {
    const isSending = end.kind === "send";
    const { messages, bits } = end.allocation;
    const waiting = count(end.waiting.bits, "bit");
    const text = end.waiting.bits ? `, ${shown(octetValues(end.waiting.octets), end.waiting.bits)}` : "";
    /** @type {Cell[]} */
    const cells = [
        ["state", endState(end)],
        ["link", end.link === null ? "none yet" : String(end.link)],
        ["bytes of", end.size === null ? "not known yet" : count(end.size, "bit")],
        [isSending ? "may still go" : "may still come", `${count(messages, "message")}, ${count(bits, "bit")}`],
        ...(isSending ? [cell("waits to go", waiting + text)] : []),
        ...soFar(talk, host, peer, end),
    ];
    const way = isSending ? "sends to" : "receives from";
    return {
        key: `end ${peer} ${end.socket} ${end.foreign}`,
        title: `Socket ${end.socket} ${way} socket ${end.foreign} of ${hostName(network, peer)}`,
        cells,
    };
}

/**
 * How far an end is, from its first request until both CLS have passed.
 *
 * @param {HostEnd} end
 */
function endState({ mine, requests, closing }) {
    const closes = [CLOSINGS[closing.own], closing.peer ? "the peer's CLS came" : ""].filter(Boolean).join(", ");
    if (!mine) return `refused: ${closes}`;
    if (closes) return `closing: ${closes}`;
    if (requests.own === null) return "its request waits to go out";
    return requests.peer === null ? "asked: the peer's request is awaited" : "open";
}

/**
 * What an end has granted, was handed, and has sent or taken until now, by what was printed.
 *
 * @param {Talk} talk
 * @param {string} host
 * @param {string} peer
 * @param {HostEnd} end
 * @returns {Cell[]}
 */
function soFar(talk, host, peer, end) {
    const known = talk.ends.find(
        (it) => it.host === host
            && it.socket === end.socket
            && it.peer === peer
            && it.foreign === end.foreign
            && it.state !== "over",
    );
    if (!known) return [];
    const carried = `${count(known.bits, "bit")} in ${count(known.messages, "message")}`;
    const { service, handed, grantedMessages, grantedBits, returnedMessages, returnedBits } = known;
    if (end.kind === "send") {
        return [...(handed ? [cell("handed over", count(handed, "bit"))] : []), cell("sent", carried)];
    }
    const isByService = service && grantedBits === 0;
    const back = returnedBits || returnedMessages
        ? `, ${count(returnedMessages, "message")} and ${count(returnedBits, "bit")} back`
        : "";
    const granted = `${count(grantedMessages, "message")}, ${count(grantedBits, "bit")}${back}`;
    return [["granted", isByService ? "by its service" : granted], ["taken", carried]];
}

/**
 * @param {State} state
 * @param {string} host
 * @returns {Group[]}
 */
function serviceGroups(state, host) {
    const services = state.services(host);
    if (!services) return [];
    const { typing, running } = services;
    const groups = running.map((it, place) => ({ key: `service ${place}`, ...serviceGroup(state.network, it) }));
    if (typing === null) return groups;
    return [...groups, { key: "typing", title: "A typed line", cells: [cell("goes to", `socket ${typing}`)] }];
}

/**
 * @param {Network} network
 * @param {{kind: string, [field: string]: any}} it
 * @returns {{title: string, cells: Cell[]}}
 */
function serviceGroup(network, it) {
    const sockets = cell("sockets", `receives on ${it.sockets.receive}, sends on ${it.sockets.send}`);
    const over = cell("initial connection", it.over ? "over" : "not complete");
    const far = (/** @type {{host: string, socket: number} | null} */ end) => (
        end ? `socket ${end.socket} of ${hostName(network, end.host)}` : "nobody yet"
    );
    switch (it.kind) {
        case "server":
            return {
                title: `Server on socket ${it.listen}`,
                cells: [
                    over,
                    ["its user", far(it.met.user)],
                    sockets,
                    ["receives from", far(it.met.receiving)],
                    ["sends to", far(it.met.sending)],
                ],
            };
        case "user": {
            const { asking, receiving, sending } = it.opened;
            const open = [asking ? "asking" : "", receiving ? "receiving" : "", sending ? "sending" : ""];
            return {
                title: `User of ${possessive(hostName(network, it.asked.host))} server on socket ${it.asked.listen}`,
                cells: [
                    over,
                    ["asks from", `socket ${it.asked.own}`],
                    sockets,
                    ["connections open", open.filter(Boolean).join(", ") || "none"],
                    ["base", it.base === null ? `not known yet, ${count(it.came.bits, "bit")} came` : String(it.base)],
                ],
            };
        }
        case "terminal": {
            const rest = octetValues(it.rest || "-");
            const text = rest.length ? shown(rest, 8 * rest.length) : "nothing";
            return { title: "Terminal", cells: [sockets, ["line that hasn't ended", text]] };
        }
    }
    return { title: "Echo service", cells: [sockets] };
}
