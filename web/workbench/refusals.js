/** Why an event was refused: what is in its way, and what clears it. */

import { TABLE } from "../../python/dorydate/sentences/table.mjs";
import { farEnd, hostName, impName, impOf, siteName, wayOf } from "./topology.js";
import { LOSSES } from "./trace.js";
import { ANSWERS, messageName } from "./waits.js";
import { capital, count, filled, listed } from "./words.js";

/** @typedef {import("./state.js").State} State */
/** @typedef {import("./state.js").Held} Held */
/** @typedef {import("./events.js").Refusal} Refusal */

/** What a refusal of a host's program means. */
export const IN_A_HOST = /** @type {{[name: string]: string}} */ (TABLE.programs);

const REFUSED = TABLE.refused;

/**
 * Why an event is refused in a state.
 *
 * @param {State} state
 * @param {string} name
 * @param {string[]} words the event
 * @returns {string}
 */
export function why(state, name, words) {
    if (name === "NotOpen") return notOpen(state, words);
    if (IN_A_HOST[name]) return IN_A_HOST[name];
    switch (/** @type {Refusal} */ (name)) {
        case "NoSuch":
            return noSuch(state, words);
        case "IsDown":
            return isDown(state, words);
        case "IsUp":
            return filled(REFUSED["up already"], { what: subject(state, words) });
        case "Blocked":
            return blocked(state, words);
        case "Unsettled":
            return unsettled(state, words[1]);
        case "NotOutstanding":
            return notOutstanding(state, words);
        case "StillAlive":
            return stillAlive(state, words);
        case "NoRoom":
            return noRoom(state, words);
    }
    return REFUSED.other;
}

/**
 * Why a connection isn't open.
 *
 * @param {State} state
 * @param {string[]} words
 */
function notOpen(state, [kind, host, word]) {
    const { network } = state;
    const rules = TABLE["not open"];
    const socket = kind === "type" ? state.services(host)?.typing : Number(word);
    if (kind === "type" && typeof socket !== "number") return rules.type;
    for (const { peer, ends } of state.program(host)?.pairs ?? []) {
        const end = ends.find((it) => it.mine && it.socket === socket);
        if (!end) continue;
        const there = state.program(peer)?.pairs.find((it) => it.peer === host)?.ends;
        const isRefused = there?.some((it) => !it.mine && it.socket === end.foreign && it.foreign === end.socket);
        const closing = end.closing.peer ? "closed" : end.closing.own !== "no" ? "closing" : "";
        const why = closing || (isRefused ? "refused" : end.requests.own === null ? "queued" : "asked");
        return filled(rules[why], { host: hostName(network, host), peer: hostName(network, peer), foreign: end.foreign });
    }
    return IN_A_HOST.NotOpen;
}

/**
 * Why there are no pieces of a message to throw away.
 *
 * @param {State} state
 * @param {string} flow
 */
function noPieces({ network, parts }, flow) {
    const number = impOf(flow.split(" ")[1]);
    const imp = impName(network, number);
    if (!parts[`imp ${number}`]) return filled(REFUSED["no pieces, down"], { imp });
    return filled(REFUSED["no pieces"], { imp, message: messageName(network, flow) });
}

/**
 * The host, the IMP or the end of a line that an event is of.
 *
 * @param {State} state
 * @param {string[]} words
 */
function subject(state, words) {
    const [kind, what, line] = words;
    if (what?.includes("/")) return hostName(state.network, what);
    const imp = impName(state.network, Number(what));
    return kind === "endup" || kind === "enddown" ? filled(REFUSED.end, { line, imp }) : imp;
}

/**
 * @param {State} state
 * @param {string[]} words
 */
function noSuch(state, words) {
    const { network } = state;
    const [kind, what, way, place] = words;
    if (network.plain && !what.includes("/")) return REFUSED.plain;
    if (kind === "deliver" || LOSSES.has(kind)) {
        const line = Number(what);
        if (line >= network.lines.length) return filled(REFUSED["no line"], { line });
        const frames = state.line(line)[way === "+" ? "+" : "-"].length;
        const [a, b] = wayOf(network, line, way);
        return filled(
            REFUSED["no frame"],
            { line, from: siteName(network, a), to: siteName(network, b), frames, place },
        );
    }
    if (what.includes("/")) {
        const host = kind === "abandon" ? words[2] : what;
        if (network.hosts.includes(host) && kind === "abandon") return noPieces(state, words.slice(1, 4).join(" "));
        return filled(REFUSED["no host"], { host });
    }
    if (kind === "forget" && what === way) return REFUSED["own numbers"];
    const missing = (kind === "forget" ? [what, way] : [what]).find(
        (imp) => !network.sites.some((site) => site.number === Number(imp)),
    );
    if (missing) return filled(REFUSED["no imp"], { number: missing });
    return filled(REFUSED["no end"], { line: way, imp: impName(network, Number(what)) });
}

/**
 * @param {State} state
 * @param {string[]} words
 */
function isDown(state, words) {
    const [kind, what] = words;
    const ofHost = what.includes("/");
    const imp = ofHost ? impOf(what) : Number(what);
    if (!state.network.plain && !state.imp(imp) && kind !== "impdown") {
        return filled(REFUSED.down, { what: impName(state.network, imp), event: `impup ${imp}` });
    }
    if (ofHost && kind !== "hostdown") {
        return filled(REFUSED.down, { what: subject(state, words), event: `hostup ${what}` });
    }
    return filled(REFUSED["down already"], { what: subject(state, words) });
}

/**
 * The flow that an event is of: of an `offer` it isn't known here.
 *
 * @param {string[]} words
 */
function flowOf(words) {
    return words[0] === "offer" ? "" : words.slice(1, 4).join(" ");
}

/**
 * @param {State} state
 * @param {string[]} words
 */
function blocked(state, words) {
    const flow = flowOf(words);
    if (!flow) return "Its next message has to wait for the answer to the last one on its link.";
    const [source, destination, link] = flow.split(" ");
    const rule = filled(
        REFUSED["one at a time"],
        { link, source: hostName(state.network, source), destination: hostName(state.network, destination) },
    );
    const answer = state.box(source)?.answers.find((it) => it.flow === flow);
    if (answer) {
        const holes = { answer: ANSWERS[answer.kind], host: hostName(state.network, source), word: source };
        return `${rule} ${filled(REFUSED["answer waits"], holes)}`;
    }
    return `${rule} ${settling(state, flow)}`;
}

/**
 * What ends an outstanding message.
 *
 * @param {State} state
 * @param {string} flow
 */
function settling(state, flow) {
    const [source, destination] = flow.split(" ");
    if (state.network.plain) {
        if (state.box(destination)?.messages.some((it) => it.flow === flow)) {
            return `The last one waits for ${hostName(state.network, destination)}: \`take ${destination}\`.`;
        }
        return "The last one has no answer yet.";
    }
    const number = outstandingNumber(state, flow);
    const alive = state.everything().filter((it) => it.flow === flow && it.number === number);
    if (alive.length) return filled(REFUSED.alive, { places: places(state, alive) });
    const canAsk = state.way(impOf(source), impOf(destination)).line >= 0;
    return filled(REFUSED[canAsk ? "nothing alive, ask" : "nothing alive"], { flow });
}

/**
 * @param {State} state
 * @param {string} flow
 */
function outstandingNumber(state, flow) {
    const source = state.source(flow);
    return source?.state === "outstanding" ? source.number : -1;
}

/**
 * Where things are, the first three of them.
 *
 * @param {State} state
 * @param {Held[]} alive
 */
function places(state, alive) {
    return listed(alive.map((it) => placeName(state, it)), 3);
}

/**
 * Where something is.
 *
 * @param {State} state
 * @param {Held} held
 */
export function placeName(state, held) {
    const { network } = state;
    const { imp, line, way, place, channel } = held.place;
    const far = () => siteName(network, farEnd(network, line, imp));
    switch (held.place.at) {
        case "line":
            return `in a frame from ${siteName(network, imp)} to ${far()} (\`drop ${line} ${way} ${place}\`)`;
        case "channel":
            return `in channel ${channel} of ${impName(network, imp)} to ${far()}`;
        case "store":
            return `in the store of ${impName(network, imp)}`;
        case "slot":
            return `in a slot of ${impName(network, imp)} (\`abandon ${held.flow}\`)`;
    }
    return `waiting for ${hostName(network, held.flow.split(" ")[1])} (\`take ${held.flow.split(" ")[1]}\`)`;
}

/**
 * @param {State} state
 * @param {string} host
 */
function unsettled(state, host) {
    const flows = state.sourceFlows().filter(
        (it) => it.state === "outstanding" && it.flow.startsWith(`${host} `),
    );
    const message = flows.length ? messageName(state.network, flows[0].flow) : "a message that it sent";
    const stopped = filled(REFUSED.stopped, { host: hostName(state.network, host), message });
    return `${stopped} ${flows.length ? settling(state, flows[0].flow) : REFUSED.settle}`;
}

/**
 * @param {State} state
 * @param {string[]} words
 */
function notOutstanding(state, words) {
    const flow = flowOf(words);
    const source = words[1];
    const answer = state.box(source)?.answers.find((it) => it.flow === flow);
    if (answer) {
        return filled(
            REFUSED.answered,
            { answer: ANSWERS[answer.kind], host: hostName(state.network, source), word: source },
        );
    }
    const message = messageName(state.network, flow);
    const why = `${message} has been answered or given up, or there was none`;
    return `No message is outstanding on link ${words[3]}: ${why}.`;
}

/**
 * @param {State} state
 * @param {string[]} words
 */
function stillAlive(state, words) {
    const [kind, what, other] = words;
    const { network } = state;
    const everything = state.everything();
    if (kind === "impup") {
        const imp = Number(what);
        const alive = everything.filter((it) => it.flow.split(" ").slice(0, 2).some((host) => impOf(host) === imp));
        const kept = state.keptFlows().filter(({ flow }) => impOf(flow.split(" ")[0]) === imp);
        const keeping = network.sites.filter(
            ({ number }) => number !== imp && kept.some((it) => it.imp === number),
        );
        const found = keeping.map(
            ({ number }) => filled(
                REFUSED.keeps,
                { imp: impName(network, number), other: impName(network, imp), number, from: imp },
            ),
        );
        if (alive.length) found.unshift(filled(REFUSED["still alive"], { places: places(state, alive) }));
        return found.join(" ") || "A message to one of its hosts is outstanding: it has to be given up first.";
    }
    if (kind === "forget") {
        const alive = everything.filter(
            (it) => it.kind !== "rfnm"
                && it.kind !== "dead"
                && impOf(it.flow.split(" ")[0]) === Number(other)
                && impOf(it.flow.split(" ")[1]) === Number(what),
        );
        if (alive.length) return filled(REFUSED["still alive"], { places: places(state, alive) });
        const from = siteName(network, Number(other));
        return `A message from ${from} is outstanding: it has to be answered or given up first.`;
    }
    const flow = flowOf(words);
    const number = outstandingNumber(state, flow);
    const alive = everything.filter((it) => it.flow === flow && (kind !== "giveup" || it.number === number));
    return alive.length
        ? `${filled(REFUSED["still alive"], { places: places(state, alive) })} It has to arrive or to be lost first.`
        : "Something of an earlier message could still be mistaken for it.";
}

/**
 * @param {State} state
 * @param {string[]} words
 */
function noRoom(state, words) {
    const imp = impOf(words[1]);
    const it = state.imp(imp);
    const held = (it?.store.length ?? 0) + (
        it?.ports.reduce((sum, port) => sum + port.sending.filter((channel) => channel.packet).length, 0) ?? 0
    );
    return `${capital(impName(state.network, imp))} has no room: it holds ${count(held, "packet")} in its store and `
        + "channels, 32 at most, and 16 messages may wait for a host.";
}
