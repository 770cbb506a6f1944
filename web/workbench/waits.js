/**
 * What is not finished at a position, where it is, and what it waits for: the answer to "why does nothing happen?".
 */

import { TABLE } from "../../python/dorydate/sentences/table.mjs";
import { saying, wayOf } from "./said.js";
import { State } from "./state.js";
import { farEnd, hostName, impName, impOf, linesOf, siteName } from "./topology.js";
import { filled, listed, possessive } from "./words.js";

/** @typedef {import("./talk.js").Talk} Talk */
/** @typedef {import("./trace.js").HostEnd} HostEnd */
/** @typedef {import("./state.js").Held} Held */
/** @typedef {import("./topology.js").Network} Network */

/**
 * @typedef {object} Wait
 * @property {string} what
 * @property {string} where "" where nothing is left of it
 * @property {string} copies how many copies there are beside it
 * @property {string} for what it waits for
 * @property {boolean} bad whether it waits for ever, unless somebody does something
 * @property {string[]} cures script lines that help
 * @property {string} flow of a message, "" otherwise
 */

/** @typedef {{[hole: string]: string | number}} Holes */

/** Of each thing that waits: facts, and what is said where they hold. The first row that holds counts. */
const RULES = TABLE["rules of waits"];
const [WHAT, AT, FOR] = /** @type {{[name: string]: string}[]} */ ([
    TABLE.waits,
    TABLE["waits at"],
    TABLE["waits for"],
]);

/** The names of answers, and of packets where they are. */
export const ANSWERS = TABLE.answers;
const PACKETS = /** @type {{[kind: string]: string}} */ (TABLE.packets);

/** How much each copy of a message matters, by its kind and its place. */
const FURTHEST = /** @type {{[name: string]: number}} */ (Object.fromEntries(TABLE.furthest));

/** How many messages an IMP reassembles at a time, and how many packets it stores. */
const [SLOTS, PLACES] = [8, 32];

/**
 * What waits, by the rules.
 *
 * @param {string} thing
 * @param {{[fact: string]: boolean | undefined}} facts
 * @param {Holes} holes
 * @param {string} [called] what it is called where its rule leaves that open
 * @returns {Wait}
 */
function wait(thing, facts, holes, called = "") {
    const row = RULES.find(([name, needed]) => name === thing && needed.split(", ").every((it) => !it || facts[it]));
    if (!row) throw new RangeError(`no rule for ${thing}`);
    const [, , what, where, why, bad, cures] = row;
    return {
        what: filled(WHAT[what || called], holes),
        where: filled(AT[where], holes),
        for: filled(FOR[why], holes),
        bad: bad === "bad",
        cures: filled(cures, holes).split(";").filter(Boolean),
        copies: "",
        flow: String(holes.flow ?? ""),
    };
}

/**
 * All that waits.
 *
 * @param {State} state
 * @param {Talk} talk as of the same position
 * @returns {Wait[]}
 */
export function waitsOf(state, talk) {
    const { network } = state;
    const inside = network.plain ? network.hosts.flatMap((host) => mailWaits(state, host)) : messageWaits(state);
    return [...inside, ...network.hosts.flatMap((host) => connectionWaits(state, talk, host)), ...unseen(state)];
}

/**
 * @param {State} state
 * @returns {Wait[]}
 */
function messageWaits(state) {
    const { network } = state;
    const everything = state.everything();
    const begun = state.sourceFlows().filter((source) => source.state === "outstanding");
    return network.sites.flatMap(({ number }) => {
        const it = state.imp(number);
        const imp = impName(network, number);
        return [
            ...begun.filter((source) => source.imp === number).map(
                (source) => outstanding(state, source.flow, source.number, everything),
            ),
            ...(it?.hosts.flatMap((box) => box.answers) ?? []).map(
                ({ flow }) => wait("answer", {}, { ...messageHoles(network, flow), imp, host: sourceName(network, flow) }),
            ),
        ];
    });
}

/**
 * What waits in the mailbox of a host.
 *
 * @param {State} state
 * @param {string} host
 */
function mailWaits(state, host) {
    const { network } = state;
    const holes = { host: hostName(network, host) };
    const it = state.box(host);
    return [
        ...(it?.messages ?? []).map(({ flow }) => wait("mail", {}, { ...messageHoles(network, flow), ...holes })),
        ...(it?.answers ?? []).map(
            ({ flow, kind }) => (
                wait("mail answer", {}, { ...messageHoles(network, flow), ...holes, answer: ANSWERS[kind] })
            ),
        ),
    ];
}

/**
 * @param {Network} network
 * @param {string} flow
 * @param {number} [number]
 */
function messageHoles(network, flow, number) {
    return { flow, message: messageName(network, flow, number) };
}

/**
 * @param {Network} network
 * @param {string} flow
 */
function sourceName(network, flow) {
    return hostName(network, flow.split(" ")[0]);
}

/**
 * A message by its source, destination and link, and by its number where two messages of its flow are alive at once.
 *
 * @param {Network} network
 * @param {string} flow
 * @param {number} [number]
 */
export function messageName(network, flow, number) {
    const [source, destination, link] = flow.split(" ");
    const which = number !== undefined && network.numbered.has(flow) ? ` ${number}` : "";
    return `${possessive(hostName(network, source))} message${which} to ${hostName(network, destination)} `
        + `on link ${link}`;
}

/**
 * A message that is outstanding: all that is alive of it, and what the one that is furthest waits for.
 *
 * @param {State} state
 * @param {string} flow
 * @param {number} number
 * @param {Held[]} everything
 * @returns {Wait}
 */
function outstanding(state, flow, number, everything) {
    const holes = messageHoles(state.network, flow, number);
    const copies = everything.filter((it) => it.flow === flow && it.number === number);
    if (copies.length === 0) {
        const [source, destination] = flow.split(" ").map(impOf);
        return wait("gone", { route: state.way(source, destination).line >= 0 }, holes);
    }
    const held = copies.filter((it) => it.place.at !== "line").length;
    const places = [held ? `${held} held` : "", copies.length > held ? `${copies.length - held} on lines` : ""];
    const others = copies.length > 1 ? `(${listed(places.filter(Boolean))})` : "";
    return { ...heldWait(state, furthest(state, copies), holes), copies: others };
}

/** What the rules call the places of copies. */
const PLACE = /** @type {const} */ ({ host: "whole", slot: "slot", store: "store", channel: "channel", line: "frame" });

/**
 * The copy that matters: an answer before the message before a question, and of each kind the one that is nearest to
 * its end.
 *
 * @param {State} state
 * @param {Held[]} copies
 */
function furthest(state, copies) {
    const score = (/** @type {Held} */ it) => (
        FURTHEST[it.kind] + FURTHEST[PLACE[it.place.at]] - state.way(it.place.imp, target(it)).distance
    );
    return copies.reduce((best, it) => (score(it) > score(best) ? it : best));
}

/**
 * The IMP to which something travels.
 *
 * @param {Held} held
 */
function target({ flow, kind }) {
    return impOf(flow.split(" ")[kind === "data" || kind === "ask" ? 1 : 0]);
}

/**
 * Where a copy is and what it waits for.
 *
 * @param {State} state
 * @param {Held} held
 * @param {Holes} message
 */
function heldWait(state, held, message) {
    const { network } = state;
    const { at, imp, line, place, channel } = held.place;
    const next = line >= 0 ? farEnd(network, line, imp) : 0;
    const own = held.flow.split(" ")[1];
    const isEndUp = line >= 0 && state.isEndUp(next, line);
    const facts = {
        "end down": !isEndUp,
        "no slot": isEndUp && wantsSlot(state, next, held),
        "no room": isEndUp && wantsRoom(state, next, held),
    };
    const names = {
        imp: impName(network, imp),
        from: siteName(network, imp),
        far: siteName(network, next),
        next: impName(network, next),
        to: siteName(network, target(held)),
        host: hostName(network, own),
        packet: PACKETS[held.kind],
    };
    const numbers = { own, number: imp, line, channel, pieces: place, slots: SLOTS, places: PLACES };
    return wait(PLACE[at], facts, { ...message, ...names, ...numbers });
}

/**
 * Whether a packet needs a slot at the IMP to which it comes next, and there is none.
 *
 * @param {State} state
 * @param {number} imp
 * @param {Held} held
 */
function wantsSlot(state, imp, { packet, flow, kind }) {
    const slots = state.imp(imp)?.slots ?? [];
    const isPiece = kind === "data" && impOf(flow.split(" ")[1]) === imp && !(packet?.last && packet.place === 0);
    return isPiece && slots.length >= SLOTS && !slots.some((pieces) => pieces[0].flow === flow);
}

/**
 * Whether a packet travels on from the IMP to which it comes next, and there is no room for it.
 *
 * @param {State} state
 * @param {number} imp
 * @param {Held} held
 */
function wantsRoom(state, imp, held) {
    return target(held) !== imp
        && state.heldBy(imp).filter(({ place: { at } }) => at === "store" || at === "channel").length >= PLACES;
}

/**
 * What connections and contacts of a host wait for.
 *
 * @param {State} state
 * @param {Talk} talk
 * @param {string} host
 * @returns {Wait[]}
 */
function connectionWaits(state, talk, host) {
    const running = state.services(host)?.running ?? [];
    const users = running.filter((it) => it.kind === "user" && !it.over);
    return [
        ...(state.program(host)?.pairs ?? []).flatMap((pair) => {
            const { peer, phase, ends, busy } = pair;
            const says = saying(state, talk, host, peer);
            return [
                ...(phase === "closed" || phase === "ready" ? [] : [wait("said", ...says.contact(pair), "contact")]),
                ...ends.flatMap((end) => {
                    const at = { end: `socket ${end.socket} of ${says.names.host}` };
                    const named = { ...says.names, ...at, socket: end.foreign };
                    if (end.waiting.bits) return [bitsThatWait(state, talk, { host, peer, busy, end }, named)];
                    const { own, peer: isClosed } = end.closing;
                    if (!end.mine || isClosed) return [];
                    if (own === "no" && !isAsked(end, users)) return [];
                    const [facts, holes] = own === "no" ? says.request(end) : says.close(end);
                    return [wait("said", facts, { ...holes, ...at }, own === "no" ? "request" : "close")];
                }),
            ];
        }),
        ...users.map((user) => {
            const peer = user.asked.host;
            const pair = state.program(host)?.pairs.find((it) => it.peer === peer);
            const first = pair?.ends.find((it) => it.socket === user.asked.own && it.foreign === user.asked.listen);
            const says = saying(state, talk, host, peer);
            if (first && isAsked(first, [])) return wait("said", ...says.request(first, "initial"), "initial");
            const facts = { "peer down": isDown(state, peer), "numbered": user.base !== null };
            return wait("initial", facts, { ...says.names, socket: user.asked.listen });
        }),
    ];
}

/**
 * Whether an end waits for its partner's request, which is not what the initial connection of a user waits for.
 *
 * @param {HostEnd} end
 * @param {{[field: string]: any}[]} users
 */
function isAsked({ requests, socket, closing: { own, peer } }, users) {
    return requests.peer === null && own === "no" && !peer && !users.some((it) => it.asked.own === socket);
}

/**
 * Whether a host is down: one with a program has none then.
 *
 * @param {State} state
 * @param {string} host
 */
function isDown(state, host) {
    return state.network.strangers.includes(host) ? !state.isUp(host) : !state.program(host);
}

/**
 * Bits that were handed over and have not gone out: they wait for a grant, or for their host to offer.
 *
 * @param {State} state
 * @param {Talk} talk
 * @param {{host: string, peer: string, busy: number[], end: HostEnd}} held
 * @param {Holes} holes
 */
function bitsThatWait(state, talk, { host, peer, busy, end }, holes) {
    const { link, allocation: { messages, bits: allowed } } = end;
    const facts = {
        "enough": messages >= 1 && allowed >= (end.size || 1),
        "busy": link !== null && busy.includes(link),
        "grant on its way": link !== null && isOnItsWay(state, talk, `${peer} ${host} 0`, link),
        "service": isOfService(state, peer, end.foreign),
    };
    const whose = isOfService(state, host, end.socket) ? "service" : "program";
    const numbers = { bits: end.waiting.bits, messages, allowed, link: link ?? 0, foreign: end.foreign };
    return wait("bits", facts, { ...holes, ...numbers, whose, own: host, other: peer });
}

/**
 * Whether a grant for a link has not come from a peer yet: it waits there to go out, or is in a message on its way.
 *
 * @param {State} state
 * @param {Talk} talk
 * @param {string} flow that of the peer's commands
 * @param {number} link
 */
function isOnItsWay(state, talk, flow, link) {
    const [peer, host] = flow.split(" ");
    const { pair, commands } = wayOf(state, talk, peer, host);
    return (pair?.commands ?? []).some((it) => it.kind === "all" && it.link === link)
        || commands.some((it) => it.name === "ALL" && it.link === link);
}

/**
 * Whether a service on a host uses a socket.
 *
 * @param {State} state
 * @param {string} host
 * @param {number} socket
 */
function isOfService(state, host, socket) {
    const services = state.services(host)?.running.filter((it) => it.kind === "echo" || it.kind === "terminal") ?? [];
    return services.some(({ sockets }) => sockets.receive === socket || sockets.send === socket);
}

/**
 * IMPs that are down while their neighbours still take them for up.
 *
 * @param {State} state
 * @returns {Wait[]}
 */
function unseen(state) {
    const { network } = state;
    if (network.plain) return [];
    return network.sites.filter(({ number }) => !state.imp(number)).flatMap(({ number }) => {
        const ends = linesOf(network, number).map((line) => ({ line, near: farEnd(network, line, number) })).filter(
            ({ line, near }) => state.isEndUp(near, line),
        );
        const cures = ends.map(({ line, near }) => `enddown ${near} ${line}`).join(";");
        return cures ? [wait("unseen", {}, { imp: impName(network, number), ends: cures })] : [];
    });
}

/**
 * Waits that are alike as one: messages of one pair of hosts that wait at one place for one thing.
 *
 * @param {Network} network
 * @param {Wait[]} waits
 * @returns {(Wait & {count: number})[]}
 */
export function grouped(network, waits) {
    /** @type {Map<string, Wait[]>} */
    const groups = new Map();
    for (const it of waits) {
        const pair = it.flow.split(" ").slice(0, 2).join(" ");
        const isAnswer = it.what.startsWith("the answer");
        const key = it.flow
            ? `${isAnswer}|${pair}|${it.where.replace(/channel \d+/, "channel")}|${it.for}`
            : `${it.what}|${it.where}|${it.for}`;
        groups.set(key, [...(groups.get(key) ?? []), it]);
    }
    return [...groups.values()].map((group) => {
        const [first] = group;
        if (group.length === 1) return { ...first, count: 1 };
        const [source, destination] = first.flow.split(" ");
        const links = listed(group.map((it) => it.flow.split(" ")[2]), 16);
        const start = first.what.startsWith("the answer") ? `the answers to ${group.length}` : String(group.length);
        const ends = `from ${hostName(network, source)} to ${hostName(network, destination)}`;
        const what = `${start} messages ${ends}, links ${links}`;
        const where = first.where.replace(/channel \d+/, "channels");
        return {
            ...first,
            what,
            where,
            copies: "",
            count: group.length,
            cures: group.length > 1 && first.cures.length ? group.flatMap((it) => it.cures.slice(-1)) : [],
        };
    });
}
