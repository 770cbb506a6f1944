/** What happens at each moment, in sentences: for a reader who sees the map, by the names of sites. */

import { TABLE } from "../../python/dorydate/sentences/table.mjs";
import { deedSentence, isDeed } from "./deeds.js";
import { cureOf, isReachable } from "./fates.js";
import { why } from "./refusals.js";
import { saying } from "./texts.js";
import { farEnd, hostName, impName, impOf, siteName } from "./topology.js";
import { ANSWERS, messageName } from "./waits.js";
import { REST } from "./trace.js";
import { movesOf } from "./trips.js";
import { capital, count, filled, joinedWords, listed } from "./words.js";

/** @typedef {import("./fold.js").History} History */
/** @typedef {import("./runs.js").Moment} Moment */
/** @typedef {import("./fates.js").MomentNote} MomentNote */
/** @typedef {import("./state.js").State} State */
/** @typedef {import("./trace.js").Packet} Packet */
/** @typedef {import("./trace.js").Frame} Frame */
/** @typedef {import("./topology.js").Network} Network */

/** A moment with all that its sentences need. */
class Telling {
    /**
     * @param {History} history
     * @param {number} at
     */
    constructor(history, at) {
        this.history = history;
        this.network = history.network;
        this.moment = history.replay.moments[at];
        this.note = history.notes[at];
        this.before = history.at(at);
        this.after = history.at(at + 1);
    }

    /** @param {string} host */
    host(host) {
        return hostName(this.network, host);
    }

    /** @param {string | number} imp */
    imp(imp) {
        return impName(this.network, Number(imp));
    }
}

/**
 * The sentences of a moment.
 *
 * @param {History} history
 * @param {number} at
 * @returns {string}
 */
export function sentenceOf(history, at) {
    const it = new Telling(history, at);
    const { printed, words } = it.moment;
    if (printed.length === 0) return silent(it);
    const deed = isDeed(words[0]) && !isRefused(it) ? deedSentence(words, it.before, it.after) : "";
    const told = printed.map((line, place) => printedSentence(it, line.split(" "), it.moment.kinds[place]));
    return joinedWords([deed, ...told, (BESIDE[words[0]] ?? nothing)(it)]);
}

/** What is said after the printed lines of an event: what it did inside. */
const BESIDE = /** @type {{[kind: string]: (it: Telling) => string}} */ ({
    take: inner,
    out: inner,
    offer: inner,
    impdown: (it) => (isRefused(it) ? "" : impStops(it)),
    hostdown: hostStops,
});

/** Nothing to say. */
function nothing() {
    return "";
}

/** @param {Telling} it */
function isRefused({ moment }) {
    return moment.printed[0]?.startsWith("refused ") ?? false;
}

/**
 * The sentence of rounds in which nothing is new.
 *
 * @param {History} history
 * @param {import("./stops.js").Stop} stop
 */
export function quietSentence(history, stop) {
    const rounds = stop.round === stop.last
        ? `Round ${stop.round} passes`
        : `Rounds ${stop.round} to ${stop.last} pass`;
    return `${rounds}, and nothing is new.`;
}

/**
 * @param {Telling} it
 * @param {string[]} line
 * @param {string} crossed
 */
function printedSentence(it, [kind, ...words], crossed) {
    if (kind === "refused") return `Refused: ${why(it.before, words[0], it.moment.words)}`;
    if (kind === "answer") return lineSentence(it.network, crossed, words.slice(1));
    if (kind !== "out" && kind !== "in") return lineSentence(it.network, kind, words);
    return lineSentence(it.network, kind, words, { text: says(it.network, words) });
}

/**
 * What a message says, or how long it is.
 *
 * @param {Network} network
 * @param {string[]} words source, destination, link, bits and octets
 */
function says(network, words) {
    return saying(network.raw, Number(words[2]), Number(words[3]), words[4]) || count(Number(words[3]), "bit");
}

/** What each printed line has after its first word, and its sentence. */
const LINES = /** @type {{[kind: string]: string[]}} */ (TABLE.lines);

/** Which of these words name hosts. */
const HOSTS = ["source", "destination", "host", "peer"];

/**
 * The sentence of a printed line; "" for a line that has none.
 *
 * @param {Network} network
 * @param {string} kind its first word, or the answer that crosses
 * @param {string[]} words what follows
 * @param {{[name: string]: string}} [further] holes that the line doesn't fill
 * @returns {string}
 */
function lineSentence(network, kind, words, further = {}) {
    if (!Object.hasOwn(LINES, kind)) return "";
    const [names, sentence] = LINES[kind];
    const holes = Object.fromEntries(
        names.split(" ").map(
            (name, place) => [name, HOSTS.includes(name) ? hostName(network, words[place] ?? "") : words[place] ?? ""],
        ),
    );
    const meaning = kind === "error"
        ? ERRORS[Number(holes.code)] ?? "a code of its own"
        : REASONS[holes.reason] ?? holes.reason ?? "";
    return filled(
        sentence,
        {
            ...holes,
            way: Number(holes.socket) % 2 ? "sends" : "receives",
            meaning,
            text: words.slice(1).join(" "),
            ...further,
        },
    );
}

/**
 * What a user or a service learns.
 *
 * @param {Network} network
 * @param {string} kind
 * @param {string[]} words
 * @returns {string}
 */
export function notice(network, kind, words) {
    return lineSentence(network, kind, words);
}

export const ERRORS = ["", ...Object.values(TABLE.errors)];

export const REASONS = /** @type {{[name: string]: string}} */ (TABLE.reasons);

// ---- what happens inside

/**
 * A packet in words.
 *
 * @param {Network} network
 * @param {Packet} packet
 */
export function packetName(network, packet) {
    const message = messageName(network, packet.flow, packet.number);
    switch (packet.kind) {
        case "rfnm":
            return `the RFNM for ${message}`;
        case "dead":
            return `the Dead for ${message}`;
        case "never":
            return `the answer that ${message} never came`;
        case "ask":
            return `the question about ${message}`;
    }
    if (packet.place === 0 && packet.last) return message;
    return `piece ${packet.place + 1} of ${message}`;
}

/**
 * A frame in words.
 *
 * @param {Network} network
 * @param {Frame} frame
 */
export function frameName(network, frame) {
    if (frame.packet) return packetName(network, frame.packet);
    return frame.routes ? "a table of distances" : "an acknowledgement";
}

/**
 * What a moment sent, beside acknowledgements; "" for nothing.
 *
 * @param {Telling} it
 * @param {string} imp
 * @param {"sends" | "sends again"} [how]
 */
function sendings(it, imp, how = "sends") {
    const sent = it.note.sent.filter((sent) => sent.frame.packet).map(
        (sent) => `${frameName(it.network, sent.frame)} to ${siteName(it.network, sent.to)}`,
    );
    return sent.length ? filled(INSIDE[how], { imp, frames: listed([...new Set(sent)]) }) : "";
}

/**
 * What a crossing did inside.
 *
 * @param {Telling} it
 */
function inner(it) {
    const { network, moment, after } = it;
    if (network.plain || isRefused(it)) return "";
    const [kind, ...words] = moment.printed[0].split(" ");
    if (kind === "in" && !it.note.sent.length && impOf(words[0]) !== impOf(words[1])) {
        const way = after.way(impOf(words[1]), impOf(words[0]));
        return way.line < 0
            ? filled(INSIDE["no rfnm"], { imp: it.imp(impOf(words[1])), to: it.imp(impOf(words[0])) })
            : "";
    }
    if (kind !== "out") return "";
    const flow = words.slice(0, 3).join(" ");
    const imp = impOf(words[0]);
    if (after.box(words[0])?.answers.some((answer) => answer.kind === "dead" && answer.flow === flow)) {
        return deadAtOnce(it, imp, words[1]);
    }
    const packets = [...(after.imp(imp)?.store ?? []), ...it.note.sent.flatMap((sent) => sent.frame.packet ?? [])];
    const pieces = packets.filter((packet) => packet.flow === flow && packet.kind === "data");
    const waiting = after.imp(imp)?.store.filter((packet) => packet.flow === flow).length ?? 0;
    if (impOf(words[1]) === imp) return filled(INSIDE["one imp"], { imp: it.imp(imp), host: it.host(words[1]) });
    const parts = pieces.length > 1 ? `It is cut into ${pieces.length} packets.` : "";
    const number = network.numbered.has(flow) ? after.source(flow)?.number : undefined;
    return joinedWords([
        number === undefined ? "" : filled(INSIDE.numbered, { number }),
        parts,
        waiting ? `${waiting === 1 ? "One waits" : `${waiting} wait`} for a free channel.` : "",
    ]);
}

/**
 * @param {Telling} it
 * @param {number} imp
 * @param {string} destination
 */
function deadAtOnce(it, imp, destination) {
    const far = impOf(destination);
    if (!it.network.sites.some((site) => site.number === far)) return filled(INSIDE["no imp, dead"], { number: far });
    if (far === imp) return filled(INSIDE["no host, dead"], { host: it.host(destination) });
    const hops = hopsBetween(it.after, imp, far);
    const ends = { imp: it.imp(imp), to: it.imp(far) };
    return hops < 0
        ? filled(INSIDE["no way, dead"], ends)
        : filled(INSIDE["no route yet, dead"], { ...ends, rounds: hops });
}

/**
 * Over how many lines the shortest way leads whose ends are up; -1 where there is none.
 *
 * @param {State} state
 * @param {number} from
 * @param {number} to
 */
export function hopsBetween(state, from, to) {
    const { network } = state;
    const reached = new Map([[from, 0]]);
    const edge = [from];
    for (let at = edge.shift(); at !== undefined; at = edge.shift()) {
        network.lines.forEach((ends, line) => {
            if (!ends.includes(at ?? 0)) return;
            const far = farEnd(network, line, at ?? 0);
            if (reached.has(far) || !state.isEndUp(at ?? 0, line) || !state.isEndUp(far, line)) return;
            reached.set(far, (reached.get(at ?? 0) ?? 0) + 1);
            edge.push(far);
        });
    }
    return reached.get(to) ?? -1;
}

/**
 * The sentence of a moment that printed nothing.
 *
 * @param {Telling} it
 */
function silent(it) {
    const [kind, what] = it.moment.words;
    if (isDeed(kind)) return deedSentence(it.moment.words, it.before, it.after);
    if (kind === "take" || kind === "offer") return filled(SILENT[kind], { host: it.host(what) });
    if (kind === "quiet") return quietRound(it);
    if (kind === REST) return filled(SILENT.rest, { round: it.moment.round });
    return ((it.network.plain ? null : INNER[kind]) ?? outside)(it);
}

/**
 * A quiet round as a whole: to which IMPs packets have come in it.
 *
 * @param {Telling} it
 */
function quietRound(it) {
    const moved = it.network.plain ? [] : movesOf(it.before, it.after).map(
        ({ packet, to }) => filled(
            INSIDE["has come"],
            { packet: packetName(it.network, packet), imps: listed(to.map((imp) => siteName(it.network, imp))) },
        ),
    );
    const begins = filled(SILENT.quiet, { round: it.moment.round });
    return moved.length ? `${begins} ${capital(listed(moved))}.` : begins;
}

const SILENT = TABLE.silent;
const INSIDE = TABLE.inside;

/**
 * What an event does that leaves no part of the network.
 *
 * @param {Telling} it
 */
function outside(it) {
    const { words } = it.moment;
    const flow = words.slice(1, 4).join(" ");
    if (words[0] === "giveup") {
        return filled(SILENT.giveup, { message: messageName(it.network, flow), source: it.host(words[1]) });
    }
    return SILENT.other;
}

/** @type {{[kind: string]: (it: Telling) => string}} */
const INNER = {
    deliver: delivered,
    drop: (it) => lost(it, INSIDE.gone),
    garble: (it) => lost(it, INSIDE.garbled),
    route: (it) => {
        const imp = Number(it.moment.words[1]);
        const over = it.note.sent.map((sent) => siteName(it.network, sent.to));
        return over.length
            ? `${capital(it.imp(imp))} sends its distances to ${listed(over)}.`
            : filled(INSIDE["sends to nobody"], { imp: it.imp(imp) });
    },
    claim: (it) => filled(INSIDE.claims, { imp: it.imp(it.moment.words[1]), number: it.moment.words[1] }),
    resend: (it) => sendings(it, it.imp(it.moment.words[1]), "sends again")
        || filled(INSIDE["nothing to send"], { imp: it.imp(it.moment.words[1]) }),
    enddown: (it) => {
        const [, imp, line] = it.moment.words;
        const sending = it.before.port(Number(imp), Number(line))?.sending ?? [];
        const held = sending.flatMap((channel) => channel.packet ?? []);
        const left = new Set(it.after.heldBy(Number(imp)).map((held) => held.packet?.key));
        const gone = held.filter((packet) => !left.has(packet.key)).map((packet) => packetName(it.network, packet));
        return joinedWords([
            filled(INSIDE["end down"], { line, imp: it.imp(imp) }),
            lostRoutes(it, Number(imp)),
            sendings(it, "it"),
            gone.length ? filled(INSIDE["no route left"], { packets: listed(gone) }) : "",
        ]);
    },
    endup: (it) => {
        const [, imp, line] = it.moment.words;
        const far = farEnd(it.network, Number(line), Number(imp));
        return filled(INSIDE["end up"], { line, imp: it.imp(imp), far: it.imp(far), number: far });
    },
    impdown: impStops,
    impup: (it) => joinedWords([
        filled(INSIDE.starts, { imp: it.imp(it.moment.words[1]) }),
        "Its neighbours' ends have to be reset, too, or the first packets over them may be lost.",
    ]),
    forget: (it) => {
        const [, imp, other] = it.moment.words;
        return `${capital(it.imp(imp))} forgets the last numbers of flows from ${it.imp(other)}.`;
    },
    giveup: (it) => {
        const [source, destination, link] = it.moment.words.slice(1, 4);
        const message = messageName(it.network, `${source} ${destination} ${link}`);
        const given = filled(INSIDE["given up"], { message, imp: it.imp(impOf(source)) });
        return `${given} ${answerWaits(it, "incomplete", source)}`;
    },
    ask: (it) => {
        const flow = it.moment.words.slice(1, 4);
        const [near, far] = [impOf(flow[0]), impOf(flow[1])];
        const ends = { imp: it.imp(near), to: it.imp(far), message: messageName(it.network, flow.join(" ")) };
        return filled(
            INSIDE[near === far ? "nobody to ask" : it.before.way(near, far).line < 0 ? "nothing asked" : "asks"],
            ends,
        );
    },
    abandon: (it) => {
        const flow = it.moment.words.slice(1, 4).join(" ");
        const imp = impOf(it.moment.words[2]);
        const pieces = it.before.imp(imp)?.slots.find((it) => it[0].flow === flow)?.length ?? 0;
        return filled(INSIDE["thrown away"], { imp: it.imp(imp), pieces, message: messageName(it.network, flow) });
    },
};

/**
 * Which answer waits, if its host is up.
 *
 * @param {Telling} it
 * @param {"rfnm" | "dead" | "incomplete" | "nottaken"} kind
 * @param {string} host
 */
function answerWaits(it, kind, host) {
    return filled(
        INSIDE[it.after.isUp(host) ? "waits" : "nobody waits"],
        { answer: ANSWERS[kind], host: it.host(host) },
    );
}

/**
 * The routes that an IMP has lost or found.
 *
 * @param {Telling} it
 * @param {number} imp
 */
function lostRoutes(it, imp) {
    const others = it.network.sites.map((site) => site.number).filter((number) => number !== imp);
    const was = (/** @type {number} */ to) => isReachable(it.before.way(imp, to).distance);
    const is = (/** @type {number} */ to) => isReachable(it.after.way(imp, to).distance);
    const found = others.filter((to) => is(to) && !was(to)).map((to) => siteName(it.network, to));
    const lost = others.filter((to) => was(to) && !is(to)).map((to) => siteName(it.network, to));
    return joinedWords([
        found.length ? `It now knows a route to ${listed(found)}.` : "",
        lost.length ? `It knows no route to ${listed(lost)} any more.` : "",
    ]);
}

/** @param {Telling} it */
function delivered(it) {
    const { note, network } = it;
    if (!note.frame) return outside(it);
    const start = filled(
        INSIDE.arrives,
        { frame: frameName(network, note.frame), imp: it.imp(note.to), from: it.imp(note.from), line: note.line },
    );
    const freed = note.freed.length
        ? filled(INSIDE.acknowledges, { packets: listed(note.freed.map((packet) => packetName(network, packet))) })
        : "";
    return joinedWords([start, fateSentence(it), freed]);
}

/** @param {Telling} it */
function fateSentence(it) {
    const { note } = it;
    const place = { imp: it.imp(note.to), line: note.line };
    switch (note.fate) {
        case "imp":
            return filled(INSIDE["imp ignores"], place);
        case "end":
            return filled(INSIDE["end ignores"], place);
        case "repeat":
            return INSIDE.repeat;
        case "full":
            return filled(INSIDE.full, place);
        case "lost": {
            const cure = cureOf(it.before, note.line, note.to).map((line) => `\`${line}\``).join(", ");
            return filled(INSIDE.lost, { ...place, channel: note.frame?.channel ?? 0, cure });
        }
        case "news":
            return changedRoutes(it);
        case "same":
            return INSIDE["distances same"];
        case "fresh":
            return taken(it);
    }
    return "";
}

/** @param {Telling} it */
function changedRoutes(it) {
    const routes = lostRoutes(it, it.note.to);
    if (routes) return routes;
    const [was, is] = [it.before, it.after].map(
        (state) => (/** @type {number} */ to) => state.way(it.note.to, to).distance,
    );
    const sites = it.network.sites.filter(({ number }) => was(number) !== is(number));
    const changed = sites.map(({ number }) => `${is(number)} to ${siteName(it.network, number)}`);
    return changed.length ? filled(INSIDE["distance now"], { distances: listed(changed) }) : otherLines(it);
}

/**
 * Over which other lines an IMP sends now.
 *
 * @param {Telling} it
 */
function otherLines({ network, before, after, note }) {
    /** @type {Map<number, string[]>} */
    const sites = new Map();
    for (const { number } of network.sites) {
        const { line } = after.way(note.to, number);
        if (line < 0 || line === before.way(note.to, number).line) continue;
        sites.set(line, [...(sites.get(line) ?? []), siteName(network, number)]);
    }
    const ways = [...sites].map(
        ([line, names]) => `to ${listed(names)} by way of ${siteName(network, farEnd(network, line, note.to))}`,
    );
    return filled(INSIDE["other line"], { ways: listed(ways) });
}

/**
 * What an IMP's stop does inside.
 *
 * @param {Telling} it
 */
function impStops({ network, before, moment: { words } }) {
    const imp = Number(words[1]);
    const held = before.heldBy(imp).map(
        ({ packet, flow, number }) => (packet ? packetName(network, packet) : messageName(network, flow, number)),
    );
    return joinedWords([
        filled(INSIDE.stops, { imp: impName(network, imp) }),
        held.length ? filled(INSIDE["goes with it"], { what: listed([...new Set(held)]) }) : INSIDE["held nothing"],
        INSIDE.unseen,
    ]);
}

/**
 * What a host's stop does inside: for each message that waits for it, its IMP sends a Dead.
 *
 * @param {Telling} it
 */
function hostStops(it) {
    const host = it.moment.words[1];
    const waited = it.before.box(host)?.messages ?? [];
    if (isRefused(it) || it.network.plain || waited.length === 0) return "";
    const what = listed(waited.map(({ flow, number }) => messageName(it.network, flow, number)));
    const imp = impOf(host);
    const atOnce = waited.filter(({ flow }) => impOf(flow.split(" ")[0]) === imp).map(({ flow }) => flow.split(" ")[0]);
    return joinedWords([
        filled(INSIDE.waited, { what }),
        sendings(it, it.imp(imp)),
        ...new Set(atOnce.map((source) => answerWaits(it, "dead", source))),
    ]);
}

/** @param {Telling} it */
function taken(it) {
    const { note, network, before, after } = it;
    const packet = note.frame?.packet;
    if (!packet) return "";
    const target = impOf(packet.kind === "data" || packet.kind === "ask" ? packet.destination : packet.source);
    if (target !== note.to) {
        if (before.way(note.to, target).line < 0) {
            return filled(INSIDE["no route"], { imp: it.imp(note.to), to: it.imp(target) });
        }
        const on = note.sent.find((sent) => sent.frame.packet?.key === packet.key);
        return on
            ? `It is sent on to ${siteName(network, on.to)}.`
            : filled(INSIDE.stored, { imp: it.imp(note.to), to: it.imp(target) });
    }
    if (packet.kind === "ask") {
        return sendings(it, "it") || "No answer goes back, since none would be sure to stay true.";
    }
    if (packet.kind !== "data") return answerTaken(it, packet);
    return dataTaken(it, packet, before, after);
}

/**
 * @param {Telling} it
 * @param {Packet} packet
 */
function answerTaken(it, packet) {
    const was = it.before.source(packet.flow);
    if (was?.state !== "outstanding" || was.number !== packet.number) return INSIDE["not outstanding"];
    const kind = packet.kind === "never" ? "nottaken" : /** @type {"rfnm" | "dead"} */ (packet.kind);
    return answerWaits(it, kind, packet.source);
}

/** How many numbers the messages of a flow have, after which they begin again; one half of them is ahead of a number. */
const NUMBERS = 65_536;

/**
 * @param {Telling} it
 * @param {Packet} packet
 * @param {State} before
 * @param {State} after
 */
function dataTaken(it, packet, before, after) {
    const host = it.host(packet.destination);
    const waiting = (/** @type {State} */ state) => state.box(packet.destination)?.messages.length ?? 0;
    if (waiting(after) > waiting(before)) {
        return filled(INSIDE.whole, { host });
    }
    const kept = after.kept(packet.flow);
    const was = before.kept(packet.flow);
    if (kept && kept.number === packet.number && was?.number !== packet.number && kept.fate === "dead") {
        return `${filled(INSIDE["host down"], { host })} ${sendings(it, it.imp(it.note.to)) || INSIDE["no answer"]}`;
    }
    const slot = after.imp(it.note.to)?.slots.find((pieces) => pieces[0].flow === packet.flow);
    const had = before.imp(it.note.to)?.slots.find((pieces) => pieces[0].flow === packet.flow);
    if (slot && slot.length !== had?.length) return filled(INSIDE["not whole"], { count: slot.length });
    const ahead = was ? (packet.number - was.number + NUMBERS) % NUMBERS : 1;
    if (!was || (ahead > 0 && ahead < NUMBERS / 2)) return INSIDE.dropped;
    if (ahead > 0) return filled(INSIDE.older, { imp: it.imp(it.note.to), number: was.number });
    return was.fate === "never" ? INSIDE["noted never"] : INSIDE.old;
}

/**
 * @param {Telling} it
 * @param {string} sentence
 */
function lost(it, sentence) {
    const { note, network } = it;
    if (!note.frame) return outside(it);
    const start = filled(
        it.before.imp(note.to) ? sentence : INSIDE.gone,
        { frame: frameName(network, note.frame), line: note.line, from: it.imp(note.from), to: it.imp(note.to) },
    );
    if (!note.frame.packet) return start;
    const { packet, channel } = note.frame;
    const held = it.after.port(note.from, note.line)?.sending[channel]?.packet?.key === packet.key;
    const ends = { imp: it.imp(note.from), number: note.from };
    return `${start} ${filled(INSIDE[held ? "still held" : "held no longer"], ends)}`;
}
