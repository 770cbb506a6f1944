/** What each clause of the promise says of a life or a message of a book, as `./explain --book LINE` does. */

import { TABLE } from "../../python/dorydate/sentences/table.mjs";
import { bitsOf, commandsOf } from "./book.js";
import { COMMANDS } from "./commands.js";
import { leaves, overBy } from "./over.js";
import { filled, listed } from "./words.js";

/** @typedef {import("./book.js").Book} Book */
/** @typedef {import("./book.js").Life} Life */
/** @typedef {import("./book.js").Placed} Placed */

/**
 * @typedef {object} Said
 * @property {string} clause its names on the page of the promise (docs/measured/promise.md)
 * @property {string} sentence
 */

/** @typedef {(host: string) => string} Names what a host is called */

const SAID = /** @type {{[name: string]: string}} */ (TABLE.book);
const ANSWERS = /** @type {{[name: string]: string}} */ (TABLE.answers);

/**
 * @param {string} clause
 * @param {string} name of a sentence in the table
 * @param {{[hole: string]: string | number | bigint}} [holes]
 * @returns {Said}
 */
function said(clause, name, holes = {}) {
    return { clause, sentence: filled(SAID[name], holes) };
}

/**
 * The lines of lives and of messages of data: what may be asked about.
 *
 * @param {Book} book
 * @param {Names} names
 * @returns {{line: number, title: string}[]}
 */
export function entriesOf(book, names) {
    const data = book.log.flatMap((it, at) => (it.kind === "out" && !it.flow.endsWith(" 0") ? [at] : []));
    return [
        ...book.lives.map((it) => ({ line: it.line, title: lifeTitle(it, names) })),
        ...data.map((at) => ({ line: at + 1, title: messageTitle(book, at, names) })),
    ];
}

/**
 * What each clause says of the life or the message in a line of the log; null where it has neither.
 *
 * @param {Book} book
 * @param {number} line
 * @param {Names} names
 * @returns {{title: string, begins: number, said: Said[]} | null} with the line in which it begins
 */
export function saidOf(book, line, names) {
    const life = book.lives.find((it) => it.line === line);
    if (life) {
        const begins = Math.max(life.own, life.partner) + 1;
        return { title: lifeTitle(life, names), begins, said: ofLife(book, life, names) };
    }
    const it = book.log[line - 1];
    const out = it?.kind === "out" ? line - 1 : it?.kind === "in" ? book.lastOut(it.flow, line - 1) : -1;
    if (out < 0) return null;
    return { title: messageTitle(book, out, names), begins: out + 1, said: ofMessage(book, out, names) };
}

/**
 * @param {Life} life
 * @param {Names} names
 */
function lifeTitle({ line, host, socket, peer, foreign, receives, messages, text, fate }, names) {
    const ends = { socket, host: names(host), foreign, peer: names(peer) };
    const way = receives ? "receives from" : "sends to";
    return filled(SAID["a life"], { ...ends, line, way, messages, bits: text.size, word: fate });
}

/**
 * @param {Book} book
 * @param {number} at
 * @param {Names} names
 */
function messageTitle({ log }, at, names) {
    const [source, destination, link] = log[at].flow.split(" ");
    const ends = { source: names(source), destination: names(destination), link };
    return filled(SAID["a message"], { ...ends, line: at + 1, bits: log[at].text.size });
}

// ---- a life

/**
 * @param {Book} book
 * @param {Life} life
 * @param {Names} names
 */
function ofLife(book, life, names) {
    const others = book.partnersOf(life);
    return [
        ...formed(book, life),
        paired(book, life),
        life.receives ? source(life, others) : handedOver(life),
        ...(life.receives ? [life] : others).map((it) => grants(life, it)),
        over(book, life, names),
        within(book, life),
        life.receives ? sent(book, life, others) : granted(book, life),
        whole(life, others),
        allCounted(book, life),
        allThere(book, life, others),
    ];
}

/**
 * Its two requests, and its bits.
 *
 * @param {Book} book
 * @param {Life} life
 */
function formed(book, life) {
    const { own, partner } = book.named(life);
    const placed = book.placed(life);
    if (!placed) return [said("promise.formed", "unmade")];
    return [
        said("promise.formed.own", "own", { line: life.own + 1, request: request(life.socket, life.foreign, own) }),
        said("promise.formed.partner", "partner", {
            line: life.partner + 1,
            request: request(life.foreign, life.socket, partner),
        }),
        said("promise.formed.bits", placed.places.length ? "link" : "link only", {
            link: placed.flow.split(" ")[2],
            bits: life.text.size,
            messages: life.messages,
            crossed: life.receives ? "came in" : "went out",
            lines: lines(placed.places),
        }),
    ];
}

/**
 * A request, as it is spelled.
 *
 * @param {number} own
 * @param {number} foreign
 * @param {number} named
 */
function request(own, foreign, named) {
    return filled(TABLE.texts[own % 2 ? "STR" : "RTS"], { own, foreign, size: named, link: named });
}

/** @param {number[]} places */
function lines(places) {
    return `line${places.length > 1 ? "s" : ""} ${listed(places.map((at) => String(at + 1)))}`;
}

/**
 * Whose request its partner's is.
 *
 * @param {Book} book
 * @param {Life} life
 */
function paired(book, life) {
    const clause = "promise.safe.partners";
    const [own, asked] = [book.ownRequest(life), book.partnerRequest(life)];
    const sameOwn = book.lives.filter((it) => book.ownRequest(it) === own);
    const sameAsked = book.lives.filter((it) => book.partnerRequest(it) === asked);
    const found = book.lives.filter((it) => book.ownRequest(it) === asked);
    const place = Number(asked.split(" ")[0]);
    const isMutual = found.every((it) => book.partnerRequest(it) === own);
    if (place < 0 || sameOwn.length > 1 || sameAsked.length > 1 || !isMutual) return said(clause, "unpaired");
    if (!found.length) return said(clause, "single", { line: place + 1 });
    return said(clause, "partners", { line: place + 1, other: found[0].line });
}

/**
 * What it took of its partner.
 *
 * @param {Life} life
 * @param {Life[]} others
 */
function source(life, others) {
    const clause = "promise.safe.streams.source";
    if (!life.text.size) return said(clause, "nothing");
    const isPrefix = others.length === 1 && bitsOf(others[0].text).startsWith(bitsOf(life.text));
    if (!isPrefix) return said(clause, "unsourced");
    return said(clause, "source", { bits: life.text.size, sent: others[0].text.size, other: others[0].line });
}

/**
 * What it sent of what was handed over.
 *
 * @param {Life} life
 */
function handedOver({ text, handed }) {
    const name = bitsOf(handed).startsWith(bitsOf(text)) ? "handed" : "unhanded";
    return said("promise.safe.streams.sent", name, { bits: text.size, handed: handed.size });
}

/**
 * What was granted to it, or by it.
 *
 * @param {Life} life
 * @param {Life} receiver
 */
function grants(life, receiver) {
    const [[messagesBack, bitsBack], [mostMessages, mostBits]] = [receiver.returned, receiver.granted];
    const isKept = life.messages + messagesBack <= mostMessages && BigInt(life.text.size) + bitsBack <= mostBits;
    return said(`promise.safe.grants.${life.receives ? "taken" : "sent"}`, isKept ? "granted" : "ungranted", {
        messages: life.messages,
        messages_back: messagesBack,
        messages_granted: mostMessages,
        bits: life.text.size,
        bits_back: bitsBack,
        bits_granted: mostBits,
        other: receiver.line,
    });
}

/**
 * Whether what a sending life sent is within what the ALLs grant on its link that its host took.
 *
 * @param {Book} book
 * @param {Life} life
 */
function granted(book, life) {
    const link = Number(book.flowByRts(life).split(" ")[2] ?? 0);
    if (!link) return said("promise.granted", "unlinked");
    const [messages, bits] = book.grantedTo(life, link);
    const isKept = life.messages <= messages && BigInt(life.text.size) <= bits;
    return said("promise.granted", isKept ? "allowed" : "not allowed", {
        messages: life.messages,
        bits: life.text.size,
        messages_granted: messages,
        bits_granted: bits,
        link,
    });
}

/**
 * By what it is over.
 *
 * @param {Book} book
 * @param {Life} life
 * @param {Names} names
 */
function over(book, life, names) {
    const { fate, host, peer, own, partner } = life;
    const found = overBy(book, life);
    const holes = { host: names(host), peer: names(peer), word: fate, line: Math.max(own, partner) + 1 };
    if (!found || !leaves(found, fate)) return said("promise.over", "unfit", holes);
    if (!found.by || (fate === "reset" && found.by !== "reset")) {
        return said("promise.over", fate === "reset" ? "contact" : "open", holes);
    }
    const name = fate === "reset" || fate === "stopped" ? fate : "by cls";
    return said("promise.over", name, { ...holes, place: found.place + 1, what: SAID[found.word] ?? "" });
}

/**
 * Whether all that it counts crossed before it was over.
 *
 * @param {Book} book
 * @param {Life} life
 */
function within(book, life) {
    const { by, place } = overBy(book, life) ?? { by: "", place: -1 };
    if (!by || (life.fate === "reset" && by !== "reset")) {
        return said("promise.within", life.fate === "reset" ? "called" : "continues");
    }
    const late = book.countedBy(life).find((it) => it > place);
    const name = late === undefined ? "in time" : "too late";
    return said("promise.within", name, { place: place + 1, late: (late ?? 0) + 1, messages: life.messages });
}

/**
 * Whether the messages that it counts are the first of a life that it matches.
 *
 * @param {Book} book
 * @param {Life} life
 * @param {Life[]} others
 */
function sent(book, life, others) {
    const flow = book.flowByRts(life);
    const taken = book.countedBy(life, flow);
    if (!taken.length) return said("promise.sent", "none counted");
    const outs = taken.map((at) => book.lastOut(flow, at));
    const known = others.map((it) => common(outs, book.countedBy(it, book.flowByRts(it))));
    const most = Math.max(0, ...known);
    if (most < outs.length) return said("promise.sent", "not that", { number: most + 1, line: taken[most] + 1 });
    const other = others[known.indexOf(most)].line;
    return said("promise.sent", "each sent", { lines: lines(outs), messages: outs.length, other });
}

/**
 * How many are the same at the start of both lists.
 *
 * @param {number[]} some
 * @param {number[]} others
 */
function common(some, others) {
    const at = some.findIndex((it, place) => it !== others[place]);
    return at < 0 ? some.length : at;
}

/**
 * Whether it has all that its partner sent, where it ended.
 *
 * @param {Life} life
 * @param {Life[]} others
 */
function whole(life, others) {
    if (!life.receives || life.fate !== "ended" || !others.length) return said("promise.whole", "not ended");
    const bits = bitsOf(life.text);
    const has = (/** @type {Life} */ it) => bitsOf(it.text) === bits && bitsOf(it.handed) === bits;
    const hasAll = others.every((it) => has(it) && it.messages === life.messages);
    return said("promise.whole", hasAll ? "whole" : "lacking", { bits: life.text.size, other: others[0].line });
}

/**
 * Whether it counts all that came in, where it is open.
 *
 * @param {Book} book
 * @param {Life} life
 */
function allCounted(book, life) {
    if (!life.receives || life.fate !== "open") return said("promise.arrived.all", "not open");
    const came = BigInt(book.placesOf(life).length);
    return said("promise.arrived.all", came === life.messages ? "all" : "closing", { messages: life.messages, came });
}

/**
 * Whether it has all that its partner sent, where that has closed it and it is open.
 *
 * @param {Book} book
 * @param {Life} life
 * @param {Life[]} others
 */
function allThere(book, life, others) {
    const found = overBy(book, life);
    const isClosed = found?.by === "" && found.closed.has("in");
    if (!life.receives || life.fate !== "open" || !isClosed || !others.length) {
        return said("promise.arrived.closed", "partner open");
    }
    const bits = bitsOf(life.text);
    const hasAll = others.every((it) => bitsOf(it.text) === bits && it.messages === life.messages);
    const name = hasAll ? "partner closed" : "short";
    return said("promise.arrived.closed", name, { bits: life.text.size, other: others[0].line });
}

// ---- a message

/**
 * @param {Book} book
 * @param {number} at where it went out
 * @param {Names} names
 */
function ofMessage(book, at, names) {
    const { log } = book;
    const { flow, text } = log[at];
    const [source, destination, link] = flow.split(" ");
    const [before, next] = [book.lastOut(flow, at), log.findIndex((it, to) => to > at && it.kind === "out" && it.flow === flow)];
    const since = log.slice(at + 1, next < 0 ? undefined : next);
    const isEmpty = before < 0 || log.slice(before, at).some((it) => frees(it, flow));
    const line = (/** @type {number} */ place) => at + place + 2;
    const taken = since.findIndex((it) => it.kind === "in" && it.flow === flow);
    const answer = since.findIndex((it) => it.kind === "answer" && it.flow === flow);
    const isRfnm = since[answer]?.answer === "rfnm";
    const told = answer < 0 ? "unanswered" : isRfnm ? "rfnm" : "other answer";
    const [hosts, commands] = [{ source: names(source), destination: names(destination) }, commandsOf(text)];
    const isReset = link === "0" && commands.map((it) => COMMANDS[it[0]].name).join() === "RST";
    return [
        said("promise.run", isEmpty ? "run" : "box", { line: before + 1 }),
        said("promise.safe.messages.once", taken < 0 ? "untaken" : "taken", { line: line(taken) }),
        said("promise.safe.messages.answered", told, { answer: ANSWERS[since[answer]?.answer] ?? "", line: line(answer) }),
        said("promise.contacts", isReset ? "only rst" : "no contact", hosts),
        ...(link === "0" ? [] : ofData(book, at, isRfnm && taken >= 0 ? line(taken) - 1 : -1)),
    ];
}

/**
 * Whether the box of a flow is empty after a crossing.
 *
 * @param {import("./book.js").Crossing} crossing
 * @param {string} flow
 */
function frees({ kind, flow: its }, flow) {
    return (kind === "answer" && its === flow) || (kind === "up" && its === flow.split(" ")[0]);
}

/**
 * The sending lives that count the message that went out at a place.
 *
 * @param {Book} book
 * @param {number} at
 */
function sendersOf(book, at) {
    return book.lives.filter((it) => !it.receives && book.countedBy(it).includes(at));
}

/**
 * Between which two lives a message of data went.
 *
 * @param {Book} book
 * @param {number} at
 */
function between(book, at) {
    const senders = sendersOf(book, at);
    const pairs = senders.flatMap((it) => book.partnersOf(it).map((other) => ({ line: it.line, other: other.line })));
    if (pairs.length) return said("promise.between", "between", pairs[0]);
    return senders.length ? said("promise.between", "to none", { line: senders[0].line }) : said("promise.between", "of none");
}

/**
 * Of a message of data, which sending life counts it, and whether the receiving one does that this matches.
 *
 * @param {Book} book
 * @param {number} at
 * @param {number} came where it came in, if its host got RFNM; -1 else
 */
function ofData(book, at, came) {
    const sent = [said("promise.told", "sent"), between(book, at)];
    const [sender] = sendersOf(book, at);
    if (!sender) return [...sent, said("promise.arrived.answered.sent", "of none")];
    const number = book.countedBy(sender).indexOf(at) + 1;
    const counted = [...sent, said("promise.arrived.answered.sent", "of life", { number, line: sender.line })];
    const clause = "promise.arrived.answered.arrived";
    if (came < 0) return [...counted, said(clause, "no rfnm")];
    const receivers = book.partnersOf(sender);
    if (!receivers.length) return [...counted, said(clause, "unmatched")];
    return [...counted, ...receivers.map((it) => countedBy(book, it, came))];
}

/**
 * Whether a receiving life counts the message that came in at a place.
 *
 * @param {Book} book
 * @param {Life} life
 * @param {number} place
 */
function countedBy(book, life, place) {
    const number = book.countedBy(life).indexOf(place) + 1;
    const name = number ? "counted" : life.fate === "open" ? "may be uncounted" : "uncounted";
    return said("promise.arrived.answered.arrived", name, { number, line: life.line, word: life.fate });
}
