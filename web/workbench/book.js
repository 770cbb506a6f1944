/**
 * The book in a log, as `--log` prints it: what crossed, the lives of connections, and what was handed over in each.
 * What the definitions of the promise look up in it is worked out here, from the log alone (docs/headline.md).
 */

import { COMMANDS, short, wide } from "./commands.js";
import { octetValues } from "./texts.js";

/** @typedef {{size: number, octets: string}} Text bits as a log has them: their number, and octets in hexadecimal digits */

/**
 * @typedef {object} Crossing a line of a log that is no life
 * @property {string} kind `out`, `in`, `answer`, `down` or `up`
 * @property {string} flow source, destination and link; of a host that stops or starts, the host
 * @property {string} answer what is answered, "" of anything else
 * @property {Text} text of a message; empty of anything else
 */

/**
 * @typedef {object} Life
 * @property {number} line its line in the log
 * @property {string} host
 * @property {number} socket
 * @property {string} peer
 * @property {number} foreign
 * @property {number} own the place where its own request went out
 * @property {number} partner the place where its partner's came in
 * @property {boolean} receives
 * @property {bigint} messages
 * @property {[bigint, bigint]} granted messages and bits
 * @property {[bigint, bigint]} returned messages and bits
 * @property {string} fate
 * @property {Text} text what it took or sent
 * @property {Text} handed what was handed over in it
 */

/** @typedef {{flow: string, places: number[]}} Placed where the messages crossed that a life is made of */

const NO_TEXT = { size: 0, octets: "-" };
const HEADER = 40;
const MOST_COMMANDS = 120;

/**
 * The bits of a text, each a digit.
 *
 * @param {Text} text
 */
export function bitsOf({ size, octets }) {
    return octetValues(octets).map((it) => it.toString(2).padStart(8, "0")).join("").slice(0, size);
}

/**
 * @param {string} size
 * @param {string} octets
 * @returns {Text}
 */
function textOf(size, octets) {
    return { size: Number(size), octets };
}

/**
 * The parts of a text: the size of its bytes, their number, and what follows the header; null where it is malformed.
 *
 * @param {string} text
 */
function split(text) {
    if (text.length < HEADER) return null;
    const [size, number] = [parseInt(text.slice(8, 16), 2), parseInt(text.slice(16, 32), 2)];
    return text.length < HEADER + size * number ? null : { size, number, following: text.slice(HEADER) };
}

/**
 * The commands of a control text, up to the first that has no code or not all its octets.
 *
 * @param {Text} text
 */
export function commandsOf(text) {
    const parts = split(bitsOf(text));
    if (!parts || parts.size !== 8 || parts.number > MOST_COMMANDS) return [];
    const octets = (parts.following.slice(0, 8 * parts.number).match(/.{8}/g) ?? []).map((it) => parseInt(it, 2));
    const found = [];
    for (let at = 0; at < octets.length; ) {
        const length = COMMANDS[octets[at]]?.length;
        if (!length || octets.length - at < length) break;
        found.push(octets.slice(at, at + length));
        at += length;
    }
    return found;
}

/**
 * What the first request of two sockets among commands names: an RTS a link, an STR a byte size; 0 for none.
 *
 * @param {number[][]} commands
 * @param {number} own
 * @param {number} foreign
 */
export function namedIn(commands, own, foreign) {
    if (own % 2 === foreign % 2) return 0;
    const request = commands.find((it) => {
        const isOne = COMMANDS[it[0]].name === (own % 2 ? "STR" : "RTS") && wide(it, 1) === own && wide(it, 5) === foreign;
        return isOne && (own % 2 ? it[9] > 0 : it[9] >= 2 && it[9] <= 31);
    });
    return request?.[9] ?? 0;
}

/**
 * The data of a text: where it comes in what its header announces, and where it goes out all after the header.
 *
 * @param {string} text
 * @param {boolean} comes
 */
function dataOf(text, comes) {
    const parts = split(text);
    if (!comes) return text.slice(HEADER);
    return parts ? parts.following.slice(0, parts.size * parts.number) : null;
}

/** A book. */
export class Book {
    /** @param {string} text a log */
    constructor(text) {
        /** @type {Crossing[]} the oldest first */
        this.log = [];
        /** @type {Life[]} */
        this.lives = [];
        const handed = /** @type {Text[]} */ ([]);
        for (const words of text.split("\n").map((it) => it.split(" "))) {
            if (words[0] === "life") this.lives.push(lifeOf(words, this.log.length + this.lives.length + 1));
            else if (words[0] === "handed") handed.push(textOf(words[1], words[2]));
            else if (words.length > 1) this.log.push(crossingOf(words));
        }
        this.lives.forEach((it, at) => (it.handed = handed[at] ?? NO_TEXT));
    }

    /**
     * The place of a flow's last message that went out before a place, -1 where there is none.
     *
     * @param {string} flow
     * @param {number} place
     */
    lastOut(flow, place) {
        let at = place - 1;
        while (at >= 0 && !(this.log[at]?.kind === "out" && this.log[at].flow === flow)) at -= 1;
        return at;
    }

    /**
     * What the first request of two sockets names in the message that crossed at a place, 0 for none.
     *
     * @param {number} place
     * @param {string} kind
     * @param {string} flow
     * @param {number} own
     * @param {number} foreign
     */
    namedAt(place, kind, flow, own, foreign) {
        const it = this.log[place];
        return it?.kind === kind && it.flow === flow ? namedIn(commandsOf(it.text), own, foreign) : 0;
    }

    /**
     * What the own request of a life names, and that of its partner.
     *
     * @param {Life} life
     */
    named(life) {
        const { host, peer, socket, foreign } = life;
        return {
            own: this.namedAt(life.own, "out", `${host} ${peer} 0`, socket, foreign),
            partner: this.namedAt(life.partner, "in", `${peer} ${host} 0`, foreign, socket),
        };
    }

    /**
     * The flow of the link that the RTS of a life's requests names, "" where that didn't cross.
     *
     * @param {Life} life
     */
    flowByRts(life) {
        const { own, partner } = this.named(life);
        const [link, sender, receiver] = life.receives ? [own, life.peer, life.host] : [partner, life.host, life.peer];
        return link ? `${sender} ${receiver} ${link}` : "";
    }

    /**
     * How many messages and bits the ALLs on a link grant that a sending life's host took from the peer, after its own request
     * and in the message with the peer's or after it.
     *
     * @param {Life} life
     * @param {number} link
     * @returns {[bigint, bigint]}
     */
    grantedTo(life, link) {
        const taken = this.log.slice(Math.max(life.own + 1, life.partner));
        const commands = taken
            .filter((it) => it.kind === "in" && it.flow === `${life.peer} ${life.host} 0`)
            .flatMap((it) => commandsOf(it.text))
            .filter((it) => COMMANDS[it[0]].name === "ALL" && it[1] === link);
        const sum = (/** @type {(command: number[]) => number} */ of) => BigInt(commands.reduce((all, it) => all + of(it), 0));
        return [sum((it) => short(it, 2)), sum((it) => wide(it, 4))];
    }

    /**
     * The flow of a life's link, "" where its requests name none.
     *
     * @param {Life} life
     */
    flowOf(life) {
        const { own, partner } = this.named(life);
        return own && partner ? this.flowByRts(life) : "";
    }

    /**
     * Where the messages on a life's link crossed after both its requests, the oldest first.
     *
     * @param {Life} life
     * @param {string} [flow]
     */
    placesOf(life, flow = this.flowOf(life)) {
        const kind = life.receives ? "in" : "out";
        const begun = Math.max(life.own, life.partner);
        return this.log.flatMap((it, at) => (flow && at > begun && it.kind === kind && it.flow === flow ? [at] : []));
    }

    /**
     * Where those crossed whose data are a life's bits.
     *
     * @param {Life} life
     * @param {string} [flow]
     */
    countedBy(life, flow = this.flowOf(life)) {
        return this.placesOf(life, flow).slice(0, Number(life.messages));
    }

    /**
     * The messages that a life is made of; null where they aren't as many as it counts, or have other bits.
     *
     * @param {Life} life
     * @returns {Placed | null}
     */
    placed(life) {
        const [flow, places] = [this.flowOf(life), this.countedBy(life)];
        const bits = places.map((at) => dataOf(bitsOf(this.log[at].text), life.receives));
        const isMade = flow && BigInt(places.length) === life.messages && !bits.includes(null) && bits.join("") === bitsOf(life.text);
        return isMade ? { flow, places } : null;
    }

    /**
     * The own request of a life: where it went out, and its sockets.
     *
     * @param {Life} life
     */
    ownRequest({ own, socket, foreign }) {
        return `${own} ${socket} ${foreign}`;
    }

    /**
     * The request of its partner: it was taken from the peer's last control message that went out before.
     *
     * @param {Life} life
     */
    partnerRequest({ peer, host, foreign, socket, partner }) {
        return `${this.lastOut(`${peer} ${host} 0`, partner)} ${foreign} ${socket}`;
    }

    /**
     * Whether a receiving life and a sending one are one connection.
     *
     * @param {Life} receiver
     * @param {Life} sender
     */
    match(receiver, sender) {
        if (!receiver.receives || sender.receives) return false;
        const areEnds = (/** @type {Life} */ a, /** @type {Life} */ b) => a.peer === b.host && a.foreign === b.socket;
        const asks = (/** @type {Life} */ a, /** @type {Life} */ b) => this.partnerRequest(a) === this.ownRequest(b);
        return areEnds(receiver, sender) && areEnds(sender, receiver) && asks(receiver, sender) && asks(sender, receiver);
    }

    /**
     * The lives that a life matches.
     *
     * @param {Life} life
     */
    partnersOf(life) {
        return this.lives.filter((it) => (life.receives ? this.match(life, it) : this.match(it, life)));
    }
}

/**
 * @param {string[]} words
 * @returns {Crossing}
 */
function crossingOf([kind, ...rest]) {
    const isAnswer = kind === "answer";
    const flow = rest.slice(isAnswer ? 1 : 0, isAnswer ? 4 : 3).join(" ");
    return { kind, flow, answer: isAnswer ? rest[0] : "", text: rest.length > 4 ? textOf(rest[3], rest[4]) : NO_TEXT };
}

/**
 * @param {string[]} words
 * @param {number} line
 * @returns {Life}
 */
function lifeOf(words, line) {
    const numbers = words.map(Number);
    return {
        line,
        host: words[1],
        socket: numbers[2],
        peer: words[3],
        foreign: numbers[4],
        own: numbers[5],
        partner: numbers[6],
        receives: words[7] === "receive",
        messages: BigInt(words[8]),
        granted: [BigInt(words[10]), BigInt(words[11])],
        returned: [BigInt(words[12]), BigInt(words[13])],
        fate: words[14],
        text: textOf(words[9], words[15]),
        handed: NO_TEXT,
    };
}
