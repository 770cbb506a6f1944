/**
 * What the printed lines say, as of a position: who is up, which messages have no answer, contacts, connections and
 * what they have granted, handed over, sent and taken so far.
 *
 * What services grant and hand over is in no line of the script. The grants are in the messages on link 0, what a
 * terminal hands over is what is typed, and what an echo service hands over is what it took.
 */

import { impOf } from "./topology.js";

/** @typedef {import("./runs.js").Replay} Replay */
/** @typedef {import("./runs.js").Moment} Moment */

/**
 * @typedef {object} Message a message without an answer
 * @property {string} flow
 * @property {number} since the moment at which it went out
 * @property {number} bits
 * @property {string} octets
 * @property {boolean} taken
 */

/**
 * @typedef {object} End one end of a connection, from when it was asked for
 * @property {string} host
 * @property {number} socket
 * @property {string} peer "" while anybody may ask
 * @property {number} foreign -1 while anybody may ask
 * @property {"listens" | "asked" | "open" | "closing" | "over"} state
 * @property {number} size bits a byte, 0 where it isn't known
 * @property {boolean} service whether a service uses it
 * @property {number} grantedMessages by this end's user, where it receives
 * @property {number} grantedBits
 * @property {number} handed bits that its user or its service handed over, where it sends
 * @property {number} echoes the socket whose bits its service sends back, -1 for none
 * @property {number} messages that it sent or took
 * @property {number} bits that it sent or took
 * @property {number} returnedMessages
 * @property {number} returnedBits
 */

/** @typedef {{host: string, peer: string, state: "asked" | "ready" | "failed"}} Contact */

/** The bits of the number that a server sends its first user: the base of its two sockets. */
const BASE = 32;

/** What the lines say up to a position. */
export class Talk {
    /** @param {Replay} replay */
    constructor(replay) {
        this.replay = replay;
        this.position = 0;
        /** @type {Map<string, boolean>} */
        this.up = new Map();
        /** @type {Map<string, Message>} */
        this.messages = new Map();
        /** @type {Contact[]} */
        this.contacts = [];
        /** @type {End[]} */
        this.ends = [];
        /** @type {Map<string, number>} by host the socket to which its terminal sends */
        this.terminals = new Map();
        /** @type {Set<string>} hosts and sockets on which servers wait for a first user */
        this.doors = new Set();
        this.reset();
    }

    reset() {
        this.position = 0;
        this.up = new Map(this.replay.network.hosts.map((host) => [host, true]));
        this.messages = new Map();
        this.contacts = [];
        this.ends = [];
        this.terminals = new Map();
        this.doors = new Set();
    }

    /**
     * Goes to a position.
     *
     * @param {number} position
     */
    goTo(position) {
        if (position < this.position) this.reset();
        for (; this.position < position; this.position += 1) {
            this.see(this.replay.moments[this.position], this.position);
        }
        return this;
    }

    /**
     * @param {Moment} moment
     * @param {number} at
     */
    see(moment, at) {
        if (!moment.printed.some((line) => line.startsWith("refused "))) this.happen(moment.words);
        for (const line of moment.printed) this.line(line.split(" "), at);
    }

    /**
     * An event that was not refused, as far as its own words tell.
     *
     * @param {string[]} words
     */
    happen([kind, host, ...rest]) {
        switch (kind) {
            case "contact":
                this.contact(host, rest[0], "asked");
                break;
            case "listen":
                this.ends.push(newEnd(host, Number(rest[0]), "", -1, "listens", Number(rest[1])));
                break;
            case "opensend":
                this.ends.push(newEnd(host, Number(rest[1]), rest[0], Number(rest[2]), "asked", Number(rest[3])));
                break;
            case "openrecv":
                this.ends.push(newEnd(host, Number(rest[1]), rest[0], Number(rest[2]), "asked", 0));
                break;
            case "grant":
            case "send":
            case "close":
                this.use(kind, this.live(host, Number(rest[0])), rest);
                break;
            case "type":
                this.type(host, rest[0] ?? "");
                break;
            case "server":
                this.doors.add(`${host} ${rest[0]}`);
                break;
            case "impdown":
                for (const flow of [...this.messages.keys()]) {
                    if (impOf(flow.split(" ")[0]) === Number(host)) this.messages.delete(flow);
                }
        }
    }

    /**
     * @param {string} kind
     * @param {End | undefined} end
     * @param {string[]} rest
     */
    use(kind, end, rest) {
        if (!end) return;
        if (kind === "grant") {
            end.grantedMessages += Number(rest[1]);
            end.grantedBits += Number(rest[2]);
        }
        if (kind === "send") end.handed += Number(rest[1]);
        if (kind === "close") end.state = end.state === "listens" ? "over" : "closing";
    }

    /**
     * A printed line.
     *
     * @param {string[]} words
     * @param {number} at
     */
    line([kind, ...words], at) {
        const flow = words.slice(0, 3).join(" ");
        const message = { flow, since: at, bits: Number(words[3]), octets: words[4] ?? "", taken: false };
        if (kind === "out") this.messages.set(flow, message);
        else if (kind === "in") this.take(flow);
        else if (kind === "answer") this.messages.delete(words.slice(1, 4).join(" "));
        else if (kind === "down" || kind === "up") this.turn(words[0], kind === "up");
        else this.notice(kind, words);
    }

    /**
     * A line is typed: its terminal hands it over, with a carriage return and a line feed.
     *
     * @param {string} host
     * @param {string} text
     */
    type(host, text) {
        const end = this.live(host, this.terminals.get(host) ?? -1);
        if (end) end.handed += 8 * (text.length + 2);
    }

    /**
     * An initial connection is complete: a terminal or an echo service begins.
     *
     * @param {string} kind
     * @param {string} host
     * @param {number} receive
     * @param {number} send
     */
    begin(kind, host, receive, send) {
        const end = this.live(host, send);
        if (kind === "user") this.terminals.set(host, send);
        else if (end) end.echoes = receive;
    }

    /** @param {string} flow */
    take(flow) {
        const message = this.messages.get(flow);
        if (message) message.taken = true;
    }

    /**
     * @param {string} host
     * @param {boolean} isUp
     */
    turn(host, isUp) {
        this.up.set(host, isUp);
        if (isUp) {
            for (const flow of [...this.messages.keys()]) if (flow.startsWith(`${host} `)) this.messages.delete(flow);
            return;
        }
        this.contacts = this.contacts.filter((it) => it.host !== host);
        for (const end of this.ends) if (end.host === host) end.state = "over";
    }

    /**
     * A notice to a user.
     *
     * @param {string} kind
     * @param {string[]} words
     */
    notice(kind, [host, ...words]) {
        const end = this.live(host, Number(words[0]));
        switch (kind) {
            case "done":
            case "failed":
                if (kind === "done") this.begin(host, words[0], Number(words[1]), Number(words[2]));
                return;
            case "ready":
                return this.contact(host, words[0], "ready");
            case "contactfailed":
                return this.contact(host, words[0], "failed");
            case "pairreset":
                for (const it of this.ends) if (it.host === host && it.peer === words[0]) it.state = "over";
                return;
            case "opened":
                return this.opened(host, Number(words[0]), words[1], Number(words[2]));
            case "ended":
                if (end) end.state = "over";
                return;
            case "sent":
            case "arrived":
                if (end) this.carry(end, Number(words[1]));
                return;
            case "returned":
                if (end) {
                    Object.assign(
                        end,
                        {
                            returnedMessages: end.returnedMessages + Number(words[1]),
                            returnedBits: end.returnedBits + Number(words[2]),
                        },
                    );
                }
        }
    }

    /**
     * A message went out of an end, or came in: what an echo service takes it hands over.
     *
     * @param {End} end
     * @param {number} bits
     */
    carry(end, bits) {
        end.messages += 1;
        end.bits += bits;
        if (sends(end.socket) && end.bits > end.handed) end.service = true;
        const echo = this.ends.find((it) => it.host === end.host && it.echoes === end.socket && it.state !== "over");
        if (echo && !sends(end.socket)) echo.handed += bits;
    }

    /**
     * @param {string} host
     * @param {number} socket
     * @param {string} peer
     * @param {number} foreign
     */
    opened(host, socket, peer, foreign) {
        const known = this.live(host, socket);
        const end = known ?? { ...newEnd(host, socket, peer, foreign, "open", 0), service: true };
        if (!known) this.ends.push(end);
        Object.assign(end, { peer, foreign, state: "open" });
        if (this.doors.delete(`${host} ${socket}`)) end.handed += BASE;
    }

    /**
     * @param {string} host
     * @param {string} peer
     * @param {Contact["state"]} state
     */
    contact(host, peer, state) {
        this.contacts = [...this.contacts.filter((it) => it.host !== host || it.peer !== peer), { host, peer, state }];
        if (state === "asked") for (const it of this.ends) if (it.host === host && it.peer === peer) it.state = "over";
    }

    /**
     * A host's end at a socket that isn't over.
     *
     * @param {string} host
     * @param {number} socket
     */
    live(host, socket) {
        return this.ends.find((it) => it.host === host && it.socket === socket && it.state !== "over");
    }
}

/**
 * @param {string} host
 * @param {number} socket
 * @param {string} peer
 * @param {number} foreign
 * @param {End["state"]} state
 * @param {number} size
 * @returns {End}
 */
function newEnd(host, socket, peer, foreign, state, size) {
    const granted = { grantedMessages: 0, grantedBits: 0, returnedMessages: 0, returnedBits: 0 };
    const used = { handed: 0, messages: 0, bits: 0 };
    return {
        host,
        socket,
        peer,
        foreign,
        state,
        size,
        service: false,
        echoes: -1,
        ...granted,
        ...used,
    };
}

/**
 * Whether a socket sends.
 *
 * @param {number} socket
 */
export function sends(socket) {
    return socket % 2 === 1;
}
