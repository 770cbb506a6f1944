/**
 * Reads the program's trace (docs/trace.md): the parts of a network at its opening, its events, what each printed, and
 * the parts that it left. The program and the services of a host are parts, too: `program H` and `services H`.
 *
 * Packets, frames and flows get the form here in which the page asks for them, so that no other module knows that of a
 * trace.
 */

/** The format that is read. */
const FORMAT = 3;

/**
 * @typedef {object} Packet
 * @property {"data" | "rfnm" | "dead" | "ask" | "never"} kind
 * @property {string} flow source, destination and link, as a script spells them
 * @property {string} source
 * @property {string} destination
 * @property {number} link
 * @property {number} number the number of the message
 * @property {number} place which piece of it, from 0
 * @property {boolean} last whether it is the last piece
 * @property {number} bits
 * @property {string} octets
 * @property {string} key kind, flow, number and place: what tells it from other packets
 */

/**
 * @typedef {object} Frame
 * @property {string} acks the acknowledgement bits, channel 0 first
 * @property {Packet | null} packet
 * @property {number} channel -1 where there is no packet
 * @property {number} bit
 * @property {Distances | null} routes
 */

/** @typedef {{[imp: string]: number}} Distances what is not in it is too far: 63 */

/**
 * @typedef {object} Waiting a message that waits for its host
 * @property {string} flow
 * @property {number} number -1 in plain mailboxes, where messages have none
 * @property {number} bits
 * @property {string} octets
 */

/** @typedef {{kind: "rfnm" | "dead" | "incomplete" | "nottaken", flow: string}} Answer */

/**
 * @typedef {object} Box what waits for a host, the oldest first
 * @property {boolean} up
 * @property {Waiting[]} messages
 * @property {Answer[]} answers
 */

/**
 * @typedef {object} Port an IMP's end of a line
 * @property {boolean} up
 * @property {{bit: number, packet: Packet | null}[]} sending by channel
 * @property {string} expected the bit that is expected next on each channel
 */

/**
 * @typedef {object} Imp
 * @property {Box[]} hosts
 * @property {Port[]} ports
 * @property {(Distances | null)[]} routes what each neighbour told last
 * @property {Packet[]} store
 * @property {Packet[][]} slots
 * @property {Distances} distances its own
 * @property {{[imp: string]: number}} next for each IMP to which a way leads the place of its port
 */

/** @typedef {{state: string, number: number}} Source of a flow of which a message was begun: what became of the last one */

/** @typedef {{fate: string, number: number}} Kept of a flow of which a number is noted: what became of its last message */

/** @typedef {{"+": Frame[], "-": Frame[]}} Line */

/** @typedef {{messages: number, bits: number}} Allocation what may still be sent, or come */

/**
 * @typedef {object} HostEnd an end of a connection, as its host's program holds it
 * @property {number} socket
 * @property {number} foreign the peer's socket
 * @property {"receive" | "send"} kind
 * @property {boolean} mine `false` only for a request that is refused
 * @property {{own: number | null, peer: number | null}} requests which of them there were
 * @property {{own: "no" | "due" | "queued" | "sent", peer: boolean}} closing
 * @property {number | null} link
 * @property {number | null} size
 * @property {Allocation} allocation
 * @property {{bits: number, octets: string}} waiting
 */

/** @typedef {{kind: string, [field: string]: string | number}} Command a command that waits */

/**
 * @typedef {object} Peer what a host's program keeps about another host
 * @property {string} peer
 * @property {"closed" | "want" | "gone" | "early" | "heard" | "ready"} phase
 * @property {boolean} owed whether an RRP is owed
 * @property {number[]} busy the links on which a message has no answer yet
 * @property {HostEnd[]} ends
 * @property {Command[]} commands
 */

/** @typedef {{pairs: Peer[], listening: {socket: number, size: number}[]}} Program */

/** @typedef {{typing: number | null, running: {kind: string, [field: string]: any}[]}} Services */

/**
 * An IMP, a line, what an IMP knows of a flow, a plain host's box, the plain hosts that are down, or the program or the
 * services of a host.
 *
 * @typedef {Imp | null | Line | Source | Kept | Box | string[] | Program | Services} Part
 */

/**
 * @typedef {object} Record
 * @property {number} event which event of the script it belongs to, from 0
 * @property {number} round 0 in no calm
 * @property {string[]} words the event
 * @property {string[]} printed with the octets of messages
 * @property {string[]} kinds of each printed line what crossed; "" of a notice
 * @property {string} fate of a frame that was delivered, as the program judged it; "" of any other event
 * @property {[string, Part][]} parts
 */

/** @typedef {{opening: {[name: string]: Part}, records: Record[]}} Trace */

/**
 * The flow of something, as a script spells it.
 *
 * @param {any} told
 */
function flowIn(told) {
    return `${told.from} ${told.to} ${told.link}`;
}

/**
 * A packet of a trace.
 *
 * @param {any} told
 * @returns {Packet}
 */
function packetIn(told) {
    const { kind, from, to, link, number, place, last, bits, octets } = told;
    const flow = flowIn(told);
    const key = `${kind} ${flow} ${number} ${place}`;
    return { kind, flow, source: from, destination: to, link, number, place, last, bits, octets: octets || "-", key };
}

/**
 * @param {any} told
 * @returns {Frame}
 */
function frameIn(told) {
    const packet = told.packet === undefined ? null : packetIn(told.packet);
    const [channel, bit] = packet ? [told.channel, told.bit] : [-1, 0];
    return { acks: told.acks, packet, channel, bit, routes: told.routes ?? null };
}

/**
 * @param {any} told
 * @returns {Answer}
 */
function answerIn(told) {
    return { kind: told.kind, flow: flowIn(told) };
}

/**
 * A message that waits: with its number in a subnet.
 *
 * @param {any} told
 * @returns {Waiting}
 */
function waitingIn(told) {
    return { flow: flowIn(told), number: told.number ?? -1, bits: told.bits, octets: told.octets || "-" };
}

/**
 * @param {any} told
 * @returns {Box}
 */
function boxIn(told) {
    return { up: told.up ?? true, messages: told.messages.map(waitingIn), answers: told.answers.map(answerIn) };
}

/**
 * @param {any} told
 * @returns {{bit: number, packet: Packet | null}}
 */
function channelIn(told) {
    return { bit: told.bit, packet: told.packet ? packetIn(told.packet) : null };
}

/**
 * @param {any} told
 * @returns {Imp | null}
 */
function impIn(told) {
    if (told === null) return null;
    return {
        hosts: told.hosts.map(boxIn),
        ports: told.ports.map(
            (/** @type {any} */ it) => ({ up: it.up, sending: it.sending.map(channelIn), expected: it.expected }),
        ),
        routes: told.routes,
        store: told.store.map(packetIn),
        slots: told.slots.map((/** @type {any[]} */ it) => it.map(packetIn)),
        distances: told.distances,
        next: told.next,
    };
}

/**
 * @param {string} name
 * @param {any} told
 * @returns {Part}
 */
export function partIn(name, told) {
    if (name === "down" || isOfHost(name) || isOfFlow(name)) return told;
    if (name.startsWith("host ")) return boxIn(told);
    if (name.startsWith("line ")) return { "+": told["+"].map(frameIn), "-": told["-"].map(frameIn) };
    return impIn(told);
}

/**
 * Whether a part is the program or the services of a host.
 *
 * @param {string} name
 */
export function isOfHost(name) {
    return name.startsWith("program ") || name.startsWith("services ");
}

/**
 * Whether a part is what an IMP knows of a flow. It is null where the IMP knows the flow no more.
 *
 * @param {string} name
 */
export function isOfFlow(name) {
    return name.startsWith("source ") || name.startsWith("kept ");
}

/**
 * Puts parts that were left in the place of those before.
 *
 * @param {{[name: string]: Part}} parts
 * @param {[string, Part][]} left
 */
export function put(parts, left) {
    for (const [name, part] of left) {
        if (part === null && isOfFlow(name)) delete parts[name];
        else parts[name] = part;
    }
}

/**
 * All parts of a line of a trace.
 *
 * @param {any} told
 * @returns {[string, Part][]}
 */
function partsOf(told) {
    /** @type {[string, Part][]} */
    const found = [];
    for (const name in told.parts) found.push([name, partIn(name, told.parts[name])]);
    for (const host in told.programs) found.push([`program ${host}`, told.programs[host]]);
    for (const host in told.services) found.push([`services ${host}`, told.services[host]]);
    return found;
}

/**
 * Whether an event is a quiet round of the network as a whole, which is no line of a script.
 *
 * @param {{words: string[]}} event
 */
export function isQuiet({ words }) {
    return words[0] === "quiet";
}

/** The word of a moment in which uneventful ones of a round are joined (driven.js). */
export const REST = "rest";

/** The words of events by which a frame is gone from its line. */
export const LOSSES = new Set(["drop", "garble"]);

/**
 * Whether a printed line tells of a crossing.
 *
 * @param {string} line
 */
export function isCrossing(line) {
    return /^(?:out|in|answer|down|up) /.test(line);
}

/**
 * The printed lines of an event with the octets of messages, and what crossed in each.
 *
 * @param {string[]} printed
 * @param {any[]} crossed
 */
function linesIn(printed, crossed) {
    let at = 0;
    const told = printed.map((line) => (isCrossing(line) ? crossed[at++] : null));
    const withOctets = (/** @type {string} */ line, /** @type {any} */ it) => `${line} ${it.octets || "-"}`;
    return {
        printed: printed.map((line, place) => (/^(?:out|in) /.test(line) ? withOctets(line, told[place]) : line)),
        kinds: told.map((it) => it?.kind ?? ""),
    };
}

/**
 * Reads a trace piece by piece, as the program writes it: the parts at the opening, and the records. A last line that
 * was cut off is left out.
 */
export class TraceReader {
    /**
     * @param {number} [most] how many records are read
     * @param {(opening: {[name: string]: Part}) => void} [opened] is called once the first line is read
     * @param {((record: Record) => void) | null} [heard] is given each record, which is not kept then
     */
    constructor(most = Infinity, opened = () => {}, heard = null) {
        this.most = most;
        this.opened = opened;
        this.heard = heard;
        this.decoder = new TextDecoder();
        this.rest = "";
        this.octets = 0;
        /** @type {Trace | null} null before the first line is whole */
        this.trace = null;
        this.isOther = false;
    }

    /** @param {Uint8Array} octets */
    add(octets) {
        this.octets += octets.length;
        if (this.isOther || (this.trace && this.trace.records.length >= this.most)) return;
        const lines = (this.rest + this.decoder.decode(octets, { stream: true })).split("\n");
        this.rest = lines.pop() ?? "";
        for (const line of lines) if (line) this.line(JSON.parse(line));
    }

    /** @param {any} told */
    line(told) {
        if (this.trace && this.heard) return this.heard(recordIn(told));
        if (this.trace) {
            if (this.trace.records.length < this.most) this.trace.records.push(recordIn(told));
            return;
        }
        this.isOther = told.trace !== FORMAT;
        if (this.isOther) return;
        const opening = Object.fromEntries(partsOf(told));
        this.trace = { opening, records: [] };
        this.opened(opening);
    }

    /** The trace as far as it came; null where not even its first line did. */
    read() {
        if (!this.isOther) return this.trace;
        throw new Error(`The trace is not of format ${FORMAT}: the page and its program are of different sources.`);
    }
}

/**
 * An event of a trace.
 *
 * @param {any} told
 * @returns {Record}
 */
function recordIn(told) {
    const { number, round, event, printed, crossed, fate } = told;
    const words = event.split(" ");
    return { event: number - 1, round, words, ...linesIn(printed, crossed), fate: fate ?? "", parts: partsOf(told) };
}
