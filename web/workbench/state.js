/**
 * What holds at a position: the parts of the network, and questions to them.
 *
 * A position is the number of moments that are done.
 */

import { impOf, linesOf, wayOf } from "./topology.js";

/** @typedef {import("./topology.js").Network} Network */
/** @typedef {import("./trace.js").Part} Part */
/** @typedef {import("./trace.js").Imp} Imp */
/** @typedef {import("./trace.js").Line} Line */
/** @typedef {import("./trace.js").Box} Box */
/** @typedef {import("./trace.js").Program} Program */
/** @typedef {import("./trace.js").Services} Services */
/** @typedef {import("./trace.js").Packet} Packet */
/** @typedef {import("./trace.js").Source} Source */
/** @typedef {import("./trace.js").Kept} Kept */

/** The distance that stands for no way. */
export const FAR = 63;

/** Looks at the parts of a network. */
export class State {
    /**
     * @param {Network} network
     * @param {{[name: string]: Part}} parts
     */
    constructor(network, parts) {
        this.network = network;
        this.parts = parts;
    }

    /**
     * An IMP, null where it is down.
     *
     * @param {number} number
     * @returns {Imp | null}
     */
    imp(number) {
        return /** @type {Imp | null} */ (this.parts[`imp ${number}`] ?? null);
    }

    /**
     * The frames that are live on a line.
     *
     * @param {number} line
     * @returns {Line}
     */
    line(line) {
        return /** @type {Line} */ (this.parts[`line ${line}`]) ?? { "+": [], "-": [] };
    }

    /**
     * What waits for a host, null where its IMP is down or there is no such host.
     *
     * @param {string} host
     * @returns {Box | null}
     */
    box(host) {
        if (this.network.plain) return /** @type {Box} */ (this.parts[`host ${host}`]) ?? null;
        return this.imp(impOf(host))?.hosts[Number(host.split("/")[0])] ?? null;
    }

    /**
     * What a host's program keeps, null where the host is down or has none.
     *
     * @param {string} host
     */
    program(host) {
        return /** @type {Program | null} */ (this.parts[`program ${host}`] ?? null);
    }

    /**
     * What runs on a host, null where it has no services.
     *
     * @param {string} host
     */
    services(host) {
        return /** @type {Services | null} */ (this.parts[`services ${host}`] ?? null);
    }

    /**
     * What became of the last message of a flow at its source, null where none was begun.
     *
     * @param {string} flow
     */
    source(flow) {
        return /** @type {Source | null} */ (this.parts[`source ${flow}`] ?? null);
    }

    /**
     * What became of the last message of a flow at its destination, null where no number is noted there.
     *
     * @param {string} flow
     */
    kept(flow) {
        return /** @type {Kept | null} */ (this.parts[`kept ${flow}`] ?? null);
    }

    /**
     * The flows of which messages were begun, each with the IMP that knows it, in order.
     *
     * @returns {(Source & {flow: string, imp: number})[]}
     */
    sourceFlows() {
        return this.flows("source ", 0).map((it) => ({ ...it, .../** @type {Source} */ (this.source(it.flow)) }));
    }

    /**
     * The flows of which numbers are noted, each with the IMP that knows it, in order.
     *
     * @returns {(Kept & {flow: string, imp: number})[]}
     */
    keptFlows() {
        return this.flows("kept ", 1).map((it) => ({ ...it, .../** @type {Kept} */ (this.kept(it.flow)) }));
    }

    /**
     * The flows of which there are parts with this beginning.
     *
     * @param {string} beginning
     * @param {0 | 1} end whose IMP knows them: the source's, or the destination's
     */
    flows(beginning, end) {
        const found = Object.keys(this.parts).filter((name) => name.startsWith(beginning));
        const flows = found.map((name) => name.slice(beginning.length)).sort((a, b) => placeOf(a) - placeOf(b));
        return flows.map((flow) => ({ flow, imp: impOf(flow.split(" ")[end]) }));
    }

    /** @param {string} host */
    isUp(host) {
        if (this.network.plain) return !(/** @type {string[]} */ (this.parts.down ?? []).includes(host));
        return this.box(host)?.up ?? false;
    }

    /**
     * The port of an IMP for a line.
     *
     * @param {number} imp
     * @param {number} line
     */
    port(imp, line) {
        return this.imp(imp)?.ports[linesOf(this.network, imp).indexOf(line)] ?? null;
    }

    /**
     * Whether an IMP's end of a line is up.
     *
     * @param {number} imp
     * @param {number} line
     */
    isEndUp(imp, line) {
        return this.port(imp, line)?.up ?? false;
    }

    /**
     * An IMP's own distance to another one, and the line that it takes.
     *
     * @param {number} imp
     * @param {number} to
     * @returns {{distance: number, line: number}} the line is -1 where there is none
     */
    way(imp, to) {
        if (imp === to) return { distance: 0, line: -1 };
        const it = this.imp(imp);
        const port = it?.next[to];
        return { distance: it?.distances[to] ?? FAR, line: port === undefined ? -1 : linesOf(this.network, imp)[port] };
    }

    /**
     * Whether an IMP announces that it is at distance 0 from every IMP.
     *
     * @param {number} imp
     */
    claims(imp) {
        const it = this.imp(imp);
        return it !== null && this.network.sites.length > 1 && this.network.sites.every(({ number }) => it.distances[number] === 0);
    }

    /**
     * All that is alive: each packet and message, and where it is.
     *
     * @returns {Held[]}
     */
    everything() {
        /** @type {Held[]} */
        const found = [];
        for (const { number } of this.network.sites) found.push(...this.heldBy(number));
        this.network.lines.forEach((_, line) => {
            for (const way of /** @type {const} */ (["+", "-"])) {
                const [imp] = wayOf(this.network, line, way);
                this.line(line)[way].forEach(({ packet, channel }, place) => {
                    if (packet) found.push(heldPacket(packet, { at: "line", imp, line, way, place, channel }));
                });
            }
        });
        return found;
    }

    /**
     * All that an IMP holds.
     *
     * @param {number} number
     * @returns {Held[]}
     */
    heldBy(number) {
        /** @type {Held[]} */
        const found = [];
        const imp = this.imp(number);
        if (!imp) return found;
        const lines = linesOf(this.network, number);
        const here = { ...NOWHERE, imp: number };
        for (const packet of imp.store) found.push(heldPacket(packet, { ...here, at: "store" }));
        imp.ports.forEach((port, place) => {
            port.sending.forEach(({ packet }, channel) => {
                if (packet) found.push(heldPacket(packet, { ...here, at: "channel", line: lines[place], channel }));
            });
        });
        for (const slot of imp.slots) {
            for (const packet of slot) found.push(heldPacket(packet, { ...here, at: "slot", place: slot.length }));
        }
        imp.hosts.forEach((box, host) => {
            for (const { flow, number } of box.messages) {
                found.push({ kind: "data", flow, number, packet: null, place: { ...here, at: "host", place: host } });
            }
        });
        return found;
    }
}

/**
 * @typedef {object} Place
 * @property {"store" | "channel" | "slot" | "host" | "line"} at
 * @property {number} imp the IMP that holds it, on a line the one that it comes from
 * @property {number} line
 * @property {string} way
 * @property {number} place on a line the frame's place, in a slot how many pieces are there, at a host which
 * @property {number} channel
 */

/**
 * @typedef {object} Held
 * @property {Packet["kind"]} kind
 * @property {string} flow
 * @property {number} number
 * @property {Packet | null} packet null for a whole message
 * @property {Place} place
 */

/**
 * Where a flow is in the order of source, destination and link.
 *
 * @param {string} flow
 */
function placeOf(flow) {
    const [source, destination, link] = flow.split(" ");
    const [from, to] = [source, destination].map((host) => 4 * impOf(host) + Number(host.split("/")[0]));
    return (256 * from + to) * 256 + Number(link);
}

/** @type {Place} */
const NOWHERE = { at: "store", imp: 0, line: -1, way: "", place: 0, channel: -1 };

/**
 * @param {Packet} packet
 * @param {Place} place
 * @returns {Held}
 */
function heldPacket(packet, place) {
    return { kind: packet.kind, flow: packet.flow, number: packet.number, packet, place };
}
