/** The commands that hosts with programs send on link 0, as values (docs/commands.md). */

import { TABLE } from "../../python/dorydate/sentences/table.mjs";

/** The commands: their names and lengths in octets, by their codes. */
export const COMMANDS = TABLE.commands
    .map((it) => it.split(" "))
    .map(([name, length]) => ({ name, length: Number(length) }));

/** Of each command the octets of the numbers after its code. */
export const FIELDS = /** @type {{[name: string]: number[]}} */ ({
    ...{ NOP: [], RTS: [4, 4, 1], STR: [4, 4, 1], CLS: [4, 4], ALL: [1, 2, 4], GVB: [1, 1, 1], RET: [1, 2, 4] },
    ...{ INR: [1], INS: [1], ECO: [1], ERP: [1], ERR: [1, 10], RST: [], RRP: [] },
});

const HEADER = 5; // octets

/**
 * A number of four octets.
 *
 * @param {number[]} octets
 * @param {number} at
 */
export function wide(octets, at) {
    return ((octets[at] << 24) | (octets[at + 1] << 16) | (octets[at + 2] << 8) | octets[at + 3]) >>> 0;
}

/**
 * A number of two octets.
 *
 * @param {number[]} octets
 * @param {number} at
 */
export function short(octets, at) {
    return (octets[at] << 8) | octets[at + 1];
}

/**
 * The commands of a message on link 0, each with the numbers after its code. One that isn't whole has those before its fault.
 *
 * @param {number[]} message its octets
 */
export function commandsIn(message) {
    const found = [];
    const octets = message.slice(HEADER, HEADER + short(message, 2));
    for (let at = 0; at < octets.length; ) {
        const command = COMMANDS[octets[at]];
        if (!command || octets.length - at < command.length) break;
        const hasSockets = ["RTS", "STR", "CLS"].includes(command.name);
        const sockets = hasSockets ? [wide(octets, at + 1), wide(octets, at + 5)] : [];
        found.push({ name: command.name, link: octets[at + 1], sockets });
        at += command.length;
    }
    return found;
}
