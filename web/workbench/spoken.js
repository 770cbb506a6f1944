/**
 * What a stranger may be made to say: commands or data in words, or octets as they stand, and the text of a message of
 * them. Nothing is asked of sockets and links, since a stranger says what it likes.
 */

import { COMMANDS, FIELDS } from "./commands.js";

/** @typedef {{bits: number, octets: string}} Text its octets are hexadecimal digits, `-` for none */

const MOST_BITS = 8063; // of a message
const HEADER = 40; // bits
export const EXAMPLES = ["RST", "RTS 16 33 2", "ALL 2 10 1000, NOP", "data 8 4C4F", "00080001000C"];

/**
 * The text of a message, or why these words are none.
 *
 * @param {string} words
 * @returns {Text | {why: string}}
 */
export function textOfWords(words) {
    const said = words.trim();
    const digits = said.replace(/\s/g, "").toUpperCase();
    if (/^([0-9A-F]{2})*$/.test(digits)) return textOf(digits, 4 * digits.length);
    const data = /^data +(\d+) +([0-9A-F\s]+)$/i.exec(said);
    if (data) return dataOf(Number(data[1]), data[2].replace(/\s/g, "").toUpperCase());
    let octets = "";
    for (const one of said.split(",")) {
        const command = commandOf(one.trim());
        if (typeof command !== "string") return command;
        octets += command;
    }
    return withHeader(8, octets.length / 2, octets, 4 * octets.length);
}

/**
 * @param {string} octets
 * @param {number} bits
 * @returns {Text | {why: string}}
 */
function textOf(octets, bits) {
    if (bits > MOST_BITS) return { why: `A message has at most ${MOST_BITS} bits, and this one ${bits}.` };
    return { bits, octets: octets || "-" };
}

/**
 * Bytes of a size, after their header.
 *
 * @param {number} size
 * @param {string} octets
 */
function dataOf(size, octets) {
    if (size < 1 || size > 255 || octets.length % 2) {
        return { why: "Data are “data SIZE OCTETS”: bytes of 1 to 255 bits, and two hexadecimal digits for each octet." };
    }
    if ((4 * octets.length) % size) return { why: `${4 * octets.length} bits are no whole bytes of ${size} bits.` };
    return withHeader(size, (4 * octets.length) / size, octets, 4 * octets.length);
}

/**
 * @param {number} size
 * @param {number} count
 * @param {string} octets
 * @param {number} bits
 */
function withHeader(size, count, octets, bits) {
    return textOf(`00${hex(size, 1)}${hex(count, 2)}00${octets}`, HEADER + bits);
}

/**
 * The octets of a command in words.
 *
 * @param {string} words
 * @returns {string | {why: string}}
 */
function commandOf(words) {
    const [name, ...numbers] = words.toUpperCase().split(/\s+/);
    const code = COMMANDS.findIndex((it) => it.name === name);
    if (code < 0) return { why: `“${words}” is no command, no data and no octets.` };
    const fields = FIELDS[name];
    if (numbers.length !== fields.length) return { why: `${name} has ${fields.length} numbers, and here ${numbers.length}.` };
    const wrong = numbers.find((it, at) => !/^\d+$/.test(it) || BigInt(it) >= 1n << BigInt(8 * fields[at]));
    if (wrong !== undefined) return { why: `“${wrong}” is no number that ${name} has there.` };
    return hex(code, 1) + numbers.map((it, at) => hex(Number(it), Math.min(4, fields[at])).padEnd(2 * fields[at], "0")).join("");
}

/**
 * @param {number} value
 * @param {number} octets
 */
function hex(value, octets) {
    return value.toString(16).toUpperCase().padStart(2 * octets, "0");
}
