/**
 * What the text of a message says, in words.
 *
 * Hosts with programs send a header of 40 bits, then commands on link 0 and bytes of data on every other link
 * (docs/commands.md). In a raw network a script sends what it likes.
 */

import { TABLE } from "../../python/dorydate/sentences/table.mjs";
import { COMMANDS, short, wide } from "./commands.js";
import { filled } from "./words.js";

/** @typedef {import("./trace.js").Command} Command */

const TEXTS = TABLE.texts;

const ERRORS = ["", ...Object.values(TABLE["error codes"])];
const HEADER = 40;
const MOST_COMMANDS = 120;
const SHOWN = 60;

/**
 * What a message says.
 *
 * @param {boolean} raw whether nothing is known of its form
 * @param {number} link
 * @param {number} bits
 * @param {string} octets in hexadecimal digits, `-` for none
 * @returns {string} "" for no bits
 */
export function saying(raw, link, bits, octets) {
    if (bits === 0) return "";
    const values = octetValues(octets);
    return raw ? shown(values, bits) : programSaying(link, values, bits);
}

/** @param {string} octets */
export function octetValues(octets) {
    return octets === "-" ? [] : (octets.match(/../g) ?? []).map((pair) => parseInt(pair, 16));
}

/**
 * Octets as text where they are text, otherwise in hexadecimal digits.
 *
 * @param {number[]} values
 * @param {number} bits
 */
export function shown(values, bits) {
    const isText = bits % 8 === 0
        && values.every((it) => (it >= 32 && it <= 126) || it === 9 || it === 10 || it === 13);
    const text = isText
        ? `“${String.fromCharCode(...values).replace(/\t/g, "\\t").replace(/\n/g, "\\n").replace(/\r/g, "\\r")}”`
        : values.map((it) => it.toString(16).toUpperCase().padStart(2, "0")).join("");
    return text.length > SHOWN ? `${text.slice(0, SHOWN)}…` : text;
}

/**
 * @param {number} link
 * @param {number[]} values
 * @param {number} bits
 */
function programSaying(link, values, bits) {
    if (bits < HEADER) return filled(TEXTS.short, { bits, header: HEADER });
    const [size, number] = [values[1], short(values, 2)];
    if (bits < HEADER + size * number) return filled(TEXTS.announced, { number, size, left: bits - HEADER });
    const data = values.slice(5, 5 + Math.ceil((size * number) / 8));
    if (link !== 0) return number === 0 ? "no data" : shown(cleared(data, size * number), size * number);
    if (size !== 8) return filled(TEXTS["byte size"], { size });
    if (number > MOST_COMMANDS) return filled(TEXTS["too many"], { number, most: MOST_COMMANDS });
    return commands(data).join(", ") || TEXTS.none;
}

/**
 * Octets whose bits after the first `bits` are zero.
 *
 * @param {number[]} data
 * @param {number} bits
 */
function cleared(data, bits) {
    return data.map((it, place) => (place === data.length - 1 && bits % 8 ? it & (0xff << (8 - (bits % 8))) : it));
}

/** @param {number[]} octets */
function commands(octets) {
    const found = [];
    for (let at = 0; at < octets.length; ) {
        const command = COMMANDS[octets[at]];
        if (!command) return [...found, filled(TEXTS["no code"], { code: octets[at] })];
        if (octets.length - at < command.length) {
            return [...found, filled(TEXTS.cut, { name: command.name, octets: octets.length - at })];
        }
        found.push(commandWords(commandIn(octets.slice(at, at + command.length))));
        at += command.length;
    }
    return found;
}

/**
 * A command by its octets, with the fields that a trace has.
 *
 * @param {number[]} octets
 * @returns {Command}
 */
function commandIn(octets) {
    const kind = COMMANDS[octets[0]].name.toLowerCase();
    const [first, second, link] = [wide(octets, 1), wide(octets, 5), octets[1]];
    switch (kind) {
        case "rts":
            return { kind, receive: first, send: second, link: octets[9] };
        case "str":
            return { kind, send: first, receive: second, size: octets[9] };
        case "cls":
            return { kind, own: first, foreign: second };
        case "all":
        case "ret":
            return { kind, link, messages: short(octets, 2), bits: wide(octets, 4) };
        case "gvb":
            return { kind, link, messages: octets[2], bits: octets[3] };
        case "eco":
        case "erp":
            return { kind, octet: octets[1] };
        case "err":
            return { kind, code: octets[1] };
    }
    return { kind, link };
}

/**
 * A command in words.
 *
 * @param {Command} command
 */
export function commandWords({ kind, ...fields }) {
    const name = kind.toUpperCase();
    switch (name) {
        case "RTS":
            return filled(TEXTS.RTS, { ...fields, own: fields.receive, foreign: fields.send });
        case "STR":
            return filled(TEXTS.STR, { ...fields, own: fields.send, foreign: fields.receive });
        case "CLS":
        case "GVB":
            return filled(TEXTS[name], fields);
        case "ALL":
        case "RET":
            return filled(TEXTS.ALL, { name, ...fields });
        case "INR":
        case "INS":
            return filled(TEXTS.INR, { name, ...fields });
        case "ECO":
        case "ERP":
            return `${name} ${fields.octet}`;
        case "ERR": {
            const error = ERRORS[Number(fields.code)];
            return `ERR ${fields.code}${error ? ` (${error})` : ""}`;
        }
    }
    return name;
}
