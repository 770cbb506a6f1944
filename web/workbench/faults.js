/** What is wrong with an input that the program refuses: the line, and why. By the forms of docs/program.md. */

import { TABLE } from "../../python/dorydate/sentences/table.mjs";
import { EVENTS, OF_RAW, OF_WORLDS } from "./events.js";
import { wordsOf } from "./script.js";
import { readDocument, tables, Unreadable } from "./topology.js";
import { filled, joinedWords } from "./words.js";

/** @typedef {import("./runs.js").Refusal} Refusal */
/** @typedef {import("./script.js").Input} Input */

const [MOST_OCTETS, MOST_IMPS, MOST_LINES] = [268_435_456, 63, 5];
const FAULTS = /** @type {{[name: string]: string}} */ (TABLE.faults);
const TOPOLOGIES = /** @type {{[name: string]: string}} */ (TABLE.topologies);

/** The words after each event of a raw network, and of one whose hosts have programs. */
const [RAW, WORLD] = [formsOf(OF_RAW), formsOf(OF_WORLDS)];

/** What a number is, the least and the greatest. */
const RANGES = /** @type {{[name: string]: [string, number, number]}} */ (/** @type {unknown} */ (TABLE.ranges));

/** A host whose two numbers change places. */
const SWAPPED = new RegExp(TABLE.swapped);

/**
 * @param {string[]} words
 * @returns {{[name: string]: string[]}}
 */
function formsOf(words) {
    return Object.fromEntries(words.map((word) => [word, EVENTS[word].operands]));
}

/**
 * What is wrong, and in which line of the file, from 1; 0 where it isn't known.
 *
 * @param {Refusal} refusal
 * @returns {{text: string, line: number}}
 */
export function faultOf({ input, said, status }) {
    const found = /bad script line (\d+)/.exec(said);
    if (found) {
        const number = Number(found[1]);
        const text = input.lines[number - 1]?.text ?? "";
        return {
            text: `Line ${number} of the script: ${wrongLine(text, readsRaw(input, text)) ?? "No cause was found."}`,
            line: input.head.length + 1 + number,
        };
    }
    if (/bad topology|input too long/.test(said)) return wrongTopology(input) ?? NOT_FOUND;
    return {
        text: said.trim().replace(/^arpasim: /, "The program says: ") || `The program ended with status ${status}.`,
        line: 0,
    };
}

/** @param {Input} input */
function isRaw(input) {
    return input.head.some((line) => /^\s*raw\s*=\s*true\b/.test(line));
}

/**
 * Whether a line is read as one of a raw network: as all there are, and what a stranger sends.
 *
 * @param {Input} input
 * @param {string} line
 */
function readsRaw(input, line) {
    const isAmong = input.head.some((it) => /^\s*foreign\s*=(?!\s*\[\s*\])/.test(it));
    return isRaw(input) || (isAmong && line.startsWith("out "));
}

/**
 * Why a script line is not an event, null where no cause is found.
 *
 * @param {string} line
 * @param {boolean} raw
 * @returns {string | null}
 */
export function wrongLine(line, raw) {
    const why = byRules(TABLE["rules of lines"], line, raw);
    if (why) return why;
    const words = raw ? line.split(" ") : wordsOf(line);
    const form = (raw ? RAW : WORLD)[words[0]];
    if (!form) return unknownEvent(words[0], raw);
    const mistake = byRules(TABLE["rules of events"], line, raw);
    if (mistake) return mistake;
    const parts = words.slice(1);
    if (parts.length !== form.length) {
        const holes = { word: words[0], needed: form.length, form: [words[0], ...form].join(" "), found: parts.length };
        return filled(FAULTS.words, holes);
    }
    for (const [place, name] of form.entries()) {
        const why = name === "OCTETS"
            ? wrongOctets(Number(parts[place - 1]), parts[place])
            : wrongWord(name, parts[place]);
        if (why) return why;
    }
    return null;
}

/**
 * The first rule that a line of this kind of network breaks, in words.
 *
 * @param {string[][]} rules
 * @param {string} line
 * @param {boolean} raw
 */
function byRules(rules, line, raw) {
    for (const [of, pattern, name] of rules) {
        const found = !of || of === (raw ? "raw" : "programs") ? new RegExp(pattern).exec(line) : null;
        if (!found) continue;
        const { text = "", digits = "", ...holes } = found.groups ?? {};
        const octets = [...text].map((it) => it.charCodeAt(0).toString(16).padStart(2, "0")).join("").toUpperCase();
        const spelled = `${4 * octets.length} ${octets || "-"}`;
        return filled(FAULTS[name], { ...holes, text, spelled, upper: digits.toUpperCase() });
    }
    return null;
}

/**
 * @param {string} word
 * @param {boolean} raw
 */
function unknownEvent(word, raw) {
    if (raw && word in WORLD) return filled(FAULTS["of programs"], { word });
    const events = Object.keys(raw ? RAW : WORLD);
    const meant = nearest(word.toLowerCase(), events);
    const near = meant ? filled(FAULTS.meant, { meant }) : filled(FAULTS.events, { events: events.join(", ") });
    const help = byRules(TABLE["rules of users"], word.toLowerCase(), raw) ?? near;
    return `${filled(FAULTS.unknown, { word: word.slice(0, 40) })} ${help}`;
}

/**
 * The word of a list that is nearest to another one, if one is near.
 *
 * @param {string} word
 * @param {string[]} list
 */
export function nearest(word, list) {
    let best = { word: "", far: Math.max(2, Math.floor(word.length / 3)) + 1 };
    for (const it of list) {
        const far = distance(word, it);
        if (far < best.far) best = { word: it, far };
    }
    return best.word;
}

/**
 * How many letters have to be changed, added or left out.
 *
 * @param {string} a
 * @param {string} b
 */
function distance(a, b) {
    let row = Array.from({ length: b.length + 1 }, (_, place) => place);
    for (let at = 1; at <= a.length; at += 1) {
        const next = [at];
        for (let place = 1; place <= b.length; place += 1) {
            next.push(
                Math.min(row[place] + 1, next[place - 1] + 1, row[place - 1] + (a[at - 1] === b[place - 1] ? 0 : 1)),
            );
        }
        row = next;
    }
    return row[b.length];
}

/**
 * Why a word can't be in its place.
 *
 * @param {string} name
 * @param {string} word
 * @returns {string | null}
 */
function wrongWord(name, word) {
    const rule = TABLE["rules of words"].find(
        ([names, pattern]) => names.split(" ").includes(name) && !new RegExp(pattern).test(word),
    );
    if (rule) return filled(FAULTS[rule[2]], { word });
    if (Object.hasOwn(RANGES, name)) return wrongNumber(word, ...RANGES[name]);
    return ["S", "D", "H", "P"].includes(name) ? wrongHost(word) : null;
}

/**
 * Why a word with its slash names no host.
 *
 * @param {string} word
 */
function wrongHost(word) {
    const [host, imp] = word.split("/");
    const why = wrongNumber(host, "the host's number", 0, 3) ?? wrongNumber(imp, ...RANGES.I);
    const swapped = SWAPPED.exec(word);
    return why && swapped ? `${why} ${filled(FAULTS.meant, { meant: `${swapped[2]}/${swapped[1]}` })}` : why;
}

/**
 * @param {string} word
 * @param {string} what
 * @param {number} least
 * @param {number} most
 * @returns {string | null}
 */
function wrongNumber(word, what, least, most) {
    if (!/^(?:0|[1-9]\d*)$/.test(word)) return filled(FAULTS["not a number"], { word, what });
    return word.length > 10 || Number(word) < least || Number(word) > most
        ? filled(FAULTS.range, { word, what, least, most })
        : null;
}

/**
 * Why these are not the octets of a text of that number of bits.
 *
 * @param {number} bits
 * @param {string} octets
 * @returns {string | null}
 */
function wrongOctets(bits, octets) {
    if ((bits === 0) !== (octets === "-")) {
        return bits === 0 ? FAULTS["no bits"] : filled(FAULTS["no octets"], { bits });
    }
    if (bits === 0) return null;
    if (!/^[0-9A-F]*$/.test(octets)) return FAULTS.digits;
    const digits = 2 * Math.ceil(bits / 8);
    if (octets.length !== digits) {
        return filled(
            FAULTS.length,
            { bits, octets: digits / 2, digits, found: octets.length, for: 4 * octets.length },
        );
    }
    const unused = (8 - (bits % 8)) % 8;
    return unused && parseInt(octets.slice(-2), 16) % (1 << unused) ? filled(FAULTS.unused, { bits, unused }) : null;
}

const NOT_FOUND = { text: "The network is refused. docs/program.md has the form of networks.", line: 0 };

/**
 * Why a topology is refused, null where no cause is found.
 *
 * @param {Input} input
 * @returns {{text: string, line: number} | null}
 */
export function wrongTopology(input) {
    if (new TextEncoder().encode(input.text).length > MOST_OCTETS) {
        return { text: filled(TOPOLOGIES.octets, { most: MOST_OCTETS }), line: 0 };
    }
    if (!input.marked) return wrongMarker(input);
    try {
        return wrongNetwork(readDocument(input.head.join("\n")));
    } catch (why) {
        if (why instanceof Unreadable) {
            return { text: `Line ${why.line} of the network: ${why.message}.`, line: why.line };
        }
        throw why;
    }
}

/**
 * Why an input has no marker line.
 *
 * @param {Input} input
 */
function wrongMarker({ text, head }) {
    if (!text.trim()) return { text: TOPOLOGIES.empty, line: 0 };
    if (/^(?:in|answer|life|handed) /m.test(text) || text.endsWith("\nend\n")) return { text: TOPOLOGIES.log, line: 0 };
    const events = Object.keys(EVENTS).join("|");
    for (const [at, line] of head.entries()) {
        for (const [pattern, ...names] of TABLE["rules of markers"]) {
            if (new RegExp(pattern.replace("{events}", events)).test(line)) {
                return { text: joinedWords(names.map((name) => TOPOLOGIES[name])), line: at + 1 };
            }
        }
    }
    return { text: TOPOLOGIES.marker, line: 0 };
}

/**
 * Which rule of networks a document breaks.
 *
 * @param {import("./topology.js").Document} document
 * @returns {{text: string, line: number} | null}
 */
function wrongNetwork({ values, places }) {
    const at = (/** @type {object} */ table, /** @type {string} */ key) => (
        places.get(table)?.get(key) ?? places.get(table)?.get("") ?? 0
    );
    const keys = ["carrier", "raw", "imp", "line"];
    const further = Object.keys(values).find((key) => !keys.includes(key));
    if (further) {
        const meant = nearest(further.toLowerCase(), keys);
        const told = [filled(TOPOLOGIES.key, { key: further }), meant && filled(FAULTS.meant, { meant })];
        return { text: joinedWords(told), line: at(values, further) };
    }
    if (!["plain", "subnet"].includes(values.carrier ?? "subnet")) {
        return { text: TOPOLOGIES.carrier, line: at(values, "carrier") };
    }
    if (typeof (values.raw ?? false) !== "boolean") return { text: TOPOLOGIES.raw, line: at(values, "raw") };
    const [imps, lines] = [tables(values.imp), values.line ?? []];
    if (imps.length < 1 || imps.length > MOST_IMPS) return { text: TOPOLOGIES.imps, line: 0 };
    if (!Array.isArray(lines)) return { text: TOPOLOGIES.lines, line: 0 };
    /** @type {Set<number>} */
    const numbers = new Set();
    const broken = wrongRows("imp", "id", imps, ({ id }) => {
        if (numbers.has(id)) return filled(TOPOLOGIES["two imps"], { number: id });
        numbers.add(id);
        return "";
    }) ?? wrongRows("line", "", tables(lines), lineRule(numbers)) ?? wrongStrangers(imps, values.raw === true);
    return broken && { text: broken.text, line: at(broken.table, broken.key) };
}

/**
 * The first IMP whose strangers aren't named as they have to be.
 *
 * @param {{[key: string]: any}[]} imps
 * @param {boolean} raw
 */
function wrongStrangers(imps, raw) {
    const named = imps.filter((it) => "foreign" in it);
    for (const table of named) {
        const isNone = Array.isArray(table.foreign) && !table.foreign.length;
        const why = raw && !isNone ? "foreign raw" : wrongNumbers(table.foreign, table.hosts);
        if (why) {
            const text = filled(TOPOLOGIES[why], { imp: table.id, hosts: table.hosts });
            return { text, key: "foreign", table };
        }
    }
    return null;
}

/**
 * Which rule of the numbers of strangers these break, by its sentence's name; "" where they keep all.
 *
 * @param {any} numbers
 * @param {number} hosts
 */
function wrongNumbers(numbers, hosts) {
    if (!Array.isArray(numbers) || !numbers.every(Number.isInteger)) return "foreign list";
    if (numbers.some((it) => it < 0 || it >= hosts)) return "foreign host";
    if (new Set(numbers).size < numbers.length) return "foreign twice";
    return numbers.every((it, at) => at === 0 || numbers[at - 1] < it) ? "" : "foreign order";
}

/**
 * The first table that has not its keys in their ranges, or breaks a rule of its own.
 *
 * @param {string} name
 * @param {string} key the one that the rule is about
 * @param {{[key: string]: any}[]} rows
 * @param {(table: {[key: string]: any}) => string} rule
 */
function wrongRows(name, key, rows, rule) {
    for (const table of rows) {
        const why = wrongTable(name, table) ?? { text: rule(table), key };
        if (why.text) return { ...why, table };
    }
    return null;
}

/**
 * Which rule a line breaks beside those before it.
 *
 * @param {Set<number>} numbers of the IMPs
 */
function lineRule(numbers) {
    /** @type {Map<number, number>} */
    const ends = new Map();
    /** @type {Set<string>} */
    const pairs = new Set();
    return (/** @type {{[key: string]: any}} */ line) => {
        const [a, b] = [Math.min(line.a, line.b), Math.max(line.a, line.b)];
        if (a === b || !numbers.has(a) || !numbers.has(b)) return filled(TOPOLOGIES.joins, { a: line.a, b: line.b });
        if (pairs.has(`${a} ${b}`)) return filled(TOPOLOGIES["two lines"], { a, b });
        pairs.add(`${a} ${b}`);
        for (const imp of [a, b]) ends.set(imp, (ends.get(imp) ?? 0) + 1);
        const full = [a, b].find((imp) => (ends.get(imp) ?? 0) > MOST_LINES);
        return full ? filled(TOPOLOGIES["five lines"], { number: full }) : "";
    };
}

/**
 * Why a table has not exactly its keys with whole numbers in their ranges.
 *
 * @param {string} name
 * @param {{[key: string]: any}} table
 * @returns {{text: string, key: string} | null}
 */
function wrongTable(name, table) {
    const ranges = TABLE.tables.filter(([of]) => of === name);
    const keys = ranges.map(([, key]) => String(key));
    const found = Object.keys(table);
    const needed = found.filter((key) => name !== "imp" || key !== "foreign");
    const displaced = found.find((key) => key === "raw" || key === "carrier");
    if (displaced) return { text: filled(TOPOLOGIES.displaced, { key: displaced, table: name }), key: displaced };
    const other = needed.find((key) => !keys.includes(key));
    if (other || needed.length !== keys.length) {
        const holes = { table: name, keys: keys.join(" and "), found: found.join(", ") || "none" };
        return { text: filled(TOPOLOGIES.keys, holes), key: other ?? "" };
    }
    for (const [, key, least, most] of ranges) {
        const value = table[key];
        if (!Number.isInteger(value) || value < least || value > most) {
            return { text: filled(TOPOLOGIES.number, { key, table: name, least, most }), key: String(key) };
        }
    }
    return null;
}
