/** Random schedules of events, for a surprise, and for searches by patterns as ./explore makes them. */

import { TABLE } from "../../python/dorydate/sentences/table.mjs";
import { EVENTS, eventsOf, OF_CARRIERS } from "./events.js";
import { octetsOf, textOf } from "./octets.js";
import { match, needsBook, readPattern } from "./pattern.js";

/** @typedef {import("../run/runner.js").Runner} Runner */
/** @typedef {import("./topology.js").Network} Network */
/** @typedef {import("./pattern.js").Pattern} Pattern */
/** @typedef {(below: number) => number} Chance */

/** @typedef {{name: string, what: string, head: string[], network: Network, pattern: string}} Search */

const LENGTH = 40; // events, about
const OPENING = 2; // rounds
const SWARM = [0, 1, 1, 4, 16]; // weights of a kind in a schedule that has its own
const SIZES = [1, 2, 3, 5, 8]; // events between two calms
const CALMS = [1, 1, 1, 2, 2, 3, 5];
const AT_A_TIME = 32;
const LIMITS = { seconds: 8, octets: 24_000_000 };

/**
 * The searches with names that a page can make: those about what is printed.
 *
 * @returns {{name: string, what: string, network: string, pattern: string}[]}
 */
export function searches() {
    const all = /** @type {[string, string[]][]} */ (Object.entries(TABLE.searches));
    return all.flatMap(([name, [what, network, pattern]]) =>
        /\bnoted\b/.test(pattern) ? [] : [{ name, what, network, pattern }],
    );
}

/**
 * The topology of a search: chains of sites, after `raw` or `plain` perhaps.
 *
 * @param {string} spelled
 * @returns {string[]} the lines of an input's head
 */
export function headOf(spelled) {
    const words = spelled.split(" ");
    const chains = words.filter((it) => it !== "raw" && it !== "plain").map((it) => it.split("-"));
    const sites = [...new Set(chains.flat())];
    const lines = chains.flatMap((chain) => chain.slice(1).map((site, at) => [chain[at], site]));
    return [
        ...(words.includes("plain") ? ['carrier = "plain"'] : []),
        ...(words.includes("raw") ? ["raw = true"] : []),
        ...sites.flatMap((site, at) => ["[[imp]]", `id = ${at + 1} # ${site}`, "hosts = 1"]),
        ...lines.flatMap(([a, b]) => ["[[line]]", `a = ${sites.indexOf(a) + 1}`, `b = ${sites.indexOf(b) + 1}`]),
    ];
}

/**
 * The events of which schedules are made, by kind, as those of ./explore: pools are small, so that requests meet their
 * partners.
 *
 * @param {Network} network
 * @returns {{[kind: string]: string[]}}
 */
function pools({ hosts, sites, lines, plain, raw }) {
    const pairs = hosts.flatMap((a) => hosts.filter((b) => b !== a).map((b) => `${a} ${b}`));
    const ends = plain ? [] : lines.flatMap((imps, line) => imps.map((imp) => `${imp} ${line}`));
    const frames = plain ? [] : lines.flatMap((_, line) => ["+", "-"].flatMap((way) => PLACES.map((it) => `${line} ${way} ${it}`)));
    const imps = plain ? [] : sites.map(({ number }) => number);
    const own = hosts.flatMap((host) => [`${host} ${SENDS}`, `${host} ${RECEIVES}`]);
    const links = raw ? [0, 1] : [0];
    const flows = pairs.flatMap((pair) => links.map((link) => `${pair} ${link}`));
    /** @type {{[operands: string]: (string | number)[]}} */
    const named = {
        "H": hosts,
        "S D N": flows,
        "I": imps,
        "I J": imps.flatMap((a) => imps.filter((b) => b !== a).map((b) => `${a} ${b}`)),
        "I L": ends,
        "L +|- K": frames,
    };
    const inside = (plain ? eventsOf("carrier") : OF_CARRIERS).filter((kind) => !LEFT_OUT.includes(kind));
    const each = (/** @type {string} */ kind, /** @type {(string | number)[]} */ list, more = "") =>
        ({ [kind]: list.map((it) => `${kind} ${it}${more}`) });
    const ofPrograms = {
        ...each("contact", pairs),
        ...each("offer", hosts),
        ...each("listen", own, " 8"),
        ...each("opensend", pairs, ` ${SENDS} ${RECEIVES} 8`),
        ...each("openrecv", pairs, ` ${RECEIVES} ${SENDS}`),
        ...each("send", hosts, ` ${SENDS} 8 41`),
        ...each("grant", hosts.flatMap((host) => [`${host} ${RECEIVES} 1 8`, `${host} ${RECEIVES} 2 100`])),
        ...each("askback", hosts, ` ${RECEIVES} 128 128`),
        ...each("interrupt", own),
        ...each("close", own),
    };
    return {
        ...(raw ? each("out", flows, " 8 41") : ofPrograms),
        ...each("take", hosts),
        ...Object.assign({}, ...inside.map((kind) => each(kind, named[EVENTS[kind].operands.join(" ")]))),
    };
}

/** Events of carriers that no schedule has: calms send distances, which are true, and pieces are thrown away by nobody. */
const LEFT_OUT = ["route", "claim", "abandon"];

const PLACES = [0, 1, 2];
const [SENDS, RECEIVES] = [33, 16]; // sockets

/**
 * Makes a source of random schedules: each has weights of its own for the kinds of events, and calms between some events
 * and others. It begins with rounds in which routes are found.
 *
 * @param {Network} network
 * @param {Chance} chance
 * @param {Set<string>} [barred] kinds that are left out
 * @returns {() => string[]}
 */
export function schedules(network, chance, barred = new Set()) {
    const kinds = Object.entries(pools(network)).filter(([kind, events]) => events.length && !barred.has(kind));
    const one = (/** @type {any[]} */ list) => list[chance(list.length)];
    return () => {
        const isSwarm = chance(2) === 0;
        const weighted = kinds.flatMap((kind) => Array(isSwarm ? one(SWARM) : 1).fill(kind));
        const pool = weighted.length ? weighted : kinds;
        const script = [`calm ${OPENING}`];
        while (script.length < LENGTH) {
            for (let size = one(SIZES); size > 0; size -= 1) script.push(one(one(pool)[1]));
            script.push(`calm ${one(CALMS)}`);
        }
        return script;
    };
}

/**
 * The kinds of events that cause lines which a pattern forbids from the start.
 *
 * @param {Pattern} pattern
 */
export function barredBy({ sequels }) {
    const words = sequels.flatMap(({ parts }) => parts[0].barred).filter(({ words, hasRest }) => words.length === 1 && hasRest);
    return new Set(words.flatMap(({ words: [word] }) => CAUSES[word] ?? []));
}

/** @type {{[word: string]: string[]}} */
const CAUSES = { down: ["hostdown", "impdown"], up: ["hostup", "impup"], interrupt: ["interrupt"], returned: ["askback"] };

/**
 * Runs scripts over a network, and tells which match a pattern.
 *
 * @param {Runner["batch"]} batch
 * @param {string[]} head
 * @param {Pattern} pattern
 * @param {string[][]} scripts
 * @returns {Promise<boolean[]>}
 */
export async function matching(batch, head, pattern, scripts) {
    const text = (/** @type {string[]} */ script) => octetsOf([...head, "%", ...script, ""].join("\n"));
    const words = needsBook(pattern) ? ["--book"] : [];
    const outcomes = await batch(words, scripts.map(text), LIMITS);
    const { rounds } = pattern.calm;
    const lasts = rounds
        ? await batch(words, scripts.map((script) => text([...script, `calm ${rounds}`])), LIMITS)
        : outcomes;
    const isLife = (/** @type {string} */ line) => line.startsWith("life ");
    return scripts.map((_, at) => {
        if (!outcomes[at] || !lasts[at] || outcomes[at].status !== 0) return false;
        const [lines, whole] = [outcomes[at], lasts[at]].map((it) => textOf(it).split("\n").slice(0, -2));
        const last = whole.filter((it) => !isLife(it)).slice(lines.filter((it) => !isLife(it)).length);
        return match(pattern, lines, last) !== null;
    });
}

/**
 * A short script that matches a pattern: the first random schedule that does, with what it doesn't need taken out.
 *
 * @param {Runner["batch"]} batch
 * @param {string[]} head
 * @param {Network} network
 * @param {string} text of the pattern
 * @param {Chance} chance
 * @param {{seconds: number, isOver: () => boolean, tell: (count: number) => void}} how
 * @returns {Promise<{script: string[] | null, count: number}>} and how many schedules were run
 */
export async function find(batch, head, network, text, chance, { seconds, isOver, tell }) {
    const pattern = readPattern(text);
    const draw = schedules(network, chance, barredBy(pattern));
    const end = Date.now() + seconds * 1000;
    let count = 0;
    while (Date.now() < end && !isOver()) {
        const scripts = Array.from({ length: AT_A_TIME }, draw);
        const found = await matching(batch, head, pattern, scripts);
        count += scripts.length;
        tell(count);
        const matched = scripts.filter((_, at) => found[at]).sort((a, b) => a.length - b.length);
        if (matched.length) return { script: await shrunk(batch, head, pattern, matched[0]), count };
    }
    return { script: null, count };
}

/**
 * A script without the lines, and with the shortest calms, with which it still matches: first many lines at once are
 * left out, then fewer.
 *
 * @param {Runner["batch"]} batch
 * @param {string[]} head
 * @param {Pattern} pattern
 * @param {string[]} script
 */
export async function shrunk(batch, head, pattern, script) {
    for (let size = script.length >> 1; size > 0; ) {
        const from = script.map((_, at) => at).filter((at) => at % Math.max(1, size >> 1) === 0);
        const without = from.map((at) => script.filter((_, place) => place < at || place >= at + size));
        const shorter = script.flatMap((line, at) =>
            size === 1 && /^calm [2-9]/.test(line)
                ? [script.map((it, place) => (place === at ? `calm ${Number(line.slice(5)) - 1}` : it))]
                : [],
        );
        const tried = [...without, ...shorter];
        const found = await matching(batch, head, pattern, tried);
        const at = found.indexOf(true);
        if (at >= 0) script = tried[at];
        else size >>= 1;
    }
    return script;
}
