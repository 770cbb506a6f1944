/** By what a life of a book is over, as far as it crossed: the stages of a life (docs/headline.md, when a life is over). */

import { commandsOf, namedIn } from "./book.js";
import { COMMANDS, wide } from "./commands.js";

/** @typedef {import("./book.js").Book} Book */
/** @typedef {import("./book.js").Life} Life */

/** @typedef {{word: string, way: string, place: number}} Deed what may begin or end a life; its own go out, its partner's in */

/**
 * @typedef {object} Over
 * @property {string} by `reset`, `stopped` or `closed`, "" where it continues
 * @property {string} word what ended it
 * @property {number} place where that crossed
 * @property {Set<string>} closed the ways of the CLS that crossed, the first of them first
 * @property {boolean} early whether something that ends lives came between its two requests
 */

/**
 * The fates that each leaves a life, and both CLS by whose was the first. A contact doesn't cross; but it can't have come
 * before the own CLS, if that was the second.
 */
const LEAVES = /** @type {{[by: string]: string[]}} */ ({
    "": ["open", "reset"],
    reset: ["reset"],
    stopped: ["stopped", "reset"],
    "closed out": ["closed", "reset"],
    "closed in": ["closed", "ended"],
});

/**
 * Whether what crossed leaves a life that has begun its fate.
 *
 * @param {Over} over
 * @param {string} fate
 */
export function leaves({ by, closed, early }, fate) {
    const way = by === "closed" ? ` ${[...closed][0]}` : "";
    return !early && LEAVES[`${by}${way}`].includes(fate);
}

/**
 * By what a life is over by what crossed; null where it hasn't begun.
 *
 * @param {Book} book
 * @param {Life} life
 * @returns {Over | null}
 */
export function overBy(book, life) {
    const [asked, closed] = [new Set(), new Set()];
    let [owes, early] = [false, false];
    for (const { word, way, place } of deedsOf(book, life)) {
        const isReply = word === "rrp" && way === "out";
        const drops = word === "rst" || (!owes && (isReply || word === "fails"));
        owes = (owes || (word === "rst" && way === "in")) && word !== "down" && word !== "up" && !isReply;
        const isCut = word === "down" || drops;
        if (asked.size < 2) {
            early ||= asked.size === 1 && (isCut || word === "closes");
            if (word === "asks") asked.add(way);
        } else if (isCut) {
            return { by: drops ? "reset" : "stopped", word, place, closed, early };
        } else if (word === "closes" && closed.add(way).size === 2) {
            return { by: "closed", word, place, closed, early };
        }
    }
    return asked.size === 2 ? { by: "", word: "", place: -1, closed, early } : null;
}

/**
 * What may begin or end a life, the oldest first.
 *
 * @param {Book} book
 * @param {Life} life
 * @returns {Deed[]}
 */
function deedsOf({ log }, life) {
    const { host, peer } = life;
    return log.flatMap(({ kind, flow, answer, text }, place) => {
        if (kind === "answer") {
            const isOwn = answer !== "rfnm" && flow.startsWith(`${host} ${peer} `);
            return isOwn ? [{ word: "fails", way: "out", place }] : [];
        }
        if (kind === "down" || kind === "up") return flow === host ? [{ word: kind, way: "out", place }] : [];
        const comes = kind === "in";
        if (flow !== (comes ? `${peer} ${host} 0` : `${host} ${peer} 0`)) return [];
        return commandsOf(text).flatMap((it) => {
            const word = wordOf(it, life, comes, place);
            return word ? [{ word, way: kind, place }] : [];
        });
    });
}

/**
 * What a command does to a life, "" for nothing.
 *
 * @param {number[]} command
 * @param {Life} life
 * @param {boolean} comes
 * @param {number} place
 */
function wordOf(command, life, comes, place) {
    const [own, foreign] = comes ? [life.foreign, life.socket] : [life.socket, life.foreign];
    const { name } = COMMANDS[command[0]];
    if (name === "RST" || name === "RRP") return name.toLowerCase();
    if (name === "CLS") return wide(command, 1) === own && wide(command, 5) === foreign ? "closes" : "";
    const isStamp = place === (comes ? life.partner : life.own);
    return isStamp && namedIn([command], own, foreign) ? "asks" : "";
}
