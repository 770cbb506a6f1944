/** Words of scripts on which a newcomer stumbles, each with its meaning, once for all places where one meets it. */

import { TABLE } from "../../python/dorydate/sentences/table.mjs";
import { isDeed } from "./deeds.js";

const WORDS = /** @type {{[word: string]: string}} */ (TABLE.words);

/**
 * What the first word of a script's line means; "" of one that needs no explanation.
 *
 * @param {string} line
 */
export function wordOf(line) {
    const [kind] = line.split(" ");
    return (WORDS[kind] ?? (isDeed(kind) ? WORDS.deed : "")).replace(/\x60/g, "");
}

/**
 * The words of the network and their meanings, for a list.
 *
 * @returns {[string, string][]}
 */
export function networkWords() {
    return Object.entries(/** @type {{[word: string]: string}} */ (TABLE.glossary));
}

/**
 * The words of scripts and their meanings, for a list.
 *
 * @returns {[string, string][]}
 */
export function glossary() {
    return Object.entries(WORDS).filter(([word]) => word !== "deed" && word !== "proved");
}
