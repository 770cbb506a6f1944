/** The events of scripts: which there are, what follows the word of each, and where it happens. */

import { TABLE } from "../../python/dorydate/sentences/events.mjs";

/** What an event is of: python/dorydate/sentences/events.py says it. */
/** @typedef {"raw" | "every" | "carrier" | "subnet" | "programs"} Of */

/** What follows a word, what its event is of, and the operand that says where it happens. */
/** @typedef {{operands: string[], of: string, at: string}} Word */

/** The name of a refusal. */
/** @typedef {keyof typeof TABLE.refusals} Refusal */

/** @type {{[word: string]: Word}} */
export const EVENTS = Object.fromEntries(
    Object.entries(TABLE.events).map(([word, [operands, of, at]]) => [word, { operands: operands.split(" "), of, at }]),
);

/**
 * The words of events of these kinds, in the order of docs/program.md.
 *
 * @param {Of[]} kinds
 */
export function eventsOf(...kinds) {
    const found = new Set(/** @type {string[]} */ (kinds));
    return Object.keys(EVENTS).filter((word) => found.has(EVENTS[word].of));
}

/** What happens inside a network, whatever its hosts do. */
export const OF_CARRIERS = eventsOf("carrier", "subnet");

/** The events of scripts of raw networks, and of those whose hosts have programs. */
export const OF_RAW = eventsOf("raw", "every", "carrier", "subnet");
export const OF_WORLDS = eventsOf("every", "carrier", "subnet", "programs");
