/** Octets and texts, and what a run of the program answers. */

/** @typedef {import("../run/runner.js").Outcome} Outcome */

/** The most octets that the page opens: what is longer is for the program itself. */
export const MOST_READ = 16_777_216;

/** @param {string} text */
export function octetsOf(text) {
    return new TextEncoder().encode(text);
}

/** @param {Outcome} outcome */
export function textOf(outcome) {
    return new TextDecoder().decode(outcome.stdout);
}
