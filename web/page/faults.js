/** What a fault of the program means for the text in the box. */

/**
 * The line of the box, counted from 1, that a fault names, if it names one: `bad script line 4` is the fourth line
 * after the marker `%`, and `bad log line 4` the fourth of all.
 *
 * @param {string} stderr what the program wrote on standard error
 * @param {string} text what is in the box
 * @returns {number | undefined}
 */
export function lineOfFault(stderr, text) {
    const found = /^arpasim: bad (script|log) line ([0-9]+)$/m.exec(stderr);
    if (!found) return undefined;
    const number = Number(found[2]);
    return found[1] === "log" ? number : text.split("\n").indexOf("%") + 1 + number;
}

/**
 * Where a line of a text begins and ends.
 *
 * @param {string} text
 * @param {number} line counted from 1
 * @returns {{from: number, to: number}}
 */
export function rangeOf(text, line) {
    const lines = text.split("\n");
    const from = lines.slice(0, line - 1).reduce((sum, it) => sum + it.length + 1, 0);
    return { from, to: from + (lines[line - 1] ?? "").length };
}

/**
 * What is said of how a run ended.
 *
 * @param {import("../run/runner.js").Outcome} outcome
 * @param {{text: string, seconds: number, octets: number}} given what was run, and its limits
 * @returns {string}
 */
export function summary(outcome, given) {
    const so = "What it had printed until then is shown.";
    if (outcome.ended === "time") return `Ended after ${given.seconds} s, the limit of time. ${so}`;
    if (outcome.ended === "output") return `Ended after ${given.octets} octets, the limit of output. ${so}`;
    if (outcome.ended === "stopped") return `Stopped. ${so}`;
    const line = lineOfFault(outcome.stderr, given.text);
    const where = line === undefined ? "" : ` (line ${line} of the box)`;
    return `${outcome.stderr.trim() || "Ended"}${where}, status ${outcome.status}.`;
}
