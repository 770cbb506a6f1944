/**
 * Runs the released module on one input after another, within one process of Node.
 *
 * A request on standard input is a line of JSON, `{"words": [..], "octets": N, "most": L}`, and N octets, which are the
 * input. The answer on standard output is a line of JSON, `{"status": S, "stdout": N, "stderr": M}`, and the N + M octets
 * that the run wrote; or the status -1 and none, if these are more than L. Each run begins with an empty memory. The end
 * of standard input ends the process.
 */

import { readSync, writeSync } from "node:fs";

import { Full, runModule } from "./program.js";
import { Refused, releasedModule } from "./released.js";
import { joined } from "./runner.js";

const PIECE = 1 << 16;

/** What was read of standard input and not asked for yet. */
let left = new Uint8Array(0);

/**
 * Reads more of standard input.
 *
 * @returns {boolean} whether there was more
 */
function readMore() {
    const octets = new Uint8Array(PIECE);
    const count = readSync(0, octets, 0, PIECE, null);
    left = joined([left, octets.subarray(0, count)]);
    return count > 0;
}

/**
 * The next octets of standard input.
 *
 * @param {number} count
 * @returns {Uint8Array | null} null where it ends before
 */
function next(count) {
    while (left.length < count) if (!readMore()) return null;
    const octets = left.subarray(0, count);
    left = left.subarray(count);
    return octets;
}

/**
 * The next line of standard input.
 *
 * @returns {string | null} null where it ends before
 */
function nextLine() {
    let end = left.indexOf(10);
    while (end < 0) {
        if (!readMore()) return null;
        end = left.indexOf(10);
    }
    const octets = /** @type {Uint8Array} */ (next(end + 1));
    return new TextDecoder().decode(octets);
}

/** @param {Uint8Array} octets */
function write(octets) {
    for (let at = 0; at < octets.length; ) at += writeSync(1, octets, at, octets.length - at);
}

/**
 * Runs the module: the status, and what was written to standard output and standard error, if that isn't too much.
 *
 * @param {WebAssembly.Module} module
 * @param {string[]} words
 * @param {Uint8Array} input
 * @param {number} most
 * @returns {[number, Uint8Array, Uint8Array]}
 */
function ran(module, words, input, most) {
    /** @type {Uint8Array[][]} */
    const written = [[], [], []];
    let room = most;
    try {
        const status = runModule(module, words, input, (descriptor, piece) => {
            room -= piece.length;
            if (room < 0) throw new Full();
            written[descriptor].push(piece);
        });
        return [status, joined(written[1]), joined(written[2])];
    } catch (why) {
        if (!(why instanceof Full)) throw why;
        return [-1, new Uint8Array(0), new Uint8Array(0)];
    }
}

/** @param {WebAssembly.Module} module */
function serve(module) {
    for (let line = nextLine(); line !== null; line = nextLine()) {
        const { words, octets, most } = JSON.parse(line);
        const input = next(octets);
        if (input === null) return;
        const [status, stdout, stderr] = ran(module, words, input, most);
        const head = JSON.stringify({ status, stdout: stdout.length, stderr: stderr.length });
        write(joined([new TextEncoder().encode(`${head}\n`), stdout, stderr]));
    }
}

try {
    serve(releasedModule());
} catch (why) {
    if (!(why instanceof Refused)) throw why;
    process.stderr.write(`arpasim: ${why.message}\n`);
    process.exitCode = 1;
}
