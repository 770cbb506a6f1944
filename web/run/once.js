/** Runs the released module once under Node, over words, an input that is open, and the output of this process. */

import { readSync, writeSync } from "node:fs";

import { runModule } from "./program.js";
import { Refused, releasedModule } from "./released.js";

const PAUSE = 1; // milliseconds before a stream that is not ready is asked again

/**
 * Does what a system call does that may find its stream not ready.
 *
 * @param {() => number} call
 * @returns {number} what it answers, or -1 where it failed
 */
function tried(call) {
    for (;;) {
        try {
            return call();
        } catch (why) {
            const { code } = /** @type {{code: string}} */ (why);
            if (code === "EOF") return 0;
            if (code !== "EAGAIN" && code !== "EINTR") return -1;
            Atomics.wait(new Int32Array(new SharedArrayBuffer(4)), 0, 0, PAUSE);
        }
    }
}

/**
 * Reads an input that is open.
 *
 * @param {number} descriptor
 * @returns {import("./program.js").Reads}
 */
function readerOf(descriptor) {
    return (most) => {
        const octets = new Uint8Array(Math.min(most, 1 << 16));
        const count = tried(() => readSync(descriptor, octets, 0, octets.length, null));
        return count < 0 ? null : octets.subarray(0, count);
    };
}

/**
 * Writes all octets, unless a write fails.
 *
 * @param {number} descriptor
 * @param {Uint8Array} octets
 * @returns {boolean}
 */
function write(descriptor, octets) {
    for (let at = 0; at < octets.length; ) {
        const count = tried(() => writeSync(descriptor, octets, at, octets.length - at));
        if (count < 0) return false;
        at += count;
    }
    return true;
}

/**
 * Runs the program. Its status, and what it said on standard error.
 *
 * @param {string[]} words
 * @param {number} input its descriptor
 * @returns {{status: number, said: string}}
 */
export function runOnce(words, input) {
    let said = "";
    try {
        const status = runModule(releasedModule(), words, readerOf(input), (descriptor, octets) => {
            if (descriptor === 2) said += new TextDecoder().decode(octets);
            return write(descriptor, octets);
        });
        return { status, said };
    } catch (why) {
        if (!(why instanceof Refused)) throw why;
        process.stderr.write(`arpasim: ${why.message}\n`);
        return { status: 1, said: why.message };
    }
}
