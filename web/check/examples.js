/**
 * Holds the module up to the native program: node web/check/examples.js MODULE PROGRAM RUNS
 *
 * RUNS is a file of JSON that names inputs, and for each the lists of words that it is run with: standard output,
 * standard error and exit status have to be the native program's, octet for octet. With the words `--audit` it is the
 * log of the input that is audited.
 */

import { spawnSync } from "node:child_process";
import { readFileSync } from "node:fs";

import { runModule } from "../run/program.js";
import { joined } from "../run/runner.js";

/** @typedef {{status: number, stdout: Uint8Array, stderr: Uint8Array}} Ended */

/**
 * How a run of the module ends.
 *
 * @param {WebAssembly.Module} module
 * @param {string[]} words
 * @param {Uint8Array} input
 * @returns {Ended}
 */
function ended(module, words, input) {
    /** @type {Uint8Array[][]} */
    const written = [[], [], []];
    const status = runModule(module, words, input, (descriptor, octets) => written[descriptor].push(octets));
    return { status, stdout: joined(written[1]), stderr: joined(written[2]) };
}

/**
 * How a run of the native program ends.
 *
 * @param {string} program
 * @param {string[]} words
 * @param {Uint8Array} input
 * @returns {Ended}
 */
function endedNatively(program, words, input) {
    const { status, stdout, stderr, error } = spawnSync(program, words, { input, maxBuffer: 2 ** 30 });
    // (a program that refuses its words ends before it has read a long input)
    if (error && error.code !== "EPIPE") throw error;
    return { status: Number(status), stdout, stderr };
}

/**
 * What differs between two endings, or nothing.
 *
 * @param {Ended} one
 * @param {Ended} other
 */
function difference(one, other) {
    if (one.status !== other.status) return `status ${one.status}, natively ${other.status}`;
    if (Buffer.compare(one.stdout, other.stdout) !== 0) {
        return `${one.stdout.length} octets of output, natively ${other.stdout.length}`;
    }
    return Buffer.compare(one.stderr, other.stderr) === 0 ? "" : "standard error";
}

const [path, program, manifest] = process.argv.slice(2);
const module = new WebAssembly.Module(readFileSync(path));
/** @type {{file: string, words: string[][]}[]} */
const inputs = JSON.parse(readFileSync(manifest, "utf8"));
let runs = 0;
for (const { file, words: lists } of inputs) {
    const input = readFileSync(file);
    for (const words of lists) {
        const log = words.join() === "--audit" ? endedNatively(program, ["--log"], input).stdout : input;
        const given = log.length > 0 ? log : input;
        const differs = difference(ended(module, words, given), endedNatively(program, words, given));
        if (differs) {
            console.log(`${file} with ${JSON.stringify(words).slice(0, 60)}: ${differs}`);
            process.exit(1);
        }
        runs += 1;
    }
}
console.log(`runs: ${runs} of ${inputs.length} inputs end as natively`);
