/**
 * Runs inputs with every limit of memory: node web/check/memory.js FOLDER PROGRAM FILE..
 *
 * FOLDER has the module once for each limit, in the order of their names. An input is run with one after the other
 * until it ends as the native program does. Before that each run has to say that it stopped, with status 3 and a prefix
 * of the output.
 */

import { spawnSync } from "node:child_process";
import { readFileSync, readdirSync } from "node:fs";

import { runModule } from "../run/program.js";
import { joined } from "../run/runner.js";

const WORDS = ["--texts", "--book"];

const [folder, program, ...files] = process.argv.slice(2);
const limits = readdirSync(folder).sort();
/** @type {WebAssembly.Module[]} */
const modules = [];
let stopped = 0;
let partly = 0;

for (const file of files) {
    const input = readFileSync(file);
    const whole = spawnSync(program, WORDS, { input, maxBuffer: 2 ** 30 }).stdout;
    let isWhole = false;
    for (let at = 0; !isWhole; at++) {
        if (at === limits.length) fail(`${file}: ${limits[at - 1]} has too little memory`);
        modules[at] ??= new WebAssembly.Module(readFileSync(`${folder}/${limits[at]}`));
        /** @type {Uint8Array[][]} */
        const written = [[], [], []];
        const status = runModule(modules[at], WORDS, input, (descriptor, octets) => written[descriptor].push(octets));
        const [stdout, stderr] = [joined(written[1]), new TextDecoder().decode(joined(written[2]))];
        const isPrefix = Buffer.compare(stdout, whole.subarray(0, stdout.length)) === 0;
        isWhole = status === 0 && stderr === "" && isPrefix && stdout.length === whole.length;
        if (!isWhole && !(status === 3 && stderr === "arpasim: stopped\n" && isPrefix)) {
            const octets = `${stdout.length} octets${isPrefix ? "" : " that are no prefix"}`;
            fail(`${file} with ${limits[at]}: status ${status}, ${octets}, ${stderr}`);
        }
        stopped += isWhole ? 0 : 1;
        partly += !isWhole && stdout.length > 0 ? 1 : 0;
    }
}
if (partly === 0) fail("no run ran out of memory after some output");
const runs = `${stopped} runs of ${files.length} inputs ran out of memory and said so`;
console.log(`memory: ${runs}, ${partly} of them after some output`);

/** @param {string} why */
function fail(why) {
    console.log(why);
    process.exit(1);
}
