/** Runs a module of the program within this thread, as a `Runner` of runner.js, for tests without a native program. */

import { readFileSync } from "node:fs";

import { Full, runModule } from "./program.js";
import { joined } from "./runner.js";

/** @typedef {import("./runner.js").Runner} Runner */
/** @typedef {import("./runner.js").Outcome} Outcome */

/**
 * Makes a runner of a module's file. It looks at the time when the program writes, and a run can't be stopped.
 *
 * @param {string} file
 * @returns {Runner}
 */
export function moduleRunner(file) {
    const module = new WebAssembly.Module(readFileSync(file));

    /** @type {Runner["run"]} */
    async function run(words, input, limits, heard) {
        const last = Date.now() + limits.seconds * 1000;
        /** @type {Uint8Array[][]} */
        const written = [[], [], []];
        let room = limits.octets;
        /** @type {Outcome["ended"]} */
        let ended = "exit";
        const outcome = (/** @type {number} */ status) => ({
            status,
            stdout: joined(written[1]),
            stderr: new TextDecoder().decode(joined(written[2])),
            ended,
        });
        try {
            const status = runModule(module, words, input, (descriptor, octets) => {
                const piece = octets.subarray(0, room);
                if (descriptor === 1 && heard) heard(piece);
                else written[descriptor].push(piece);
                if (octets.length > room) ended = "output";
                else if (Date.now() > last) ended = "time";
                if (ended !== "exit") throw new Full();
                room -= octets.length;
            });
            return outcome(status);
        } catch (why) {
            if (!(why instanceof Full)) throw why;
            return outcome(-1);
        }
    }

    /** @type {Runner["batch"]} */
    async function batch(words, inputs, limits) {
        const found = [];
        for (const input of inputs) found.push(await run(words, input, limits, undefined));
        return found;
    }

    return { run, batch, stop: () => {} };
}
