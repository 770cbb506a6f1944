/**
 * Runs the native program arpasim under Node, as a `Runner` of runner.js. It serves the tests of what takes a runner.
 */

import { spawn } from "node:child_process";

import { joined } from "./runner.js";

/** @typedef {import("./runner.js").Runner} Runner */
/** @typedef {import("./runner.js").Outcome} Outcome */

/**
 * Makes a runner of a program's file.
 *
 * @param {string} program the path of the native program, as `tools/program` prints it
 * @returns {Runner}
 */
export function nativeRunner(program) {
    /** @type {Set<() => void>} */
    const stops = new Set();

    /** @type {Runner["run"]} */
    function run(words, input, limits, heard) {
        return new Promise((resolve, reject) => {
            /** @type {Uint8Array[][]} */
            const written = [[], [], []];
            let room = limits.octets;
            /** @type {Outcome["ended"]} */
            let ended = "exit";
            const child = spawn(program, words);
            const isLimited = Number.isFinite(limits.seconds);
            const timer = isLimited ? setTimeout(() => end("time"), limits.seconds * 1000) : 0;
            const stop = () => end("stopped");
            stops.add(stop);

            /** @param {Outcome["ended"]} why */
            function end(why) {
                if (ended !== "exit") return;
                ended = why;
                child.kill("SIGKILL");
            }

            /**
             * @param {number} descriptor
             * @param {Uint8Array} octets
             */
            function write(descriptor, octets) {
                if (ended !== "exit") return;
                const piece = octets.subarray(0, room);
                if (descriptor === 1 && heard) heard(piece);
                else written[descriptor].push(piece);
                if (octets.length > room) end("output");
                room -= Math.min(room, octets.length);
            }

            function leave() {
                clearTimeout(timer);
                stops.delete(stop);
            }

            child.stdout.on("data", (octets) => write(1, octets));
            child.stderr.on("data", (octets) => write(2, octets));
            child.stdin.on("error", () => {}); // the program may end before it has read all
            child.on("error", (error) => {
                leave();
                reject(new Error(`the program can't be started: ${error.message}`));
            });
            child.on("close", (status, signal) => {
                leave();
                if (ended === "exit" && status === null) return reject(new Error(`the program broke off: ${signal}`));
                const stderr = new TextDecoder().decode(joined(written[2]));
                resolve({ status: ended === "exit" ? Number(status) : -1, stdout: joined(written[1]), stderr, ended });
            });
            child.stdin.end(input);
        });
    }

    function stop() {
        for (const end of [...stops]) end();
    }

    /** @type {Runner["batch"]} */
    async function batch(words, inputs, limits) {
        const found = [];
        for (const input of inputs) found.push(await run(words, input, limits, undefined));
        return found;
    }

    return { run, batch, stop };
}
