/**
 * Runs the program arpasim in a browser: one worker for each run, so that the page never hangs.
 *
 * `makeRunner` gives a `Runner`. `native.js` gives one of the same type under Node, over the native program.
 */

/**
 * When a run is ended from outside.
 *
 * @typedef {object} Limits
 * @property {number} seconds how long a run may take, in seconds; one that is listened to, how long it may say nothing.
 *     Infinity for a run that no clock ends
 * @property {number} octets how many octets a run may write, standard output and standard error together
 */

/**
 * How a run ended.
 *
 * `ended` is `exit` where the program came to its own end, `time` or `output` where a limit was reached, `stopped`
 * where `stop` was called. Except after `exit`, `status` is -1, and `stdout` is a prefix of what the program would have
 * written. After `output` it and `stderr` have `limits.octets` octets together.
 *
 * @typedef {object} Outcome
 * @property {number} status the exit status: 0 to 255, or -1
 * @property {Uint8Array} stdout what was written to standard output
 * @property {string} stderr what was written to standard error
 * @property {"exit" | "time" | "output" | "stopped"} ended
 */

/** @typedef {(octets: Uint8Array) => void} Heard is given pieces of standard output, in their order */

/**
 * Runs the program. Runs may overlap. Each begins with an empty memory, and none sees anything of another.
 *
 * `run` takes the words of the command line, without the program's name, and what stands on standard input. Its promise
 * is rejected only where the program can't be started, or where it breaks off without a status, which no input should
 * bring about. Where `heard` is given, it is called with each piece of standard output as it comes, and `stdout` of the
 * outcome is empty.
 *
 * `stop` ends every run of this runner that is under way, as `stopped`.
 *
 * `batch` runs the program on several inputs, one after the other in one worker, with limits for all of them together.
 * It answers how those ended that came to their own end before a limit was reached or `stop` was called, in order.
 *
 * @typedef {object} Runner
 * @property {(words: string[], input: Uint8Array, limits: Limits, heard?: Heard) => Promise<Outcome>} run
 * @property {(words: string[], inputs: Uint8Array[], limits: Limits) => Promise<Outcome[]>} batch
 * @property {() => void} stop
 */

/**
 * What a worker says: octets that were written to a descriptor (1 or 2), that it has reached the limit of octets, its
 * exit status, or why it broke off.
 *
 * @typedef {{descriptor: number, octets: Uint8Array} | {full: true} | {status: number} | {broken: string}} Said
 */

/**
 * Joins pieces into one array.
 *
 * @param {Uint8Array[]} pieces
 * @returns {Uint8Array}
 */
export function joined(pieces) {
    const whole = new Uint8Array(pieces.reduce((sum, piece) => sum + piece.length, 0));
    let at = 0;
    for (const piece of pieces) {
        whole.set(piece, at);
        at += piece.length;
    }
    return whole;
}

/**
 * Makes a runner of the compiled program. `spawn` starts a worker of `worker.js`; one is always kept ready, so that a
 * run starts at once.
 *
 * @param {WebAssembly.Module} module
 * @param {() => Worker} spawn
 * @returns {Runner}
 */
export function makeRunner(module, spawn) {
    /** @type {Set<() => void>} */
    const stops = new Set();
    let ready = spawn();

    /** @type {Runner["run"]} */
    async function run(words, input, limits, heard) {
        const { done, last } = await perform(words, [input], limits, heard);
        return done[0] ?? last;
    }

    /** @type {Runner["batch"]} */
    async function batch(words, inputs, limits) {
        return inputs.length ? (await perform(words, inputs, limits)).done : [];
    }

    /**
     * Runs the program on inputs: those that came to their own end, and how the last one ended.
     *
     * @param {string[]} words
     * @param {Uint8Array[]} inputs
     * @param {Limits} limits
     * @param {Heard} [heard]
     * @returns {Promise<{done: Outcome[], last: Outcome}>}
     */
    function perform(words, inputs, limits, heard) {
        const worker = ready;
        ready = spawn();
        return new Promise((resolve, reject) => {
            /** @type {Outcome[]} */
            const done = [];
            /** @type {Uint8Array[][]} */
            let written = [[], [], []];
            let timer = clock();
            let isHeard = false;
            const stop = () => end("stopped");
            stops.add(stop);

            /** Looks at the clock again after the limit of time, where there is one. */
            function clock() {
                return Number.isFinite(limits.seconds) ? setTimeout(late, limits.seconds * 1000) : 0;
            }

            /** A run that is listened to is only late where it says nothing, so that no slow machine cuts one that goes on. */
            function late() {
                if (!isHeard) return end("time");
                isHeard = false;
                timer = clock();
            }

            function leave() {
                clearTimeout(timer);
                stops.delete(stop);
                worker.onmessage = null;
                worker.terminate();
            }

            /** @param {Outcome["ended"]} ended */
            function end(ended, status = -1) {
                const last = {
                    status,
                    stdout: joined(written[1]),
                    stderr: new TextDecoder().decode(joined(written[2])),
                    ended,
                };
                written = [[], [], []];
                if (ended === "exit") done.push(last);
                if (ended === "exit" && done.length < inputs.length) return;
                leave();
                resolve({ done, last });
            }

            /** @param {string} why */
            function fail(why) {
                leave();
                reject(new Error(why));
            }

            worker.onmessage = ({ data }) => {
                /** @type {Said} */
                const said = data;
                isHeard ||= heard !== undefined && "octets" in said;
                if ("octets" in said && said.descriptor === 1 && heard) heard(said.octets);
                else if ("octets" in said) written[said.descriptor].push(said.octets);
                else if ("full" in said) end("output");
                else if ("status" in said) end("exit", said.status);
                else fail(`the program broke off: ${said.broken}`);
            };
            worker.onerror = (event) => fail(`the program can't be started: ${event.message}`);
            worker.postMessage({ module, words, inputs, octets: limits.octets });
        });
    }

    function stop() {
        for (const end of [...stops]) end();
    }

    return { run, batch, stop };
}
