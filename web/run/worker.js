/**
 * The worker of runs: it is sent one task, runs the program on each of its inputs, and says what the program writes and
 * how it ends.
 */

import { Full, runModule } from "./program.js";

/** @typedef {import("./runner.js").Said} Said */

/** @param {Said} said */
function say(said, /** @type {Transferable[]} */ moved = []) {
    const worker = /** @type {Pick<Worker, "postMessage">} */ (/** @type {unknown} */ (globalThis));
    worker.postMessage(said, moved);
}

/** @param {{module: WebAssembly.Module, words: string[], inputs: Uint8Array[], octets: number}} task */
function perform({ module, words, inputs, octets }) {
    let room = octets;
    try {
        for (const input of inputs) {
            const status = runModule(module, words, input, (descriptor, written) => {
                const fits = written.slice(0, room);
                say({ descriptor, octets: fits }, [fits.buffer]);
                if (written.length > room) throw new Full();
                room -= written.length;
            });
            say({ status });
        }
    } catch (why) {
        say(why instanceof Full ? { full: true } : { broken: String(why) });
    }
}

globalThis.addEventListener("message", (event) => perform(event.data), { once: true });
