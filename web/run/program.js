/**
 * Runs a compiled module of the program once: the surroundings that arpasim has in place of an operating system.
 *
 * The module asks for three functions of `env`: `read(descriptor, address, count)`, `write(descriptor, address, count)`
 * and `arg(index, address, room)`, and gives its `memory` and `main`. Addresses and counts have 64 bits. Answers are
 * counts, or -1 for a failure.
 */

/** Thrown out of a run whose `write` doesn't want more octets. */
export class Full extends Error {}

/**
 * Gives the next octets of an input, at most as many as are asked for and none at its end.
 *
 * @typedef {(most: number) => Uint8Array | null} Reads null if they can't be read
 */

/**
 * Reads an array from its start.
 *
 * @param {Uint8Array} input
 * @returns {Reads}
 */
function readerOf(input) {
    let at = 0;
    return (most) => {
        const piece = input.subarray(at, at + most);
        at += piece.length;
        return piece;
    };
}

/**
 * Runs the module over the words of a command line and an input, and answers the exit status.
 *
 * `write` is given each piece of output, as an array of its own, and the descriptor (1 or 2). It answers `false` if the
 * write failed, as the program is told then. What it throws ends the run.
 *
 * @param {WebAssembly.Module} module
 * @param {string[]} words
 * @param {Uint8Array | Reads} input
 * @param {(descriptor: number, octets: Uint8Array) => unknown} write
 * @returns {number}
 */
export function runModule(module, words, input, write) {
    const encoder = new TextEncoder();
    const line = ["arpasim", ...words].map((word) => encoder.encode(word));
    const reads = typeof input === "function" ? input : readerOf(input);

    /**
     * @param {bigint} address
     * @param {bigint} count
     */
    const memory = (address, count) => new Uint8Array(exported.memory.buffer, Number(address), Number(count));

    const env = {
        /** @type {(descriptor: number, address: bigint, count: bigint) => bigint} */
        read(descriptor, address, count) {
            const piece = descriptor === 0 ? reads(Number(count)) : null;
            if (piece === null) return -1n;
            memory(address, BigInt(piece.length)).set(piece);
            return BigInt(piece.length);
        },
        /** @type {(descriptor: number, address: bigint, count: bigint) => bigint} */
        write(descriptor, address, count) {
            if (descriptor !== 1 && descriptor !== 2) return -1n;
            return write(descriptor, memory(address, count).slice()) === false ? -1n : count;
        },
        /**
         * Puts a word there, as far as there is room, and answers how long it is; -1 for a word that isn't there.
         *
         * @type {(index: bigint, address: bigint, room: bigint) => bigint}
         */
        arg(index, address, room) {
            const word = line[Number(index)];
            if (word === undefined) return -1n;
            const piece = word.subarray(0, Number(room));
            memory(address, BigInt(piece.length)).set(piece);
            return BigInt(word.length);
        },
    };
    const { exports } = new WebAssembly.Instance(module, { env });
    const exported = /** @type {{memory: WebAssembly.Memory, main: (words: number, none: bigint) => number}} */ (
        /** @type {unknown} */ (exports)
    );
    return exported.main(line.length, 0n) & 255;
}
