/**
 * The program in a page: the packer (workshop.wasm.pack) puts the module and the worker into data blocks, which
 * the page opens without a request.
 */

import { block, unpacked, unpackedText } from "./packed.js";
import { makeRunner } from "./runner.js";

/** @typedef {import("./runner.js").Runner} Runner */

/**
 * What a module says of itself, in a section that is made with it (workshop.wasm.make).
 *
 * @typedef {object} Note
 * @property {boolean} proved whether it is the module of a proved program
 * @property {string} mark the mark that the compiler left
 * @property {string} sources the hash of the sources that it was built of, as tools/kept-program computes it
 * @property {string} toolchain the version of the toolchain
 */

/**
 * The examples of the page.
 *
 * @returns {Promise<{name: string, title: string, text: string}[]>}
 */
export async function examplesInPage() {
    return JSON.parse(await unpackedText(block("examples")));
}

/**
 * What a module says of itself. A module that says nothing is taken for one that isn't proved.
 *
 * @param {WebAssembly.Module} module
 * @returns {Note}
 */
export function noteOf(module) {
    const unknown = { proved: false, mark: "none", sources: "unknown", toolchain: "unknown" };
    const [note] = WebAssembly.Module.customSections(module, "arpasim");
    return note ? { ...unknown, ...JSON.parse(new TextDecoder().decode(note)) } : unknown;
}

/**
 * Makes a runner of the program in the page, and reads its note.
 *
 * @returns {Promise<{runner: Runner, note: Note}>}
 */
export async function embedded() {
    const module = await WebAssembly.compile(await unpacked(block("program")));
    const address = URL.createObjectURL(new Blob([block("worker")], { type: "text/javascript" }));
    return { runner: makeRunner(module, () => new Worker(address)), note: noteOf(module) };
}
