/** What a page holds: blocks of data, of which most are packed (python/workshop/wasm/pack.py). */

import { octetsOf } from "./base85.js";

/**
 * The text of a data block of the page.
 *
 * @param {string} id
 * @returns {string}
 */
export function block(id) {
    const element = document.getElementById(id);
    if (!element) throw new Error(`the page has no block ${id}`);
    return element.textContent ?? "";
}

/**
 * Opens what gzip packed and base85 spelled.
 *
 * @param {string} text
 * @returns {Promise<ArrayBuffer>}
 */
export async function unpacked(text) {
    const packed = new Blob([octetsOf(text)]);
    return new Response(packed.stream().pipeThrough(new DecompressionStream("gzip"))).arrayBuffer();
}

/**
 * The text that gzip packed and base85 spelled.
 *
 * @param {string} text
 */
export async function unpackedText(text) {
    return new TextDecoder().decode(await unpacked(text));
}
