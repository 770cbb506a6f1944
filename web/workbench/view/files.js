/** Files: the script is saved as one, and another one is opened. */

import { MOST_READ } from "../octets.js";
import { h } from "./dom.js";

/**
 * Has the browser save a text.
 *
 * @param {string} text
 * @param {string} name
 * @param {string} [type]
 */
export function saveText(text, name, type = "text/plain") {
    const address = URL.createObjectURL(new Blob([text], { type }));
    h("a", { href: address, download: name }).click();
    URL.revokeObjectURL(address);
}

/**
 * The text of a file, or why it isn't opened.
 *
 * @param {File} file
 * @returns {Promise<string | {why: string}>}
 */
export async function textOfFile(file) {
    if (file.size > MOST_READ) return { why: `has ${file.size} octets, and this page opens at most ${MOST_READ}: arpasim itself reads it.` };
    const octets = await file.arrayBuffer().catch(() => null);
    if (!octets) return { why: "can't be read: it is a folder, or has changed or gone since it was chosen." };
    try {
        return new TextDecoder("utf-8", { fatal: true }).decode(octets);
    } catch {
        return { why: "is not UTF-8, so it is not opened. Save it as UTF-8 first." };
    }
}
