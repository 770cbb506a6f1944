/** The address of what one sees: the script in it, compressed, and the place. */

import { TABLE } from "../../python/dorydate/sentences/table.mjs";
import { joined } from "../run/runner.js";
import { nearest } from "./faults.js";
import { MOST_READ } from "./octets.js";
import { filled } from "./words.js";

/**
 * @typedef {object} Place
 * @property {string} [text] the input
 * @property {string} [example] the name of an example, in place of the input
 * @property {number} at the stop
 * @property {string} grain
 * @property {boolean} hidden whether the future is hidden
 * @property {number} to the IMP by whose distance the map is coloured, 0 for none
 */

/**
 * The fragment of an address.
 *
 * @param {Place} place
 * @returns {Promise<string>}
 */
export async function fragment({ text, example, at, grain, hidden, to }) {
    const parts = example ? [`e=${encodeURIComponent(example)}`] : [`s=${await packed(text ?? "")}`];
    if (at) parts.push(`at=${at}`);
    if (grain !== "arrival") parts.push(`g=${grain}`);
    if (hidden) parts.push("hide");
    if (to) parts.push(`to=${to}`);
    return `#${parts.join("&")}`;
}

/**
 * What a fragment says; null where it names neither a script nor an example, "cut" where its script can't be unpacked
 * (mail and chat programs cut long addresses), and "long" where it is longer than the page opens.
 *
 * @param {string} hash
 * @returns {Promise<Place | "cut" | "long" | null>}
 */
export async function placeIn(hash) {
    const parts = new Map(
        hash.replace(/^#/, "").split("&").map(
            (it) => /** @type {[string, string]} */ ([it.split("=")[0], it.split("=").slice(1).join("=")]),
        ),
    );
    const packedText = parts.get("s");
    const example = parts.get("e");
    if (!packedText && !example) return null;
    const number = (/** @type {string} */ name) => Math.max(0, Math.trunc(Number(parts.get(name) ?? 0)) || 0);
    const grain = parts.get("g") ?? "arrival";
    const place = {
        at: number("at"),
        grain: ["event", "arrival", "round"].includes(grain) ? grain : "arrival",
        hidden: parts.has("hide"),
        to: number("to"),
    };
    try {
        if (example) return { ...place, example: decodeURIComponent(example) };
        return { ...place, text: await unpacked(packedText ?? "") };
    } catch (why) {
        return why instanceof TooLong ? "long" : "cut";
    }
}

/** Thrown where what is unpacked is longer than the page opens. */
class TooLong extends Error {}

/** Why an address whose script can't be unpacked isn't opened. */
export const CUT = "The address is cut off or changed, so the script in it can't be opened. Ask for it again as a file, or in "
    + "pieces that no mail program cuts.";

/** Why an address with a script that is too long isn't opened. */
export const LONG = `The script in this address has more than ${MOST_READ} octets, and this page opens no more.`;

/**
 * Why an address with the name of a lesson that there isn't is not opened.
 *
 * @param {string} name
 * @param {string[]} names of the lessons that there are
 */
export function noLesson(name, names) {
    const near = names.find((it) => it.includes(name.replace(/-\w$/, ""))) ?? nearest(name, names);
    return `This page has no lesson ${name}.${near ? ` ${filled(TABLE.faults.meant, { meant: near })}` : ""} Lessons lists all.`;
}

/**
 * A text as deflated octets in base64url.
 *
 * @param {string} text
 */
export async function packed(text) {
    const stream = new Blob([text]).stream().pipeThrough(new CompressionStream("deflate-raw"));
    const octets = new Uint8Array(await new Response(stream).arrayBuffer());
    let letters = "";
    for (const octet of octets) letters += String.fromCharCode(octet);
    return btoa(letters).replace(/\+/g, "-").replace(/\//g, "_").replace(/=+$/, "");
}

/**
 * The text again. It is unpacked piece by piece, since a short address may have a very long one.
 *
 * @param {string} letters
 */
export async function unpacked(letters) {
    const octets = Uint8Array.from(
        atob(letters.replace(/-/g, "+").replace(/_/g, "/")),
        (letter) => letter.charCodeAt(0),
    );
    const stream = new Blob([octets]).stream().pipeThrough(new DecompressionStream("deflate-raw"));
    const reader = stream.getReader();
    /** @type {Uint8Array[]} */
    const pieces = [];
    let left = MOST_READ;
    for (let it = await reader.read(); !it.done; it = await reader.read()) {
        left -= it.value.length;
        pieces.push(it.value);
        if (left >= 0) continue;
        await reader.cancel();
        throw new TooLong();
    }
    return new TextDecoder().decode(joined(pieces));
}
