/** The module in the page of a release, for Node: it is taken only as the note beside the page names it. */

import { createHash } from "node:crypto";
import { existsSync, readFileSync } from "node:fs";
import { gunzipSync } from "node:zlib";

import { octetsOf } from "./base85.js";

/** Why there is no module. */
export class Refused extends Error {}

/** Where the page of a release is, seen from this file: in a package, and in the repository. */
const FOLDERS = ["../", "../../released/"].map((it) => new URL(it, import.meta.url));
const BEGIN = '<script type="application/octet-stream" id="program">';

/**
 * The octets of the module that a page holds.
 *
 * @param {string} page
 * @returns {Uint8Array}
 */
function heldBy(page) {
    const from = page.indexOf(BEGIN) + BEGIN.length;
    if (from < BEGIN.length) throw new Refused("dorydate.html holds no program");
    try {
        return gunzipSync(octetsOf(page.slice(from, page.indexOf("<", from))));
    } catch {
        throw new Refused("dorydate.html was changed: what it holds is no program");
    }
}

/**
 * The module of the release that this file is part of.
 *
 * @returns {WebAssembly.Module}
 */
export function releasedModule() {
    const folder = FOLDERS.find((it) => existsSync(new URL("dorydate.html", it)));
    if (!folder) throw new Refused("there is no dorydate.html, which holds the program");
    const note = JSON.parse(readFileSync(new URL("note.json", folder), "utf8"));
    const octets = heldBy(readFileSync(new URL("dorydate.html", folder), "latin1"));
    const found = createHash("sha256").update(octets).digest("hex");
    if (found !== note.module) {
        const hashes = `its program has the hash ${found.slice(0, 16)}.., and note.json names another`;
        throw new Refused(`dorydate.html was changed: ${hashes}`);
    }
    return new WebAssembly.Module(octets);
}
