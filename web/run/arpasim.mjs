#!/usr/bin/env node
/**
 * The program `arpasim` by Node, from the module in the page of a release; with the one word `--many` for many inputs
 * (many.js). named.mjs is the same over an input that may be named.
 */

import { isTooOld } from "./oldest.js";

const words = process.argv.slice(2);
if (isTooOld()) {
    // it is said
} else if (words.length === 1 && words[0] === "--many") {
    import("./many.js");
} else {
    import("./once.js").then((it) => (process.exitCode = it.runOnce(words, 0).status));
}
