#!/usr/bin/env node
/** The command `dorydate` of the package for npm: examples, the page, and the program. */

import { readFileSync, readdirSync } from "node:fs";

const USAGE = `usage: npx dorydate examples [NAME]      lists the examples, or prints one
       npx dorydate page > FILE          writes the workbench, a page for a browser
       npx dorydate run [OPTION..] [FILE]    runs arpasim on a file, or on standard input

Try: npx dorydate examples first-message | npx dorydate run
`;
const HERE = new URL("../", import.meta.url);
const [name, ...words] = process.argv.slice(2);

/** @param {string} text */
function refuse(text) {
    process.stderr.write(text);
    process.exitCode = 1;
}

function examples() {
    const names = readdirSync(new URL("examples/", HERE)).sort();
    if (words.length === 0) process.stdout.write(`${names.join("\n")}\n`);
    else if (words.length === 1 && names.includes(words[0])) {
        process.stdout.write(readFileSync(new URL(`examples/${words[0]}`, HERE), "utf8"));
    } else refuse(`dorydate: there is no example ${words.join(" ")}\n`);
}

if (name === "examples") examples();
else if (name === "page" && words.length === 0) {
    process.stdout.write(readFileSync(new URL("dorydate.html", HERE), "utf8"));
} else if (name === "run") {
    process.argv.splice(2, 1);
    await import("./named.mjs");
} else if (name === "--help") process.stdout.write(USAGE);
else refuse(USAGE);
