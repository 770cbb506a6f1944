/** What a browser has to have for the page, and what is said where it lacks something. */

/** By the name of each: what it is called for a reader. */
const WANTED = /** @type {{[name: string]: string}} */ ({
    WebAssembly: "WebAssembly",
    Worker: "workers",
    DecompressionStream: "streams that unpack gzip",
});

/**
 * What is wanted and not there.
 *
 * @param {{[name: string]: unknown}} browser the names that a script sees
 * @returns {string[]}
 */
export function lacking(browser) {
    return Object.keys(WANTED).filter((name) => browser[name] === undefined).map((name) => WANTED[name]);
}

/**
 * The sentence for a reader whose browser lacks something.
 *
 * @param {string[]} lacks
 */
export function wanting(lacks) {
    const words = "The workbench wants JavaScript and WebAssembly, of a browser of 2023 or later.";
    return `${words} This one lacks ${lacks.join(" and ")}, or has it switched off.`;
}
