/** How the page is arranged, and what it says before it works: by rows written by hand. */

import assert from "node:assert/strict";
import { readFileSync } from "node:fs";
import { test } from "node:test";

import { arrangement } from "../arrangement.js";
import { keepText, storedText } from "../kept.js";
import { lacking, wanting } from "../lacking.js";

const page = readFileSync(new URL("../page.html", import.meta.url).pathname, "utf8");

test("each size has its arrangement", () => {
    const rows = /** @type {[number, number, string, boolean][]} */ ([
        [1440, 900, "wide", false], [1024, 768, "wide", false],
        [720, 450, "mid", false], [1024, 400, "mid", true], [844, 390, "mid", true], [740, 360, "mid", true],
        [640, 320, "mid", true], [512, 384, "mid", true],
        [768, 1024, "narrow", false], [360, 740, "narrow", false],
        [360, 500, "narrow", true], [320, 256, "narrow", true],
    ]);
    for (const [width, height, layout, isLow] of rows) {
        assert.deepEqual(arrangement(width, height), { layout, isLow }, `${width} by ${height}`);
    }
});

test("what a tab keeps is shown by a page that opens alike, and by no other", () => {
    /** @type {Map<string, string>} */
    const kept = new Map();
    const sessionStorage = { getItem: (/** @type {string} */ name) => kept.get(name) ?? null, setItem: kept.set.bind(kept) };
    Object.assign(globalThis, { window: { sessionStorage } });
    assert.equal(storedText(""), null);
    keepText("a script", "first-message", "");
    assert.equal(storedText("45 a saved script"), null);
    assert.deepEqual(storedText(""), { text: "a script", example: "first-message", of: "" });
    kept.set("dorydate", "no JSON");
    assert.equal(storedText(""), null);
});

test("until the first picture the page says that it loads, and without JavaScript what it wants", () => {
    assert(/<p id="sentence"[^>]*>The page loads/.test(page));
    assert(/<noscript>[^]*wants JavaScript and WebAssembly[^]*<\/noscript>/.test(page));
});

test("what a browser lacks is named", () => {
    const all = { WebAssembly: {}, Worker: {}, DecompressionStream: {} };
    assert.deepEqual(lacking(all), []);
    assert.deepEqual(lacking({ ...all, WebAssembly: undefined }), ["WebAssembly"]);
    assert(wanting(["WebAssembly"]).includes("This one lacks WebAssembly, or has it switched off."));
});
