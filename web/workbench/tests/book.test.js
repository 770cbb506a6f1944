/** What the promise says of lives and messages: as ./explain --book says it, and by the names of sites. */

import assert from "node:assert/strict";
import { readFileSync } from "node:fs";
import { test } from "node:test";

import { Book } from "../book.js";
import { entriesOf, saidOf } from "../promised.js";

/** @typedef {{log: string, entries: string[], said: {[line: string]: string[]}}} Told what ./explain --book says of a log */

/** @type {Told[]} as `./check workbench` gives them */
const told = process.env.STATES ? JSON.parse(readFileSync(process.env.STATES, "utf8")).books : [];

const root = new URL("../../../", import.meta.url).pathname;
const octets = readFileSync(`${root}logs/two-octets`, "utf8");
const itself = (/** @type {string} */ host) => host;

/**
 * What is said of a line, as ./explain prints it.
 *
 * @param {string} log
 * @param {number} line
 * @param {(host: string) => string} [names]
 */
function printed(log, line, names = itself) {
    const found = saidOf(new Book(log), line, names);
    return found ? [found.title, ...found.said.map((it) => `  ${it.clause}: ${it.sentence}`)] : null;
}

test("each life and each message of data may be touched, and no other line", () => {
    assert.deepEqual(entriesOf(new Book(octets), itself).map((it) => it.line), [13, 14, 10]);
    assert.equal(printed(octets, 3), null);
    assert.equal(printed(octets, 15), null);
    assert.equal(printed(octets, 0), null);
    assert.deepEqual(printed(octets, 11), printed(octets, 10));
});

test("clauses speak of a life, by the names of its sites", () => {
    const names = (/** @type {string} */ host) => (host === "0/1" ? "UCLA" : "SRI");
    assert.deepEqual(printed(octets, 13, names)?.slice(0, 2), [
        "line 13: socket 16 of UCLA, which receives from socket 33 of SRI: 1 message, 16 bits, open",
        "  promise.formed.own: Its own request went out in line 1: RTS 16 from 33 on link 5.",
    ]);
    const said = [13, 10].flatMap((line) => printed(octets, line, names)).join("\n");
    assert(/arrived.all: It is open, and counts all 1 message that came in/.test(said));
    assert(/contacts: .* with UCLA since SRI last sent there or stopped/.test(said));
});

test("what a life counts is told before and after its end", () => {
    const stopped = octets.replace("0 0 0 0 open", "0 0 0 0 stopped");
    const before = stopped.replace("life 0/1", "down 0/2\nlife 0/1");
    const after = stopped.replace("out 0/2 0/1 5", "down 0/2\nup 0/2\nout 0/2 0/1 5");
    const within = (/** @type {string} */ log, /** @type {number} */ line) =>
        printed(log, line)?.find((it) => it.startsWith("  promise.within:"));
    assert(/ended it crossed in line 13, after all that it counts: 1 message/.test(within(before, 15) ?? ""));
    assert(/ended it crossed in line 10, and it counts what crossed later, in line 12/.test(within(after, 16) ?? ""));
});

test("what a life sent is told beside what ALLs grant", () => {
    const granted = (/** @type {string} */ log) => printed(log, 14)?.find((it) => it.startsWith("  promise.granted:"));
    assert(/no more than the 1 message and 100 bits that .* grant on link 5/.test(granted(octets) ?? ""));
    const other = octets.replaceAll("0008000405000100000064", "0008000406000100000064");
    assert(/more than the 0 messages and 0 bits that .* grant on link 5/.test(granted(other) ?? ""));
});

test("a message of data is told with the two lives between which it went", () => {
    const between = (/** @type {string} */ log) => printed(log, 10)?.find((it) => it.startsWith("  promise.between:"));
    assert(/from the life of line 14 to that of line 13, which matches it/.test(between(octets) ?? ""));
    const untaken = octets.replace(/life 0\/1 .*\n/, "").replace("handed 0 -\n", "");
    assert(/No receiving life matches the life of line 13, which counts it/.test(between(untaken) ?? ""));
    const unsent = octets.replace(/life 0\/2 .*\n/, "").replace("handed 24 484950\n", "");
    assert(/No sending life counts it/.test(between(unsent) ?? ""));
});

test("a bit that was changed, and a message that was passed over, are said", () => {
    const other = octets.replace("open 4849\nlife", "open 4848\nlife");
    assert.deepEqual(printed(other, 13)?.filter((it) => /formed|streams/.test(it)), [
        "  promise.formed: It isn't made of messages that crossed.",
        "  promise.safe.streams.source: What it took is no prefix of what one life that it matches sent.",
    ]);
    const none = octets.replace("receive 1 16", "receive 0 0").replace("open 4849\nlife", "open -\nlife");
    assert(/It counts 0 messages of the 1 that came in on its link/.test(printed(none, 13)?.join("\n") ?? ""));
    assert(/The life of line 13, which that matches, doesn't count it/.test(printed(none, 10)?.join("\n") ?? ""));
});

test("./explain --book says the same of each life and message of books, whole and broken", () => {
    let lines = 0;
    for (const { log, entries, said } of told) {
        const book = new Book(log);
        assert.deepEqual(entriesOf(book, itself).map((it) => it.title), entries);
        for (const [line, words] of Object.entries(said)) {
            assert.deepEqual(printed(log, Number(line)), words, `line ${line} of\n${log}`);
            lines += 1;
        }
    }
    assert(!told.length || lines > 500, String(lines));
});
