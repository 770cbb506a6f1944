/** What users ask for is told by names and letters, and in the words of ./explain. */

import assert from "node:assert/strict";
import { readFileSync } from "node:fs";
import { test } from "node:test";

import { isDeed } from "../deeds.js";
import { sentenceOf } from "../sentences.js";
import { exampleNames, historyOf, historyOfText, twoImps } from "./examples.js";

/** @type {{[example: string]: {[line: string]: string}}} what ./explain says, as `./check workbench` gives it */
const told = process.env.STATES ? JSON.parse(readFileSync(process.env.STATES, "utf8")).deeds : {};

/**
 * What is said of the deeds of a history that were not refused, each with its line.
 *
 * @param {import("../fold.js").History} history
 */
function deeds(history) {
    const { moments, input } = history.replay;
    return moments.flatMap(({ words, printed, event }, at) => {
        if (!isDeed(words[0]) || printed[0]?.startsWith("refused ")) return [];
        return [{ line: input.events[event].line, said: sentenceOf(history, at) }];
    });
}

test("the letters of LOGIN are typed, by the names of the sites", async () => {
    const history = await historyOf("lo-of-login");
    assert(history);
    const said = deeds(history).map((it) => it.said);
    const typed = said.filter((it) => it.includes(" types "));
    const words = "for socket 33. A grant allows them, and they go out when UCLA offers.";
    assert.deepEqual(typed, [
        ...["L", "O", "G"].map((letter) => `UCLA's user types “${letter}”: 8 bits ${words}`),
        `UCLA's user types “LOGIN”: 40 bits ${words}`,
    ]);
    assert(said.some((it) => it.startsWith("SRI's user grants 10 messages and 80 bits on socket 16")), said.join("\n"));
});

test("what becomes of bits is told: no grant, in part, a message without its answer", async () => {
    const open = ["calm 2", "contact 0/1 0/2", "calm 6", "listen 0/2 16 8", "opensend 0/1 0/2 33 16 8"];
    const rows = /** @type {[string[], string][]} */ ([
        [["calm 6"], "No grant allows them yet: 0 messages and 0 bits are left of it."],
        [["calm 6", "grant 0/2 16 2 20", "calm 3"], "The grant allows 16 bits of them, which go out when host 0/1 offers."],
        [["calm 6", "grant 0/2 16 9 99", "calm 3"], "A grant allows them, and they go out when host 0/1 offers."],
        [
            ["calm 6", "grant 0/2 16 9 99", "calm 3", "send 0/1 33 8 41", "offer 0/1"],
            "They wait for the answer to the message on link 2 that is out.",
        ],
    ]);
    for (const [more, words] of rows) {
        const script = twoImps([...open, ...more, "send 0/1 33 24 414243"]).replace("raw = true\n", "");
        const said = deeds(await historyOfText(script)).pop()?.said ?? "";
        assert.equal(said, `Host 0/1's user types “ABC”: 24 bits for socket 33. ${words}`);
    }
});

test("each deed has a sentence of its own in every example, and ./explain says the same", async () => {
    let found = 0;
    for (const name of exampleNames()) {
        const history = await historyOf(name);
        for (const { line, said } of history ? deeds(history) : []) {
            assert(!/notes what its user/.test(said) && said.length > 20, `${name}, line ${line}: ${said}`);
            const other = told[name]?.[line];
            if (other === undefined) continue;
            assert(said.startsWith(other), `${name}, line ${line}\n${said}\n${other}`);
            found += 1;
        }
    }
    assert(!process.env.STATES || found > 100, String(found));
});
