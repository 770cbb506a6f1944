/** What is said of each event: rows written by hand, and laws over all examples. */

import assert from "node:assert/strict";
import { test } from "node:test";

import { sentenceOf } from "../sentences.js";
import { Talk } from "../talk.js";
import { waitsOf } from "../waits.js";
import { exampleNames, historyOf, historyOfText, twoImps } from "./examples.js";

/** @typedef {import("../fold.js").History} History */

/**
 * The sentence of the first moment at which an event happens; of the last one with `-1`.
 *
 * @param {History} history
 * @param {string} event
 * @param {number} [which]
 */
function saidOf(history, event, which = 0) {
    const found = history.replay.moments.flatMap((it, at) => (it.words.join(" ") === event ? [at] : []));
    return sentenceOf(history, /** @type {number} */ (found.at(which)));
}

/**
 * The history of an example that is replayed.
 *
 * @param {string} name
 */
async function example(name) {
    const history = await historyOf(name);
    assert(history, name);
    return history;
}

test("an IMP with hosts stops, and it is told, with what goes with it", async () => {
    const stopped = saidOf(await example("a-late-duplicate-after-a-restart"), "impdown 1");
    assert.equal(
        stopped,
        "Host 0/1 stops. IMP 1 stops and forgets everything. With it goes host 0/1's message to host 0/2 on link 9. "
            + "Its neighbours don't see it until their ends of its lines go down.",
    );
    for (const name of exampleNames()) {
        const history = await historyOf(name);
        history?.replay.moments.forEach(({ words, printed }, at) => {
            if (words[0] !== "impdown" || printed.some((line) => line.startsWith("refused "))) return;
            const sentence = sentenceOf(history, at);
            assert(/stops and forgets everything/.test(sentence), `${name}: ${sentence}`);
        });
    }
});

test("a host stops while a message waits for it, and the Dead that its IMP sends is told", async () => {
    assert.equal(
        saidOf(await example("a-host-stops-with-a-message"), "hostdown 0/2"),
        "Host 0/2 stops. For it waited host 0/1's message to host 0/2 on link 9. "
            + "IMP 2 sends the Dead for host 0/1's message to host 0/2 on link 9 to IMP 1.",
    );
    const beside = twoImps(["calm 2", "out 0/1 1/1 5 8 41", "hostdown 1/1"]).replace("hosts = 1", "hosts = 2");
    const told = saidOf(await historyOfText(beside), "hostdown 1/1");
    assert(told.endsWith("Dead now waits for host 0/1."), told);
});

test("a copy is said to be dropped for what its IMP has noted of its number", async () => {
    const dropped = async (/** @type {string} */ name) => {
        const history = await example(name);
        return history.replay.moments.flatMap(({ words }, at) => {
            const said = words[0] === "deliver" ? sentenceOf(history, at) : "";
            return /(?:is dropped|it is dropped)/.test(said) ? [said.replace(/^.* over line \d\. /, "")] : [];
        });
    };
    assert.deepEqual(await dropped("a-question-overtakes-its-message"), [
        "Its number was noted as never come when it was asked for, so this copy is dropped, and the answer that it never "
            + "came stays true.",
    ]);
    assert.deepEqual(await dropped("a-destination-that-lags"), [
        "It is older than the last message of its flow that IMP 2 has noted, which is number 4, so it is dropped.",
    ]);
});

test("messages of one flow are told apart by their numbers where two are alive", async () => {
    const history = await example("an-old-frame-acknowledges");
    const said = history.replay.moments.map((_, at) => sentenceOf(history, at));
    const arrives = said.filter((it) => /message.* arrives at/.test(it));
    assert(arrives.length > 3 && arrives.every((it) => /message \d to/.test(it)), arrives.join("\n"));
    assert(new Set(arrives.map((it) => /message (\d)/.exec(it)?.[1])).size > 2, arrives.join("\n"));
    const out = said.filter((it) => /hands its IMP/.test(it)).map((it) => /It is message (\d) of its flow/.exec(it)?.[1]);
    assert.deepEqual(out, out.map((_, at) => String(at)));
    const [wait] = waitsOf(history.at(18), new Talk(history.replay).goTo(18));
    assert(!wait || /message \d to/.test(wait.what), wait?.what);

    const alone = await example("a-repeat-is-taken-once");
    for (const at of alone.replay.moments.keys()) assert(!/message \d/.test(sentenceOf(alone, at)));
});

test("each frame that arrives or goes is told, also where nothing changes", async () => {
    let found = 0;
    for (const name of exampleNames()) {
        const history = await historyOf(name);
        history?.replay.moments.forEach(({ words, printed }, at) => {
            if (!/^(?:deliver|drop)$/.test(words[0]) || printed.length || !history.notes[at].frame) return;
            const sentence = sentenceOf(history, at);
            assert(/ arrives at | is gone from line /.test(sentence), `${name}: ${words.join(" ")}: ${sentence}`);
            found += /Its distances stay as they are/.test(sentence) ? 1 : 0;
        });
    }
    assert(found > 2000, String(found));
});

test("an IMP that sends over another line says to where", async () => {
    const history = await historyOfText(
        ["raw = true", ...[1, 2, 3, 4].flatMap((imp) => ["[[imp]]", `id = ${imp}`, "hosts = 1"])]
            .concat([[1, 2], [1, 3], [2, 4], [3, 4]].flatMap(([a, b]) => ["[[line]]", `a = ${a}`, `b = ${b}`]))
            .concat(["%", "calm 4", "enddown 2 2", "calm 3", ""])
            .join("\n"),
    );
    const said = history.replay.moments.map((_, at) => sentenceOf(history, at));
    const over = said.filter((it) => /It now sends/.test(it));
    assert(over.length > 0 && over.every((it) => /to IMP \d.* by way of IMP \d\.$/.test(it)), over.join("\n"));
});

test("an IMP that claims to be near all does so from its claim until it stops", async () => {
    const history = await example("harvard-tells-lies");
    const { moments } = history.replay;
    const at = (/** @type {string} */ event) => moments.findIndex((it) => it.words.join(" ") === event);
    const [claimed, stopped] = [at("claim 9"), at("impdown 9")];
    assert(0 < claimed && claimed < stopped, `${claimed} ${stopped}`);
    for (const position of [claimed, claimed + 1, stopped, stopped + 1]) {
        const claims = history.at(position).network.sites.map((it) => it.number).filter((it) => history.at(position).claims(it));
        assert.deepEqual(claims, position > claimed && position <= stopped ? [9] : [], `after ${position} moments`);
    }
});
