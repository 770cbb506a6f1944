/** Networks with strangers: what is read of them, what is inside, and what a stranger is made to say. */

import assert from "node:assert/strict";
import { test } from "node:test";

import { choicesFor, partTitle } from "../choices.js";
import { COMMANDS, FIELDS } from "../commands.js";
import { candidates, possible } from "../possible.js";
import { groupsOf } from "../programs.js";
import { isReplay, replay } from "../runs.js";
import { textOfWords } from "../spoken.js";
import { Talk } from "../talk.js";
import { saying } from "../texts.js";
import { readTopology } from "../topology.js";
import { spoken } from "../view/sending.js";
import { waitsOf } from "../waits.js";
import { behind, historyInRounds, historyOf, historyOfText, PATIENT, program, run } from "./examples.js";

const ROW = ["[[imp]]", "id = 1", "hosts = 1", "[[imp]]", "id = 2", "hosts = 2", "foreign = [1]"];
const STRANGERS = ["[[imp]]", "id = 1", "hosts = 1", "foreign = [0]", ...ROW.slice(3)];
const JOINED = ["[[line]]", "a = 1", "b = 2"];
const RST = "out 1/2 0/1 0 48 00080001000C";

/**
 * A script between two IMPs, of which the second has a stranger.
 *
 * @param {string[]} script
 */
function inputOf(script) {
    return [...ROW, ...JOINED, "%", ...script, ""].join("\n");
}

/** @param {string[]} script */
function among(script) {
    return historyOfText(inputOf(script));
}

test("a topology names strangers", () => {
    assert.deepEqual(readTopology(ROW.join("\n")).strangers, ["1/2"]);
    assert.deepEqual(readTopology(ROW.slice(0, 6).join("\n")).strangers, []);
});

test("over a subnet each event has its lines and what it left, and a stranger takes only where the script says", async () => {
    const history = await among(["calm 2", RST, "calm 2", "take 1/2", "take 1/2", "calm 1", "contact 1/2 0/1"]);
    const { moments, cut } = history.replay;
    assert.equal(cut, "");
    const words = (/** @type {number} */ event) => moments.filter((it) => it.event === event).map((it) => it.words[0]);
    assert.deepEqual([1, 3, 4, 6].map(words), [["out"], ["take"], ["take"], ["contact"]]);
    assert.deepEqual(words(2).filter((it) => it === "take" || it === "offer"), ["take", "offer"]);
    assert(words(2).includes("deliver"));
    const at = moments.findIndex((it) => it.event === 3);
    assert.equal(history.at(at).box("1/2")?.answers.length, 1);
    assert.equal(history.at(at + 2).box("1/2")?.messages.length, 0);
    assert.deepEqual(moments[moments.length - 1].printed, ["refused NoProgram"]);
});

test("what happens within rounds comes to what the trace of whole rounds has", async () => {
    const more = ["out 0/1 1/2 0 0 -", "take 1/2", "hostdown 1/2", "calm 3", "contact 0/1 1/2", "calm 4"];
    const script = ["calm 2", RST, "calm 2", ...more];
    const history = await among(script);
    const inRounds = await historyInRounds(inputOf(script));
    assert(inRounds.replay.moments.some(({ words }) => words[0] === "quiet"));
    assert(!history.replay.moments.some(({ words }) => words[0] === "quiet"));
    script.forEach((line, event) => {
        const [one, other] = [history, inRounds].map((it) => it.at(behind(it, event)).parts);
        assert.deepEqual(one, other, line);
    });
});

test("mailboxes and what hosts with programs hold are shown, and of a stranger what waits for it", async () => {
    const plain = ['carrier = "plain"', ...ROW, "%", RST, "calm 1", ""].join("\n");
    const history = await historyOfText(plain);
    const state = history.at(history.length);
    assert.deepEqual(state.box("1/2")?.messages.map(({ flow }) => flow), ["0/1 1/2 0"]);
    const talk = new Talk(history.replay).goTo(history.length);
    assert.deepEqual(groupsOf(state, talk, "0/1").map(({ cells }) => cells[0]), [["reset", "ready"]]);
    assert.deepEqual(groupsOf(state, talk, "1/2"), []);
});

test("who contacts a stranger waits for its RRP, and not for it to start, unless it is down", async () => {
    const script = ["calm 2", "contact 0/1 1/2", "calm 2"];
    const whyOf = async (/** @type {string[]} */ lines) => {
        const history = await among(lines);
        const waits = waitsOf(history.at(history.length), new Talk(history.replay).goTo(history.length));
        return waits.filter(({ what }) => what.includes("contact")).map((it) => [it.for, it.bad]);
    };
    const taken = [...script, "calm 4", "take 1/2", "calm 6"];
    assert.deepEqual(await whyOf(taken), [["the RRP of host 1/2, a stranger", false]]);
    assert.deepEqual(await whyOf([...taken, "hostdown 1/2"]), [["host 1/2, which is down", true]]);
    const [[why, isBad]] = await whyOf([...script, "hostdown 1/2"]);
    assert(!isBad && /its RST/.test(String(why)), "what is under way comes first");
});

test("a calm ends with its rest; while a message has no place at a stranger's IMP it lasts, and is shown in part", async () => {
    const calm = "calm 4294967295";
    const history = await among(["calm 3", "contact 0/1 1/2", calm]);
    assert.equal(history.replay.cut, "");
    assert(history.length > 5);
    // 16 messages can wait for a host
    const many = Array.from({ length: 17 }, (_, link) => `out 0/1 1/2 ${link} 0 -`);
    const waiting = [...STRANGERS, ...JOINED, "%", "calm 3", ...many, calm, ""].join("\n");
    /** @type {typeof run} */
    const hasty = (words, input, limits, heard) => {
        const isLong = words[0] === "--trace" && new TextDecoder().decode(input).includes(calm);
        return run(words, input, { ...limits, seconds: isLong ? 1 : limits.seconds }, heard);
    };
    const stopped = await replay(hasty, waiting, PATIENT);
    assert(isReplay(stopped));
    assert(/is shown as `calm 60`\.$/.test(stopped.cut), stopped.cut);
    assert(stopped.moments.length > 0);
    const seen = new Set(stopped.moments.map(({ event }) => event));
    assert.deepEqual([...seen].slice(0, 18), [...Array(18).keys()], "what was before the calm is shown");
    assert(/`calm 4294967295` in line 19 is shown as `calm 60`/.test(stopped.cut), stopped.cut);
});

test("a stranger is asked what it sends, and hosts with programs aren't", async () => {
    const history = await among(["calm 2"]);
    const talk = new Talk(history.replay).goTo(history.length);
    const state = history.at(history.length);
    const of = (/** @type {string} */ host) => choicesFor(state, talk, { kind: "host", host });
    const titles = ["1/2", "0/2"].map((host) => partTitle(state, { kind: "host", host }));
    assert.deepEqual(titles, ["Host 1/2 (a stranger)", "Host 0/2"]);
    assert.deepEqual(of("1/2").filter((it) => it.asks).length, 1);
    assert(of("1/2").some(({ lines }) => lines[0] === RST));
    assert(!of("1/2").some(({ lines }) => /^(?:offer|contact)/.test(lines[0] ?? "")));
    assert(!of("0/2").some((it) => it.asks) && of("0/2").some(({ lines }) => lines[0] === "contact 0/2 0/1"));
    const found = await possible(program.batch, history, history.length, candidates(state, talk));
    assert(found.possible.some(({ line }) => line === RST));
    const raw = await historyOf("first-message");
    assert(raw && !choicesFor(raw.at(0), new Talk(raw.replay), { kind: "host", host: "0/1" }).some((it) => it.asks));
});

test("commands, data and octets are the text of a message", () => {
    /** @type {[string, number, string][]} */
    const rows = [
        ["rst", 48, "00080001000C"],
        ["RTS 16 33 2", 120, "0008000A0001000000100000002102"],
        ["ALL 2 10 1000, NOP", 112, "000800090004020" + "00A000003E800"],
        ["ECO 255, ECO 0", 72, "00080004000" + "9FF0900"],
        ["data 8 4C4F", 56, "00080002004C4F"],
        ["data 16 4c 4f", 56, "00100001004C4F"],
        ["0008 0001 000c", 48, "00080001000C"],
        ["", 0, "-"],
    ];
    for (const [words, bits, octets] of rows) assert.deepEqual(textOfWords(words), { bits, octets }, words);
    assert.equal(saying(false, 0, 120, "0008000A0001000000100000002102"), "RTS 16 from 33 on link 2");
});

test("what is no text is said to be none, and why", () => {
    const rows = [
        ["HELLO", /is no command/],
        ["RTS 16 33", /RTS has 3 numbers, and here 2/],
        ["ECO 256", /“256” is no number/],
        ["CLS 1 4294967296", /“4294967296” is no number/],
        ["data 0 4C", /bytes of 1 to 255 bits/],
        ["data 8 4", /two hexadecimal digits/],
        ["data 16 4C", /no whole bytes of 16 bits/],
        ["00".repeat(1008), /at most 8063 bits/],
    ];
    for (const [words, why] of /** @type {[string, RegExp][]} */ (rows)) {
        const found = textOfWords(words);
        assert(typeof found === "object" && "why" in found, words);
        assert(why.test(found.why), found.why);
    }
    assert.deepEqual(spoken("0/1", "256", "RST", "1/2"), { why: "A link is a number from 0 to 255." });
    assert.deepEqual(spoken("0/1", "0", "RST", "1/2"), { line: RST, said: "RST" });
});

test("each command has as many octets as its numbers and its code", () => {
    for (const { name, length } of COMMANDS) {
        assert.equal(1 + FIELDS[name].reduce((sum, it) => sum + it, 0), length, name);
    }
});
