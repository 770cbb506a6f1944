/** Rows written by hand: what waits, what is wrong with a line, what is told of a text, and addresses. */

import assert from "node:assert/strict";
import { readFileSync } from "node:fs";
import { test } from "node:test";

import { faultOf, wrongLine } from "../faults.js";
import { stopsOfFlow, stopsWith } from "../follow.js";
import { MOST_READ } from "../octets.js";
import { headComment, impsNamed, readInput } from "../script.js";
import { sentenceOf } from "../sentences.js";
import { fragment, noLesson, packed, placeIn, unpacked } from "../share.js";
import { stopsOf } from "../stops.js";
import { Talk } from "../talk.js";
import { saying } from "../texts.js";
import { grouped, waitsOf } from "../waits.js";
import { filled } from "../words.js";
import { exampleNames, exampleText, historyOf, historyOfText, run, twoImps } from "./examples.js";
import { isReplay, replay } from "../runs.js";

/** @typedef {import("../fold.js").History} History */

/**
 * What waits at the end of a script.
 *
 * @param {History} history
 */
function waitsAtEnd(history) {
    return waitsOf(history.at(history.length), new Talk(history.replay).goTo(history.length));
}

/**
 * A network of host programs over two IMPs.
 *
 * @param {string[]} script
 */
function programs(script) {
    return twoImps(script).replace("raw = true\n", "");
}

test("a message that was lost for a reset of one end waits for nobody, and is told so", async () => {
    const history = await historyOfText(
        twoImps([
            "calm 2",
            "out 0/1 0/2 5 8 41",
            "calm 4",
            "enddown 1 0",
            "endup 1 0",
            "calm 2",
            "out 0/1 0/2 5 8 42",
            "deliver 0 + 0",
            "calm 20",
        ]),
    );
    const at = history.replay.moments.findIndex((_, place) => history.notes[place].fate === "lost");
    const sentence = sentenceOf(history, at);
    assert(sentence.includes("It never came before"), sentence);
    assert(
        sentence.includes("LOST") && sentence.includes("`enddown 1 0`, `enddown 2 0`, `endup 1 0`, `endup 2 0`"),
        sentence,
    );
    const [wait, ...more] = waitsAtEnd(history);
    assert.deepEqual(more, []);
    assert(wait.bad && wait.for.startsWith("nothing of it is alive"));
    assert.deepEqual(wait.cures, ["ask 0/1 0/2 5", "giveup 0/1 0/2 5"]);
});

test("bits wait for a grant, and it is told how much is left of it", async () => {
    const open = ["calm 2", "contact 0/1 0/2", "calm 6", "listen 0/2 16 8", "opensend 0/1 0/2 33 16 8", "calm 6"];
    const grants = /** @type {[string[], string][]} */ ([
        [[], "0 messages and 0 bits"],
        [["grant 0/2 16 1 4"], "1 message and 4 bits"],
        [["grant 0/2 16 0 80"], "0 messages and 80 bits"],
    ]);
    for (const [grant, left] of grants) {
        const history = await historyOfText(programs([...open, ...grant, "send 0/1 33 8 4C", "calm 6"]));
        const [wait] = waitsAtEnd(history);
        assert(wait && wait.what.startsWith("8 bits on socket 33") && wait.bad, JSON.stringify(wait));
        assert(wait.where.includes(`${left} are left of the grant`), wait.where);
        assert.deepEqual(wait.cures, ["grant 0/2 16 1 8"]);
    }
});

test("a grant that has not come yet is waited for, and a typed line waits for the grant of a service", async () => {
    const open = ["calm 2", "contact 0/1 0/2", "calm 6", "listen 0/2 16 8", "opensend 0/1 0/2 33 16 8", "calm 6"];
    const granted = await historyOfText(programs([...open, "grant 0/2 16 1 8", "send 0/1 33 8 4C"]));
    const [wait] = waitsAtEnd(granted);
    assert.deepEqual([wait.for, wait.bad, wait.cures], ["the grant of host 0/2 to come (ALL)", false, ["calm 1"]]);
    assert(wait.where.includes("0 messages and 0 bits are left of the grant"), wait.where);

    const begun = ["calm 2", "server 0/2 7 100", "contact 0/1 0/2", "calm 20", "user 0/1 0/2 7 16", "calm 80"];
    const typed = (/** @type {string[]} */ ...lines) => historyOfText(programs([...begun, ...lines]));
    assert.deepEqual(waitsAtEnd(await typed()), []);
    const [ready] = waitsAtEnd(await typed("type 0/1 HELLO"));
    assert(ready.what.startsWith("56 bits on socket 19") && ready.for === "host 0/1 to offer", JSON.stringify(ready));
    assert(ready.where.includes("service; 4 messages and 4096 bits are left of the grant"), ready.where);
    const long = Array.from({ length: 6 }, () => `type 0/1 ${"A".repeat(100)}`);
    const waits = waitsAtEnd(await typed(...long, "offer 0/1"));
    const rest = waits.find((it) => it.what.startsWith("800 bits on socket 19"));
    assert(rest?.for === "a grant of host 0/2's service" && !rest.bad, JSON.stringify(waits));
    assert(rest.where.includes("3 messages and 0 bits are left of the grant"), rest.where);
});

test("an initial connection is waited for until it is complete or has failed", async () => {
    const contact = ["calm 2", "contact 0/1 0/2", "calm 20", "user 0/1 0/2 7 16"];
    const asked = waitsAtEnd(await historyOfText(programs(contact)));
    assert.deepEqual(asked.map((it) => [it.what, it.for, it.bad]), [
        ["the initial connection of host 0/1 with host 0/2", "host 0/1 to offer: its RTS hasn't gone out yet", false],
    ]);
    assert.deepEqual(waitsAtEnd(await historyOfText(programs([...contact, "calm 20"]))), []);
});

test("what an echo service took waits for its host to offer, and then no longer", async () => {
    const begun = ["calm 2", "server 0/2 7 100", "contact 0/1 0/2", "calm 20", "user 0/1 0/2 7 16", "calm 80"];
    const history = await historyOfText(programs([...begun, "type 0/1 HELLO", "calm 12"]));
    const talk = new Talk(history.replay);
    const at = history.replay.moments.findIndex(
        (moment) => moment.printed.some((line) => line.startsWith("arrived 0/2 100")),
    );
    const waits = waitsOf(history.at(at + 1), talk.goTo(at + 1));
    const echo = waits.find((it) => it.what.startsWith("56 bits on socket 101"));
    assert(
        echo && echo.for === "host 0/2 to offer" && echo.where.includes("service; 4 messages and 4096 bits"),
        JSON.stringify(waits),
    );
    assert.deepEqual(waitsAtEnd(history), []);
});

test("a contact that never ends is told, and that nothing of its message is alive", async () => {
    const history = await historyOfText(
        programs([
            "calm 2",
            "contact 0/1 0/2",
            "calm 10",
            "impdown 2",
            "calm 3",
            "forget 1 2",
            "impup 2",
            "hostup 0/2",
            "calm 10",
            "contact 0/1 0/2",
            "calm 20",
        ]),
    );
    const waits = waitsAtEnd(history);
    assert(waits.some((it) => it.what.includes("contact")), JSON.stringify(waits));
    assert(waits.some((it) => it.for.startsWith("nothing of it is alive")), JSON.stringify(waits));
});

test("an IMP that is down while its neighbours' ends are up is told", async () => {
    const history = await historyOfText(twoImps(["calm 2", "impdown 2", "out 0/1 0/2 5 8 41", "calm 20"]));
    const wait = waitsAtEnd(history).find((it) => it.what.includes("neighbours don't see it"));
    assert(wait?.bad);
    assert.deepEqual(wait.cures, ["enddown 1 0"]);
});

test("the sixteen messages of the lockup are two rows", async () => {
    const history = await historyOf("reassembly-lockup");
    assert(history);
    const at = history.replay.moments.findIndex(
        (moment) => moment.words.join(" ") === "enddown 1 0" || moment.words[0] === "enddown",
    );
    const waits = waitsOf(history.at(at), new Talk(history.replay).goTo(at));
    assert.deepEqual(grouped(history.network, waits).map((it) => it.count), [8, 8]);
});

test("a message that has come to its host's IMP is said to wait there, and not to be in transit", async () => {
    const history = await historyOfText(twoImps(["calm 2", "out 0/1 0/2 5 8 41", "deliver 0 + 0", "drop 0 + 0"]));
    const [wait, ...more] = waitsAtEnd(history);
    assert.deepEqual(more, []);
    assert.deepEqual([wait.where, wait.for, wait.bad], ["IMP 2", "host 0/2 to take it", false]);
});

/** A script whose last event is refused, and words of the cause. */
const REFUSED = /** @type {[string[], string][]} */ ([
    [["abandon 0/1 0/2 9"], "IMP 2 holds no pieces"],
    [["impdown 2", "abandon 0/1 0/2 9"], "IMP 2 is down"],
    [["abandon 0/1 3/2 9"], "no host 3/2"],
    [["giveup 0/1 0/2 9"], "No message is outstanding on link 9"],
    [["enddown 1 7"], "Line 7 does not end at IMP 1"],
    [["impup 1"], "up already"],
]);

test("each refusal has its own cause", async () => {
    for (const [script, words] of REFUSED) {
        const history = await historyOfText(twoImps(["calm 2", ...script]));
        const sentence = sentenceOf(history, history.length - 1);
        assert(sentence.startsWith("Refused: ") && sentence.includes(words), `${script}: ${sentence}`);
    }
});

/** @type {{[input: string]: string[]}} of inputs whose last event is refused as NotOpen what ./explain says of it, as `./check workbench` gives it */
const notOpen = process.env.STATES ? JSON.parse(readFileSync(process.env.STATES, "utf8"))["not open"] : {};

test("of a connection that isn't open it is said what ./explain says", async () => {
    const found = Object.entries(notOpen);
    for (const [input, told] of found) {
        const history = await historyOfText(input);
        assert.equal(sentenceOf(history, history.length - 1), ["Refused:", ...told].join(" "), input);
    }
    assert(!process.env.STATES || found.length > 7, String(found.length));
});

/** A line, and words of the fault that is meant. */
const BAD_LINES = /** @type {[string, string][]} */ ([
    ["jump", "is not an event"],
    ["tak 0/1", "Is `take` meant?"],
    ["Take 0/1", "Is `take` meant?"],
    ["cut 3", "cut by `enddown I L` at both of its IMPs"],
    ["receive 0/1", "by `take H`"],
    ["connect 0/1 0/2", "this network has `raw = true`"],
    ["%", "A second one is not an event"],
    ["take 0/1\r", "carriage return"],
    ["take\t0/1", "not printable ASCII"],
    ["take  0/1", "single spaces"],
    ["take 0/1 ", "single spaces"],
    ["take", "needs 1 word after it: take H. This line has 0"],
    ["take 1", "`1` is not a host"],
    ["take 4/1", "the host's number is 0 to 3"],
    ["out 1/0 2/0 5 8 41", "the IMP's number is 1 to 63. Is `0/1` meant?"],
    ["take 00/1", "without leading zeros"],
    ["calm 2 # settle", "A comment has a line of its own"],
    ["calm 4294967296", "is 0 to 4294967295"],
    ["out 0/1 0/2 5 24 \"ABC\"", "is `24 414243`"],
    ["out 0/1 0/2 5 8 ff", "lower-case"],
    ["out 0/1 0/2 5 7 FF", "A text of 7 bits has 1 bit of its last octet unused"],
    ["out 0/1 0/2 5 0 00", "`0 -`"],
    ["deliver 0 * 0", "not a direction"],
    ["offer 0/1", "networks with host programs"],
]);

test("each bad line has its cause, and the program refuses it", async () => {
    for (const [line, words] of BAD_LINES) {
        const why = wrongLine(line, true);
        assert(why?.includes(words), `${line}: ${why}`);
        const outcome = await replay(run, twoImps([line]));
        assert(!isReplay(outcome) && faultOf(outcome).line === 12, line);
    }
    assert(wrongLine("echo 0/1 0/2 0xFF", false)?.includes("decimal"));
    assert(wrongLine("type 0/1", false)?.includes("one space after the host"));
});

test("each bad network has its cause and its line", async () => {
    const good = twoImps([]);
    for (const [from, to, words, line] of /** @type {[string, string, string, number][]} */ ([
        ["raw = true", "rawe = true", "Is `raw` meant?", 1],
        ["hosts = 1\n[[line]]", "hosts = 5\n[[line]]", "from 0 to 4", 7],
        ["b = 2", "b = 3", "does not join two different IMPs", 8],
        ["id = 2", "id = 1", "Two IMPs have the `id` 1", 6],
        ["raw = true\n[[imp]]\nid = 1", "[[imp]]\nraw = true\nid = 1", "Put it before the first `[[`", 2],
        ["\n%\n", "\n% \n", "not even a space", 11],
    ])) {
        const outcome = await replay(run, good.replace(from, to));
        assert(!isReplay(outcome), to);
        const fault = faultOf(outcome);
        assert(fault.text.includes(words), `${to}: ${fault.text}`);
        assert.equal(fault.line, line, `${to}: ${fault.text}`);
    }
});

test("the holes of a sentence are filled", () => {
    const holes = { host: "host 0/1", ours: "Sites", bits: 1, octets: 2 };
    assert.equal(
        filled("{Host} has {bits bit} in {octets octet} of {host's} {bits}.", holes),
        "Host 0/1 has 1 bit in 2 octets of host 0/1's 1.",
    );
    assert.equal(filled("{Ours's} and {ours's}", holes), "Sites' and Sites'");
    assert.throws(() => filled("{who} is it?", holes), RangeError);
});

test("what texts say", () => {
    assert.equal(saying(true, 5, 24, "414243"), "“ABC”");
    assert.equal(saying(true, 5, 3, "A0"), "A0");
    assert.equal(saying(false, 0, 48, "00080001000C"), "RST");
    assert.equal(saying(false, 0, 120, "0008000A0001000000100000002105"), "RTS 16 from 33 on link 5");
    assert.equal(saying(false, 0, 120, "0008000A0002000000210000001008"), "STR 33 to 16, bytes of 8 bits");
    assert.equal(saying(false, 5, 48, "00080001004C"), "“L”");
});

test("a message is followed, and steps are found by a text", async () => {
    const history = await historyOf("arpanet-of-december-1969");
    assert(history);
    const stops = stopsOf(history, "arrival");
    const followed = stopsOfFlow(history, stops, "0/1 0/4 5").map((place) => stops[place].event);
    assert.equal(history.replay.input.events[followed[0]].text, "out 0/1 0/4 5 32 55434C41");
    assert(followed.length > 60 && followed.every((event, at) => at === 0 || event >= followed[at - 1]));
    assert.deepEqual(stopsWith(history, stops, "ENDDOWN 2 3").map((place) => stops[place].event), [8]);
    assert.deepEqual(stopsWith(history, stops, "no such thing"), []);
});

/** Node has what packs addresses from 20.12 on, and browsers since 2023. */
function packs() {
    try {
        return Boolean(new CompressionStream("deflate-raw"));
    } catch {
        return false;
    }
}

const old = packs() ? false : "this Node has no deflate-raw";

test("an address brings the same text, step and view elsewhere", { skip: old }, async () => {
    const text = twoImps(["calm 2", "# ä comment", "out 0/1 0/2 5 8 41"]);
    const place = { at: 3, grain: "round", hidden: true, to: 2 };
    assert.deepEqual(await placeIn(await fragment({ ...place, text })), { ...place, text });
    assert.deepEqual(
        await placeIn(await fragment({ ...place, example: "lo-of-login" })),
        { ...place, example: "lo-of-login" },
    );
    assert.equal(await unpacked(await packed(text)), text);
    const whole = await fragment({ ...place, text });
    assert.equal(await placeIn(whole.slice(0, whole.indexOf("&") - 9)), "cut");
    assert.equal(await placeIn("#s=not-deflated"), "cut");
    const [most, more] = await Promise.all([MOST_READ, 2 * MOST_READ].map((count) => packed("a".repeat(count))));
    assert.equal((await unpacked(most)).length, MOST_READ);
    assert.equal(await placeIn(`#s=${more}`), "long");
    assert.equal(await placeIn("#e=%E0%A4"), "cut");
    assert(noLesson("late-seventies-x", exampleNames()).includes("Is `arpanet-of-the-late-seventies` meant?"));
    assert(noLesson("lo-of-logn", exampleNames()).includes("Is `lo-of-login` meant?"));
    assert.equal(await placeIn("#step-24"), null);
});

test("a file's own words are those at its head, and no comment of its script", () => {
    assert.equal(headComment(readInput(exampleText("first-message"))), "");
    assert(headComment(readInput(exampleText("lo-of-login"))).startsWith("The evening of 29 October 1969"));
});

test("an endless calm is cut, and what was printed till then is there", async () => {
    const history = await historyOf("resets-in-step");
    assert(history);
    const outcome = await replay(
        run,
        history.replay.input.text.replace(/^calm 7$/m, "calm 4294967295"),
        { seconds: 20, octets: 20_000_000 },
    );
    assert(isReplay(outcome) && outcome.cut !== "" && outcome.moments.length > 1000);
});

test("the sites of a lesson are those of the hosts and IMPs that its events name", () => {
    const lines = ["calm 3", "out 0/42 1/36 5 8 41", "enddown 26 40", "impdown 7", "deliver 3 + 0", "take 0/9"];
    assert.deepEqual([...impsNamed(lines.map((it) => it.split(" ")))], [42, 36, 26, 7, 9]);
});
