import assert from "node:assert/strict";
import { test } from "node:test";

import { condensed } from "../driven.js";
import { History } from "../fold.js";
import { sentenceOf } from "../sentences.js";
import { stopWords } from "../sheet.js";
import { stopAt, stopsOf } from "../stops.js";
import { isQuiet, REST } from "../trace.js";
import { exampleNames, exampleText, historyInRounds, historyOf, historyOfText, storedOutput, twoImps } from "./examples.js";

/** Examples that are so large that what is uneventful in their rounds is joined. */
const WITH_REST = ["arpanet-of-the-late-seventies"];

/**
 * Whether what crosses in a moment is one thing if it is a taking or an offer, and otherwise nothing.
 *
 * @param {import("../runs.js").Moment} moment
 */
function crossesOnce({ words, kinds }) {
    return kinds.filter((kind) => kind !== "").length === (words[0] === "take" || words[0] === "offer" ? 1 : 0);
}

/**
 * What is stored of the lines that crossings, notices and refusals of an example print, in its output or in its trace.
 *
 * @param {string} name
 */
function storedLines(name) {
    const isOther = (/** @type {string} */ line) => /^(?:end|ok|life .*|)$/.test(line);
    const lines = storedOutput(name).filter((line) => !isOther(line));
    if (!lines[0]?.startsWith("{")) return lines;
    return lines.slice(1).flatMap((line) => JSON.parse(line).printed);
}

for (const name of exampleNames()) {
    test(`${name}: the moments print what is stored, each stop once`, async () => {
        const history = await historyOf(name);
        if (!history) return assert(/a-bad-line|an-unknown-event/.test(name), "only bad scripts have no replay");
        const { moments, cut } = history.replay;
        assert.equal(cut, "");
        assert(!moments.some(isQuiet), "no quiet round is shown as a whole");
        assert.equal(moments.some(({ words }) => words[0] === REST), WITH_REST.includes(name), "whether some are joined");
        const ofCalms = moments.filter(({ round }) => round > 0);
        assert(ofCalms.every(crossesOnce), "in a calm each crossing has its taking or its offer");
        const brief = (/** @type {string} */ line) => (
            /^(?:in|out) /.test(line) ? line.split(" ").slice(0, 5).join(" ") : line
        );
        const printed = moments.flatMap((moment) => moment.printed).map(brief);
        const stored = storedLines(name);
        if (!/--check|--log|^a-log-/.test(name) && stored.length) assert.deepEqual(printed, stored);
        for (const grain of /** @type {const} */ (["event", "arrival", "round"])) {
            const stops = stopsOf(history, grain);
            let from = 0;
            for (const [at, stop] of stops.entries()) {
                assert.equal(stop.from, from);
                assert(stop.to > stop.from);
                assert.equal(stopAt(stops, stop.to), at + 1);
                from = stop.to;
            }
            assert.equal(from, history.length);
            assert.equal(stopAt(stops, 0), 0);
        }
    });
}

/** What a script's last delivery came to, over two IMPs. */
const THROWN_AWAY = /** @type {const} */ ([
    ["it arrives twice", "repeat", ["calm 2", "out 0/1 0/2 5 8 41", "deliver 0 + 0", "deliver 0 + 0"]],
    [
        "one end was reset",
        "lost",
        [
            ...["calm 2", "out 0/1 0/2 5 8 41", "calm 4", "enddown 1 0", "endup 1 0", "calm 2", "out 0/1 0/2 5 8 42"],
            "deliver 0 + 0",
        ],
    ],
    [
        "its IMP started anew",
        "lost",
        [
            ...["calm 2", "out 0/1 0/2 5 8 41", "calm 6", "impdown 2", "forget 1 2", "calm 2", "impup 2", "hostup 0/2"],
            ...["calm 5", "out 0/1 0/2 5 8 42", "deliver 0 + 0"],
        ],
    ],
    [
        "it was accepted before the end was reset",
        "repeat",
        [
            ...["calm 2", "out 0/1 0/2 5 8 41", "deliver 0 + 0", "deliver 0 - 0", "take 0/2"],
            ...["enddown 1 0", "enddown 2 0", "endup 1 0", "endup 2 0"],
            ...["route 2", "deliver 0 - 2", "out 0/1 0/2 6 8 42", "deliver 0 + 1", "deliver 0 + 0"],
        ],
    ],
    [
        "its source's IMP started anew, and counts its messages from 0 again",
        "lost",
        [
            ...["calm 2", "out 0/1 0/2 5 8 41", "calm 6", "impdown 1", "forget 2 1", "impup 1", "hostup 0/1"],
            ...["calm 2", "out 0/1 0/2 5 8 41", "deliver 0 + 0"],
        ],
    ],
]);

for (const [what, fate, script] of THROWN_AWAY) {
    test(`a packet with the channel's other bit: ${what}`, async () => {
        const history = await historyOfText(twoImps([...script]));
        assert.equal(history.notes[history.length - 1].fate, fate);
    });
}

test("no first arrival is lost in the lesson of the RFNM that is asked for", async () => {
    const history = await historyOf("an-rfnm-is-lost-and-asked-for");
    assert(history && history.notes.every((note) => note.fate !== "lost"));
});

test("the numbers of stops of December 1969", async () => {
    const history = await historyOf("arpanet-of-december-1969");
    assert(history);
    assert.equal(history.length, 2208);
    assert.equal(exampleText("arpanet-of-december-1969").includes("calm 63"), true);
});

test("a quiet round that is shown as a whole is a step with a sentence, and takings follow it one by one", async () => {
    const history = await historyInRounds(exampleText("arpanet-of-the-late-seventies"));
    const { moments } = history.replay;
    const stop = stopsOf(history, "arrival").find(({ main }) => main >= 0 && isQuiet(moments[main]));
    assert(stop && stop.main === stop.from && stopWords(history, stop) === "a quiet round");
    const { round } = moments[stop.main];
    assert(sentenceOf(history, stop.main).startsWith(`Round ${round} begins with a quiet round of the network`));
    const isFirst = (/** @type {number} */ at) => moments[at - 1]?.event !== moments[at].event
        || moments[at - 1].round !== moments[at].round;
    assert(moments.every((it, at) => !isQuiet(it) || isFirst(at)), "it is the first event of its round");
    const taking = moments.findIndex((it, at) => it.words[0] === "take" && at > 0 && isQuiet(moments[at - 1]));
    assert.equal(moments[taking].round, moments[taking - 1].round);
    assert(/[.”]$/.test(sentenceOf(history, taking)));
});

test("where uneventful moments are joined, the steps and what is inside are the same, and no event is lost", async () => {
    for (const name of ["lo-of-login", "resets-in-step"]) {
        const full = await historyOf(name);
        assert(full);
        const { moments, opening } = full.replay;
        const isOfNetwork = (/** @type {number} */ at) => moments[at]?.round > 0
            && /^(?:route|resend|deliver|drop)$/.test(moments[at].words[0]);
        /** @type {import("../runs.js").Moment[]} */
        const joined = [];
        const ends = new Map([[0, 0]]);
        for (let from = 0; from < moments.length; ) {
            let to = from + 1;
            while (isOfNetwork(from) && isOfNetwork(to) && moments[to].round === moments[from].round) to += 1;
            const mine = moments.slice(from, to);
            joined.push(...(isOfNetwork(from) ? condensed(mine, full.at(from).parts) : mine));
            ends.set(joined.length, to);
            from = to;
        }
        const short = new History({ ...full.replay, moments: joined, opening });
        assert(short.length < 0.5 * full.length, `${short.length} of ${full.length}`);
        for (const [position, to] of ends) assert.deepEqual(short.at(position).parts, full.at(to).parts);
        const events = joined.flatMap((it) => it.events ?? [it.words.join(" ")]);
        assert.deepEqual(events, moments.map((it) => it.words.join(" ")));
        for (const grain of /** @type {const} */ (["arrival", "round"])) {
            const [one, other] = [short, full].map((history) => stopsOf(history, grain).map(({ main, round }) => (
                main < 0 ? `nothing new in ${round}` : sentenceOf(history, main)
            )));
            assert.deepEqual(one, other);
        }
    }
});

test("in a large network whose hosts have programs each packet is seen to arrive", async () => {
    const history = await historyOf("arpanet-of-the-late-seventies");
    assert(history);
    const hops = history.notes.filter(({ fate, frame }) => fate === "fresh" && frame?.packet?.kind === "data");
    assert(hops.length > 20, `${hops.length} arrivals of data`);
    const stops = stopsOf(history, "arrival").filter(({ main }) => main >= 0);
    const isStop = (/** @type {number} */ at) => stops.some(({ main }) => main === at);
    assert(history.notes.every(({ fate }, at) => fate !== "fresh" || isStop(at)), "each is a step");
    const rest = history.replay.moments.findIndex(({ words }) => words[0] === REST);
    assert(sentenceOf(history, rest).startsWith(`What else happens in round ${history.replay.moments[rest].round}`));
});
