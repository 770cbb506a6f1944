/** What holds at every stop of every example, and planted faults that break it. */

import assert from "node:assert/strict";
import { test } from "node:test";

import { chartOf } from "../chart.js";
import { choicesFor } from "../choices.js";
import { placed } from "../layout.js";
import { sentenceOf } from "../sentences.js";
import { rowsOf, shownRows } from "../sheet.js";
import { stopsOf } from "../stops.js";
import { sends, Talk } from "../talk.js";
import { waitsOf } from "../waits.js";
import { exampleNames, historyOf } from "./examples.js";

/** @typedef {import("../fold.js").History} History */
/** @typedef {import("../waits.js").Wait} Wait */

const NAMES = exampleNames().filter((name) => !/a-bad-line|an-unknown-event/.test(name));

/**
 * What waits and isn't among the waits.
 *
 * @param {History} history
 * @param {number} position
 * @param {Talk} talk
 * @param {Wait[]} waits
 */
function leftOut(history, position, talk, waits) {
    const state = history.at(position);
    const found = [];
    const flows = new Set(waits.map((it) => it.flow));
    if (!history.network.plain) {
        for (const it of state.sourceFlows()) {
            if (it.state !== "idle" && !flows.has(it.flow)) found.push(it.flow);
        }
    }
    const isSaid = (/** @type {number} */ socket) => waits.some((it) => it.what.includes(`socket ${socket} `));
    for (const end of talk.ends) {
        if (sends(end.socket) && end.state === "open" && end.handed > end.bits && !isSaid(end.socket)) {
            found.push(`bits on ${end.socket}`);
        }
    }
    for (const it of talk.contacts) {
        if (it.state === "asked" && !waits.some((wait) => wait.what.includes("contact"))) found.push("contact");
    }
    return found;
}

for (const name of NAMES) {
    test(`${name}: sentences, waits, rows and choices at every stop`, async () => {
        const history = await historyOf(name);
        assert(history);
        const talk = new Talk(history.replay);
        const stops = stopsOf(history, "arrival");
        const every = Math.max(1, Math.floor(stops.length / 120));
        stops.forEach((stop, place) => {
            if (place % every) return;
            if (stop.main >= 0) {
                const sentence = sentenceOf(history, stop.main);
                assert(/^[A-Z“].*[.”]$/.test(sentence), `${stop.main}: ${sentence}`);
                assert(!/undefined|NaN|\[object|  |host 0\/0/.test(sentence), sentence);
                assert.equal(sentence.split("`").length % 2, 1, sentence);
            }
            const state = history.at(stop.to);
            const waits = waitsOf(state, talk.goTo(stop.to));
            assert.deepEqual(leftOut(history, stop.to, talk, waits), [], `step ${place + 1}`);
            for (const end of talk.ends) {
                assert(
                    end.service || !sends(end.socket) || end.handed >= end.bits,
                    `${end.host} socket ${end.socket} sent more than was handed over`,
                );
            }
            for (const wait of waits) {
                assert(
                    wait.what && wait.for && !/undefined|NaN/.test(wait.what + wait.where + wait.for),
                    JSON.stringify(wait),
                );
            }
        });
        const state = history.at(history.length);
        for (const host of history.network.hosts) {
            assert(choicesFor(state, talk.goTo(history.length), { kind: "host", host }).length > 0);
        }
        const rows = rowsOf(history, stops);
        assert.deepEqual(rows.filter((row) => row.stop >= 0).map((row) => row.stop), stops.map((_, place) => place));
        for (const current of [-1, 0, rows.length >> 1, rows.length - 1]) rowsAreShown(rows, current);
    });

    test(`${name}: each message has its lane, and the map has no boxes on one another`, async () => {
        const history = await historyOf(name);
        assert(history);
        const chart = chartOf(history);
        assert(chart.marks.every((mark) => /[A-Za-z0-9]/.test(mark.words)), "each mark on the chart has a word");
        assert.deepEqual(withoutLane(history, chart.lanes), []);
        const { imps, boxes, hosts } = placed(history.network);
        const points = [...imps].map(([imp, point]) => ({ ...point, ...(boxes.get(imp) ?? { w: 0, h: 0 }) }));
        points.forEach(
            (a, at) => points.slice(at + 1).forEach(
                (b) => assert(Math.abs(a.x - b.x) >= a.w + b.w - 1e-6 || Math.abs(a.y - b.y) >= a.h + b.h - 1e-6 || Math.hypot(a.x - b.x, a.y - b.y) >= a.w + b.w),
            ),
        );
        assert.equal(hosts.size, history.network.hosts.length);
    });
}

/**
 * Each row is shown once, or stands in one that says how many are left out: all of the calm in which one is, and of
 * others what printed.
 *
 * @param {import("../sheet.js").Row[]} rows
 * @param {number} current
 */
function rowsAreShown(rows, current) {
    const open = current < 0 ? -1 : rows[current].event;
    const shown = shownRows(rows, current);
    const places = shown.flatMap(({ place, count }) => Array.from({ length: count }, (_, at) => place + at));
    const wanted = rows.flatMap((row, place) => (row.kind !== "stop" || row.printed || row.event === open ? [place] : []));
    assert.deepEqual(places, wanted);
    for (const { row, place, count } of shown) {
        if (row.kind !== "more") assert.equal(row, rows[place]);
        else assert(rows.slice(place, place + count).every((it, at) => !it.printed && Math.abs(place + at - current) > 200));
    }
    assert(current < 0 || shown.some(({ row }) => row === rows[current]));
}

test("of a calm with thousands of steps some hundred rows are shown, and rows that lead to the others", async () => {
    const history = await historyOf("arpanet-of-december-1969");
    assert(history);
    const rows = rowsOf(history, stopsOf(history, "event"));
    const longest = rows.reduce((best, row) => (row.steps > best.steps ? row : best), rows[0]);
    const first = rows.indexOf(longest) + 1;
    const current = first + (longest.steps >> 1);
    assert(longest.steps > 1000, String(longest.steps));
    rowsAreShown(rows, current);
    const more = shownRows(rows, current).filter(({ row }) => row.kind === "more");
    assert.deepEqual(more.map(({ row }) => /^… [1-9]\d* more steps?$/.test(row.text)), more.map(() => true));
    assert(more[0].row.at === rows[more[0].place + more[0].count - 1].at, "the nearest one before");
    assert(more[more.length - 1].row.at === rows[more[more.length - 1].place].at, "the nearest one after");
});

/**
 * The hosts that send or are sent to and have no lane.
 *
 * @param {History} history
 * @param {string[]} lanes
 */
function withoutLane(history, lanes) {
    const hosts = history.replay.moments.flatMap(
        (moment) => moment.printed.filter((line) => line.startsWith("out ")).flatMap(
            (line) => line.split(" ").slice(1, 3),
        ),
    );
    return [...new Set(hosts)].filter((host) => history.network.hosts.includes(host) && !lanes.includes(host));
}

test("a lane that is left out is found: 0/4 of the lockup takes nothing", async () => {
    const history = await historyOf("reassembly-lockup");
    assert(history);
    const crossing = new Set(
        history.replay.moments.flatMap(
            (moment) => moment.printed.map((line) => line.split(" ")).map(
                (words) => (words[0] === "out" ? words[1] : words[2]),
            ),
        ),
    );
    assert.deepEqual(withoutLane(history, [...crossing]), ["0/4"]);
    assert.deepEqual(chartOf(history).lanes, ["0/1", "0/3", "0/4"]);
});

test("something that waits and is left out is found", async () => {
    const history = await historyOf("reassembly-lockup");
    assert(history);
    const stops = stopsOf(history, "arrival");
    const talk = new Talk(history.replay).goTo(stops[130].to);
    const waits = waitsOf(history.at(stops[130].to), talk);
    assert.equal(waits.length, 16);
    assert.equal(leftOut(history, stops[130].to, talk, waits.slice(1)).length, 1);
});

test("connections are told as of the step, and never as they end", async () => {
    const history = await historyOf("lo-of-login");
    assert(history);
    const whole = new Talk(history.replay);
    for (let position = 0; position <= history.length; position += 7) {
        const cut = new Talk({ ...history.replay, moments: history.replay.moments.slice(0, position) }).goTo(position);
        assert.deepEqual(JSON.stringify(cut.ends), JSON.stringify(whole.goTo(position).ends));
    }
    assert.deepEqual(new Talk(history.replay).goTo(0).ends, []);
    const first = whole.goTo(history.length).ends.filter((end) => end.state === "over");
    assert.deepEqual(first.map((end) => [end.host, end.socket, end.bits]), [["0/2", 16, 16], ["0/1", 33, 24]]);
});
