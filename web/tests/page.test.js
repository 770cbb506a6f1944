import assert from "node:assert/strict";
import { test } from "node:test";

import { chartOf } from "../page/crossings.js";
import { lineOfFault, rangeOf, summary } from "../page/faults.js";

const octets = new Uint8Array();

test("a message goes from the row where it is sent to the row where it is taken", () => {
    const printed = ["out 0/1 0/2 5 24", "refused Blocked", "in 0/1 0/2 5 24", "answer rfnm 0/1 0/2 5", "end", ""];
    const chart = chartOf(printed);
    assert.deepEqual(chart, {
        hosts: ["0/1", "0/2"],
        arrows: [
            { kind: "message", from: "0/1", to: "0/2", fromRow: 0, text: "24 bits, link 5", toRow: 2 },
            { kind: "answer", from: "0/2", to: "0/1", fromRow: 3, toRow: 3, text: "RFNM, link 5" },
        ],
        notes: [{ row: 1, host: undefined, text: "refused Blocked" }],
        rows: 4,
    });
});

test("a message that nobody took has no end, and its destination has a line all the same", () => {
    const chart = chartOf(["out 1/3 0/12 7 8 FF", "answer dead 1/3 0/12 7"]);
    assert.deepEqual(chart.hosts, ["1/3", "0/12"]);
    assert.equal(chart.arrows[0].toRow, undefined);
});

test("two messages on one link are told apart by their order", () => {
    const lines = ["out 0/1 0/2 5 8", "in 0/1 0/2 5 8", "answer rfnm 0/1 0/2 5", "out 0/1 0/2 5 16", "in 0/1 0/2 5 16"];
    assert.deepEqual(
        chartOf(lines)
            .arrows.filter((it) => it.kind === "message")
            .map((it) => [it.fromRow, it.toRow]),
        [
            [0, 1],
            [3, 4],
        ],
    );
});

test("hosts stand in the order of their IMPs, and notes beside the host that they name", () => {
    const chart = chartOf(["down 0/10", "up 3/2", "done server 0/2 100 101"]);
    assert.deepEqual(chart.hosts, ["0/2", "3/2", "0/10"]);
    assert.deepEqual(chart.notes[2], { row: 2, host: "0/2", text: "done server 100 101" });
});

test("a bad line of the script is counted after the marker, and one of a log from the first line", () => {
    const text = "carrier = 1\n%\nfirst\nsecond\nbad\n";
    assert.equal(lineOfFault("arpasim: bad script line 3\n", text), 5);
    assert.equal(lineOfFault("arpasim: bad log line 3\n", text), 3);
    assert.equal(lineOfFault("arpasim: bad topology\n", text), undefined);
    const { from, to } = rangeOf(text, 5);
    assert.equal(text.slice(from, to), "bad");
});

test("what is said of a run names its fault, its status, or the limit that it met", () => {
    const given = { text: "%\nx", seconds: 2, octets: 9 };
    const ended = /** @type {"exit"} */ ("exit");
    const outcome = { status: 2, stdout: octets, stderr: "arpasim: bad script line 1\n", ended };
    assert.equal(summary(outcome, given), "arpasim: bad script line 1 (line 2 of the box), status 2.");
    assert.equal(summary({ ...outcome, status: 0, stderr: "" }, given), "Ended, status 0.");
    const rest = "What it had printed until then is shown.";
    assert.equal(summary({ ...outcome, ended: "time" }, given), `Ended after 2 s, the limit of time. ${rest}`);
    assert.equal(summary({ ...outcome, ended: "output" }, given), `Ended after 9 octets, the limit of output. ${rest}`);
});
