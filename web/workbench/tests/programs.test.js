/** What the programs of hosts and their services hold, in cells: rows by hand, and nothing left out at any stop. */

import assert from "node:assert/strict";
import { test } from "node:test";

import { groupsOf } from "../programs.js";
import { stopsOf } from "../stops.js";
import { Talk } from "../talk.js";
import { exampleNames, historyOf, historyOfText, twoImps } from "./examples.js";

/** @typedef {import("../fold.js").History} History */
/** @typedef {import("../programs.js").Group} Group */

const NAMES = exampleNames().filter((name) => !/a-bad-line|an-unknown-event/.test(name));

/**
 * The groups of a host after the first moment that prints a line.
 *
 * @param {History} history
 * @param {string} line how it begins
 * @param {string} host
 */
function after(history, line, host) {
    const at = history.replay.moments.findIndex(({ printed }) => printed.some((it) => it.startsWith(line))) + 1;
    assert(at > 0, line);
    return groupsOf(history.at(at), new Talk(history.replay).goTo(at), host);
}

/**
 * A cell of a group, by the beginning of its title.
 *
 * @param {Group[]} groups
 * @param {string} title
 * @param {string} name
 */
function cell(groups, title, name) {
    const group = groups.find((it) => it.title.startsWith(title));
    return group?.cells.find(([it]) => it === name)?.[1];
}

test("LO of LOGIN: counters go down by what is sent, and up by what is granted", async () => {
    const history = await historyOf("lo-of-login");
    assert(history);
    const rows = /** @type {[string, string, string, string, string][]} */ ([
        ["ready 0/1 0/2", "0/1", "With SRI", "reset", "ready"],
        ["out 0/1 0/2 2 48 00080001004C", "0/1", "Socket 33", "may still go", "9 messages, 72 bits"],
        ["out 0/1 0/2 2 48 00080001004C", "0/1", "Socket 33", "sent", "8 bits in 1 message"],
        ["out 0/1 0/2 2 48 00080001004C", "0/1", "With SRI", "messages without answer", "link 2"],
        ["in 0/1 0/2 2 48 00080001004C", "0/2", "Socket 16", "may still come", "9 messages, 72 bits"],
        ["in 0/1 0/2 2 48 00080001004C", "0/2", "Socket 16", "taken", "8 bits in 1 message"],
        ["answer rfnm 0/1 0/2 2", "0/1", "With SRI", "messages without answer", "none"],
    ]);
    for (const [line, host, title, name, value] of rows) {
        assert.equal(cell(after(history, line, host), title, name), value, `${name} after ${line}`);
    }
});

test("phases, an RRP that is owed, commands that wait and sockets that listen", async () => {
    const raw = twoImps(["calm 2", "listen 0/2 16 8", "contact 0/1 0/2", "calm 1", "calm 1", "calm 1", "calm 1"]);
    const history = await historyOfText(raw.replace("raw = true\n", ""));
    const talk = new Talk(history.replay);
    const seen = (/** @type {string} */ host, /** @type {string} */ name) => {
        /** @type {(string | undefined)[]} */
        const all = [];
        for (let at = 0; at <= history.length; at += 1) {
            all.push(cell(groupsOf(history.at(at), talk.goTo(at), host), "With", name));
        }
        return all.filter((it, place) => it !== undefined && it !== all[place - 1]);
    };
    const out = "the RST is out, without its RFNM";
    assert.deepEqual(seen("0/1", "reset").slice(0, 2), ["the RST waits to go out", out]);
    assert.deepEqual(seen("0/1", "reset").slice(-1), ["ready"]);
    assert.deepEqual(seen("0/2", "RRP owed"), ["yes", "no"]);
    const groups = groupsOf(history.at(history.length), talk, "0/2");
    assert.equal(cell(groups, "Listens", "socket 16"), "bytes of 8 bits");
    const refused = await historyOf("a-request-is-refused");
    assert(refused);
    const at = refused.replay.moments.findIndex(({ words }) => words[0] === "openrecv") + 1;
    const waiting = groupsOf(refused.at(at), new Talk(refused.replay).goTo(at), "0/1");
    assert.equal(cell(waiting, "With", "commands that wait"), "RTS 16 from 33 on link 2");
    assert.equal(cell(waiting, "Socket 16", "state"), "its request waits to go out");
});

test("services: a server, its user, a terminal and an echo", async () => {
    const history = await historyOf("from-a-terminal-to-a-server");
    assert(history);
    const asked = after(history, "opened 0/1 16", "0/1");
    assert.equal(cell(asked, "User of host 0/2's server on socket 7", "connections open"), "asking");
    const ready = after(history, "done user 0/1", "0/1");
    assert.equal(cell(ready, "Terminal", "sockets"), "receives on 18, sends on 19");
    assert.equal(cell(ready, "A typed line", "goes to"), "socket 19");
    assert.equal(cell(after(history, "done server 0/2", "0/2"), "Echo", "sockets"), "receives on 100, sends on 101");
});

/**
 * What a state holds of a host and no cell has.
 *
 * @param {History} history
 * @param {number} position
 * @param {string} host
 * @param {Group[]} groups
 */
function leftOut(history, position, host, groups) {
    const state = history.at(position);
    const told = groups.flatMap((it) => [it.title, ...it.cells.flat()]).join("\n");
    const program = state.program(host);
    const wanted = (program?.pairs ?? []).flatMap(({ ends, busy, commands }) => [
        ...ends.flatMap(({ kind, socket, allocation, waiting }) => [
            `Socket ${socket} `,
            `${allocation.messages} message`,
            `${allocation.bits} bit`,
            ...(kind === "send" ? [`${waiting.bits} bit`] : []),
        ]),
        ...busy.map(String),
        ...commands.map(({ kind }) => kind.toUpperCase()),
    ]);
    const listening = (program?.listening ?? []).map(({ socket }) => `socket ${socket}\n`);
    // a number is looked for whole: 0 bits aren't there where 1000 bits are
    return [...wanted, ...listening].filter((it) => !told.split(it).slice(0, -1).some((before) => !/\d$/.test(before)));
}

for (const name of NAMES) {
    test(`${name}: nothing that a host's program holds is left out`, async () => {
        const history = await historyOf(name);
        assert(history);
        if (history.network.raw) return;
        const talk = new Talk(history.replay);
        const stops = stopsOf(history, "arrival");
        const every = Math.max(1, Math.floor(stops.length / 60));
        for (let place = 0; place < stops.length; place += every) {
            const { to } = stops[place];
            for (const host of history.network.hosts) {
                const groups = groupsOf(history.at(to), talk.goTo(to), host);
                assert.deepEqual(leftOut(history, to, host, groups), [], `${host} at step ${place + 1}`);
                assert(!/undefined|NaN|\[object|null/.test(JSON.stringify(groups)), JSON.stringify(groups));
                assert.equal(new Set(groups.map((it) => it.key)).size, groups.length, "a group is there once");
            }
        }
    });
}

test("an end, a counter and a command that are left out are found", async () => {
    const history = await historyOf("from-a-terminal-to-a-server");
    assert(history);
    const at = history.replay.moments.findIndex(
        (_, place) => history.at(place).program("0/2")?.pairs.some((pair) => pair.commands.length && pair.ends.length),
    );
    const groups = groupsOf(history.at(at), new Talk(history.replay).goTo(at), "0/2");
    assert.deepEqual(leftOut(history, at, "0/2", groups), []);
    const without = (/** @type {RegExp} */ name) => groups.map(
        (it) => ({ ...it, cells: it.cells.filter(([cell]) => !name.test(cell)) }),
    );
    assert(leftOut(history, at, "0/2", groups.filter((it) => !it.title.startsWith("Socket"))).length > 0);
    assert(leftOut(history, at, "0/2", without(/may still|granted|sent|taken|handed/)).length > 0);
    assert(leftOut(history, at, "0/2", without(/commands/)).length > 0);
});
