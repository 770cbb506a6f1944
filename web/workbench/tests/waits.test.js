/** What waits is what ./explain says, after each event of the examples; and planted faults in the rules are found. */

import assert from "node:assert/strict";
import { readFileSync } from "node:fs";
import { test } from "node:test";

import { TABLE } from "../../../python/dorydate/sentences/table.mjs";
import { Talk } from "../talk.js";
import { hostName } from "../topology.js";
import { waitsOf } from "../waits.js";
import { behind, exampleNames, historyOf, historyOfText } from "./examples.js";

const MOST_MOMENTS = 600; // of an example that is looked at in each

/** @type {{[input: string]: string[][]}} of each event of an example, or of a text, what waits after it, as `./check workbench` gives it */
const told = process.env.STATES ? JSON.parse(readFileSync(process.env.STATES, "utf8")).waits : {};

/**
 * What waits after each event, with messages named by their flows.
 *
 * @param {string} name
 */
async function said(name) {
    const history = name.includes("\n") ? await historyOfText(name) : await historyOf(name);
    assert(history, name);
    const talk = new Talk(history.replay);
    return history.replay.input.events.map((_, event) => {
        const position = behind(history, event);
        const found = waitsOf(history.at(position), talk.goTo(position));
        return found.map((it) => [it.what, it.where, it.for, it.bad, ...it.cures].join("|").replace(
            /host (\d\/\d+)'s message(?: \d+)? to host (\d\/\d+) on link (\d+)/g,
            "message $1 $2 $3",
        )).sort();
    });
}

/** Whether page and ./explain differ anywhere, or the page has no rule for something. */
async function isOther() {
    for (const name of Object.keys(told)) {
        const found = await said(name).catch(() => null);
        if (JSON.stringify(found) !== JSON.stringify(told[name])) return true;
    }
    return false;
}

test("what waits is what ./explain says, after each event", async () => {
    let found = 0;
    for (const name of Object.keys(told)) {
        for (const [event, it] of (await said(name)).entries()) {
            assert.deepEqual(it, told[name][event], `${name}, event ${event + 1}`);
            found += it.length;
        }
    }
    assert(!process.env.STATES || found > 800, String(found));
});

test("a rule for what waits that is left out is found", async () => {
    const rules = TABLE["rules of waits"];
    const unseen = [];
    for (const [place, rule] of [...rules].entries()) {
        rules.splice(place, 1);
        try {
            if (!await isOther()) unseen.push(rule.slice(0, 2).join(": "));
        } finally {
            rules.splice(place, 0, rule);
        }
    }
    assert.deepEqual(unseen, process.env.STATES ? [] : rules.map((it) => it.slice(0, 2).join(": ")));
});

/**
 * The requests of which it is said that the peer has to ask or to listen, where it listens, has asked, or nothing has come to it.
 *
 * @param {import("../state.js").State} state
 * @param {import("../waits.js").Wait[]} waits
 */
function falseRequests(state, waits) {
    const said = waits.map((it) => `${it.what}, for ${it.for}`);
    return state.network.hosts.flatMap((host) => (state.program(host)?.pairs ?? []).flatMap(({ peer, ends }) =>
        ends.flatMap(({ socket, foreign, requests }) => {
            const words = `the request from socket ${socket} of ${hostName(state.network, host)}, for ${hostName(state.network, peer)} to ask`;
            const there = state.program(peer);
            const isThere = there?.listening.some((it) => it.socket === foreign)
                || there?.pairs.find((it) => it.peer === host)?.ends.some((it) => it.socket === foreign && it.foreign === socket);
            return said.some((it) => it.startsWith(words)) && (requests.own === null || isThere) ? [words] : [];
        })));
}

/** The moments of all examples at which such a thing is said, and how many moments were looked at. */
async function falseMoments() {
    let [wrong, all] = [/** @type {string[]} */ ([]), 0];
    for (const name of exampleNames()) {
        const history = await historyOf(name).catch(() => null);
        if (!history || history.network.raw || history.length > MOST_MOMENTS) continue;
        const talk = new Talk(history.replay);
        for (let position = 0; position <= history.length; position += 1, all += 1) {
            const state = history.at(position);
            const found = falseRequests(state, waitsOf(state, talk.goTo(position)));
            if (found.length) wrong.push(`${name}, ${position}: ${found.join("; ")}`);
        }
    }
    return { wrong, all };
}

test("no host is said to lack a request that it has made or listens for, at any moment of the examples", async () => {
    const { wrong, all } = await falseMoments();
    assert.deepEqual(wrong, []);
    assert(all > 1000, String(all));
});

test("that a peer always has to ask or to listen is found to be false", async () => {
    const rules = TABLE["rules of waits"];
    const kept = rules.filter(([thing, facts]) => thing !== "said" || ["close", "contact", "initial", "request"].includes(facts));
    const all = rules.splice(0, rules.length, ...kept);
    try {
        assert((await falseMoments()).wrong.length > 10);
    } finally {
        rules.splice(0, rules.length, ...all);
    }
});
