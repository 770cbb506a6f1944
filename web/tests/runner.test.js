import assert from "node:assert/strict";
import { test } from "node:test";

import { noteOf } from "../run/embedded.js";
import { makeRunner } from "../run/runner.js";

/** @typedef {import("../run/runner.js").Said} Said */

const LIMITS = { seconds: 10, octets: 100 };
const module = new WebAssembly.Module(Uint8Array.of(0, 97, 115, 109, 1, 0, 0, 0));
const octets = (/** @type {string} */ text) => new TextEncoder().encode(text);

/** Workers that say what a test has them say, and note what they were asked. */
function workers() {
    /** @type {any[]} */
    const started = [];
    const spawn = () => {
        const worker = {
            isEnded: false,
            /** @type {any} */
            task: undefined,
            onmessage: (/** @type {{data: Said}} */ event) => {},
            onerror: (/** @type {{message: string}} */ event) => {},
            postMessage: (/** @type {any} */ task) => void (worker.task = task),
            terminate: () => void (worker.isEnded = true),
        };
        started.push(worker);
        return /** @type {Worker} */ (/** @type {unknown} */ (worker));
    };
    return { started, spawn };
}

test("a run hands over its task, joins what is written, and ends its worker", async () => {
    const { started, spawn } = workers();
    const run = makeRunner(module, spawn).run(["--texts"], octets("in"), LIMITS);
    const [worker] = started;
    assert.deepEqual(worker.task, { module, words: ["--texts"], inputs: [octets("in")], octets: 100 });
    const written = /** @type {[number, string][]} */ ([[1, "a"], [2, "x"], [1, "bc"], [2, "é"]]);
    for (const [descriptor, text] of written) worker.onmessage({ data: { descriptor, octets: octets(text) } });
    worker.onmessage({ data: { status: 3 } });
    assert.deepEqual(await run, { status: 3, stdout: octets("abc"), stderr: "xé", ended: "exit" });
    assert(worker.isEnded);
});

test("who listens is given each piece of standard output as it comes, and none after the end", async () => {
    const { started, spawn } = workers();
    /** @type {string[]} */
    const heard = [];
    const runner = makeRunner(module, spawn);
    const run = runner.run([], octets(""), LIMITS, (piece) => heard.push(new TextDecoder().decode(piece)));
    const [{ onmessage }] = started;
    onmessage({ data: { descriptor: 1, octets: octets("ab") } });
    assert.deepEqual(heard, ["ab"]);
    onmessage({ data: { descriptor: 2, octets: octets("x") } });
    onmessage({ data: { descriptor: 1, octets: octets("c") } });
    runner.stop();
    assert.deepEqual(await run, { status: -1, stdout: octets(""), stderr: "x", ended: "stopped" });
    assert.deepEqual(heard, ["ab", "c"]);
    assert.equal(started[0].onmessage, null);
});

test("one worker is always ready, and each run has its own", async () => {
    const { started, spawn } = workers();
    const runner = makeRunner(module, spawn);
    assert.equal(started.length, 1);
    const runs = [runner.run(["one"], octets(""), LIMITS), runner.run(["two"], octets(""), LIMITS)];
    assert.equal(started.length, 3);
    started[1].onmessage({ data: { status: 2 } });
    started[0].onmessage({ data: { status: 1 } });
    assert.deepEqual([(await runs[0]).status, (await runs[1]).status], [1, 2]);
    assert(!started[2].isEnded);
});

test("a limit of time ends the worker, and what it wrote before is kept", async () => {
    const { started, spawn } = workers();
    const run = makeRunner(module, spawn).run([], octets(""), { ...LIMITS, seconds: 0.05 });
    started[0].onmessage({ data: { descriptor: 1, octets: octets("first") } });
    assert.deepEqual(await run, { status: -1, stdout: octets("first"), stderr: "", ended: "time" });
    assert(started[0].isEnded);
});

test("no clock ends a run without a limit of time", async () => {
    const { started, spawn } = workers();
    const run = makeRunner(module, spawn).run([], octets(""), { ...LIMITS, seconds: Infinity });
    await new Promise((resolve) => setTimeout(() => resolve(undefined), 50));
    assert(!started[0].isEnded);
    started[0].onmessage({ data: { status: 0 } });
    assert.equal((await run).ended, "exit");
});

test("a worker that has written all it may is ended", async () => {
    const { started, spawn } = workers();
    const run = makeRunner(module, spawn).run([], octets(""), LIMITS);
    started[0].onmessage({ data: { full: true } });
    assert.equal((await run).ended, "output");
});

test("stop ends the runs that are under way, and no later one", async () => {
    const { started, spawn } = workers();
    const runner = makeRunner(module, spawn);
    const runs = [runner.run([], octets(""), LIMITS), runner.run([], octets(""), LIMITS)];
    runner.stop();
    const stopped = { status: -1, stdout: octets(""), stderr: "", ended: "stopped" };
    for (const run of runs) assert.deepEqual(await run, stopped);
    const later = runner.run([], octets(""), LIMITS);
    started[2].onmessage({ data: { status: 0 } });
    assert.equal((await later).ended, "exit");
});

test("a program that breaks off, or can't be started, is an error", async () => {
    const { started, spawn } = workers();
    const runner = makeRunner(module, spawn);
    const broken = runner.run([], octets(""), LIMITS);
    started[0].onmessage({ data: { broken: "unreachable" } });
    await assert.rejects(broken, /broke off: unreachable/);
    const absent = runner.run([], octets(""), LIMITS);
    started[1].onerror({ message: "no" });
    await assert.rejects(absent, /can't be started: no/);
});

test("a module that says nothing of itself is not proved", () => {
    assert.equal(noteOf(module).proved, false);
});

test("a module's note is what its section holds", () => {
    const name = octets("arpasim");
    const note = octets('{"proved": true, "sources": "abc"}');
    const section = [0, 1 + name.length + note.length, name.length, ...name, ...note];
    const noted = new WebAssembly.Module(Uint8Array.of(0, 97, 115, 109, 1, 0, 0, 0, ...section));
    const { proved, sources, mark } = noteOf(noted);
    assert.deepEqual([proved, sources, mark], [true, "abc", "none"]);
});
