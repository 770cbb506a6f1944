import assert from "node:assert/strict";
import { test } from "node:test";

import { nativeRunner } from "../run/native.js";

const LIMITS = { seconds: 10, octets: 1000 };
const octets = (/** @type {string} */ text) => new TextEncoder().encode(text);
const text = (/** @type {Uint8Array} */ array) => new TextDecoder().decode(array);

test("the words and the input reach the program, and its output and status come back", async () => {
    const script = 'read line; echo "$0 $1 $line"; echo oops >&2; exit 3';
    const outcome = await nativeRunner("/bin/sh").run(["-c", script, "a", "b c"], octets("in\n"), LIMITS);
    const wanted = { status: 3, stdout: "a b c in\n", stderr: "oops\n", ended: "exit" };
    assert.deepEqual({ ...outcome, stdout: text(outcome.stdout) }, wanted);
});

test("a run is ended after its seconds, and what it wrote before is kept", async () => {
    const words = ["-c", "echo first; exec sleep 60"];
    const outcome = await nativeRunner("/bin/sh").run(words, octets(""), { ...LIMITS, seconds: 0.5 });
    const wanted = { status: -1, stdout: "first\n", stderr: "", ended: "time" };
    assert.deepEqual({ ...outcome, stdout: text(outcome.stdout) }, wanted);
});

test("a run is ended at its limit of octets, and has exactly those", async () => {
    const outcome = await nativeRunner("/bin/sh").run(["-c", "while :; do echo 12345678; done"], octets(""), LIMITS);
    assert.deepEqual([outcome.ended, outcome.status, outcome.stdout.length], ["output", -1, 1000]);
});

test("a run that writes just as much as it may ends by itself", async () => {
    const outcome = await nativeRunner("/bin/sh").run(["-c", "printf 1234"], octets(""), { seconds: 10, octets: 4 });
    assert.deepEqual([outcome.ended, outcome.status, text(outcome.stdout)], ["exit", 0, "1234"]);
});

test("stop ends every run that is under way, and no later one", async () => {
    const runner = nativeRunner("/bin/sh");
    const runs = [1, 2].map(() => runner.run(["-c", "exec sleep 60"], octets(""), LIMITS));
    runner.stop();
    for (const run of runs) assert.equal((await run).ended, "stopped");
    assert.equal((await runner.run(["-c", "exit 0"], octets(""), LIMITS)).ended, "exit");
});

test("a program that isn't there is an error", async () => {
    await assert.rejects(nativeRunner("/no/such/program").run([], octets(""), LIMITS), /can't be started/);
});
