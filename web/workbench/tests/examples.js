/** The examples of the repository, replayed by the native program or by a module of it, for all tests. */

import { readFileSync, readdirSync } from "node:fs";

import { moduleRunner } from "../../run/module.js";
import { nativeRunner } from "../../run/native.js";
import { History } from "../fold.js";
import { isReplay, replay } from "../runs.js";

/** @typedef {import("../runs.js").Replay} Replay */

const root = new URL("../../../", import.meta.url).pathname;

/** The path of the program, as `./check workbench` gives it, or of a module (FILE.wasm). */
const path = process.env.ARPASIM ?? "";
if (!path) throw new Error("ARPASIM has to be the path of the program: ./check workbench gives it");

export const program = path.endsWith(".wasm") ? moduleRunner(path) : nativeRunner(path);

export const { run } = program;

/** Time for a program that was built without proofs. */
export const PATIENT = { seconds: 1_200, octets: 40_000_000 };

/** The names of all examples. */
export function exampleNames() {
    return readdirSync(`${root}examples`).filter((name) => !name.includes("."));
}

/** @param {string} name */
export function exampleText(name) {
    return readFileSync(`${root}examples/${name}`, "utf8");
}

/**
 * What an example prints, as it is stored.
 *
 * @param {string} name
 */
export function storedOutput(name) {
    return readFileSync(`${root}examples/${name}.stdout`, "utf8").split("\n");
}

/** @type {Map<string, Promise<History | null>>} */
const histories = new Map();

/**
 * The history of an example, null where it is refused.
 *
 * @param {string} name
 */
export function historyOf(name) {
    const known = histories.get(name);
    if (known) return known;
    const made = replay(run, exampleText(name), PATIENT).then((it) => (isReplay(it) ? new History(it) : null));
    histories.set(name, made);
    return made;
}

/**
 * The history of a text that is no example.
 *
 * @param {string} text
 */
export async function historyOfText(text) {
    const it = await replay(run, text, PATIENT);
    if (!isReplay(it)) throw new Error(`${it.said} (status ${it.status})`);
    return new History(it);
}

/**
 * The history of an input whose hosts have programs, with quiet rounds as a whole: nothing runs the raw script that tells
 * what happens within them.
 *
 * @param {string} text
 */
export async function historyInRounds(text) {
    const ended = /** @type {const} */ ("time");
    const none = { ended, status: -1, stdout: new Uint8Array(), stderr: "" };
    /** @type {typeof run} */
    const without = async (words, input, limits, heard) =>
        new TextDecoder().decode(input).startsWith("raw = true") ? none : run(words, input, limits, heard);
    const it = await replay(without, text, PATIENT);
    if (!isReplay(it)) throw new Error(it.said);
    return new History(it);
}

/**
 * The position behind an event of the script.
 *
 * @param {History} history
 * @param {number} event
 */
export function behind(history, event) {
    const at = history.replay.moments.findIndex((moment) => moment.event > event);
    return at < 0 ? history.length : at;
}

/**
 * A raw network of two IMPs with a host each, and a script.
 *
 * @param {string[]} script
 */
export function twoImps(script) {
    const imps = [1, 2].flatMap((imp) => ["[[imp]]", `id = ${imp}`, "hosts = 1"]);
    return ["raw = true", ...imps, "[[line]]", "a = 1", "b = 2", "%", ...script, ""].join("\n");
}
