/**
 * An input that may be named, and what helps after a fault: `arpasim` of the package for npm, and of the wheel where no
 * native program runs. What is said is that of python/dorydate/named.sh, and tests/test_named.py compares the two.
 */

import { existsSync, openSync, readFileSync, statSync } from "node:fs";
import { fileURLToPath } from "node:url";

import { runOnce } from "./once.js";

const HELP = "arpasim --help";
const NPM = "npx dorydate";
const [of, examples] = ["DORYDATE_EXPLAIN", "DORYDATE_EXAMPLES"].map((it) => process.env[it]);
const folder = examples ?? fileURLToPath(new URL("../examples", import.meta.url));

/** Why nothing is run. */
class Refused extends Error {}

/** @param {string} name */
function notAFile(name) {
    const commands = of ? ["explain", "explore", "export", "keeps", "examples", "page", "live", "conformance"] : ["examples", "page"];
    if (commands.includes(name)) throw new Refused(`${name} is a command of its own: ${of ? "dorydate" : NPM} ${name}`);
    if (existsSync(name)) return;
    if (["help", "version"].includes(name)) throw new Refused(`there is no file ${name}; is arpasim --${name} meant?`);
    if (existsSync(`${folder}/${name}`)) throw new Refused(`there is no file ${name}; the example is arpasim ${folder}/${name}`);
}

/**
 * The descriptor of the input.
 *
 * @param {string | undefined} name
 */
function opened(name) {
    if (name === undefined || name === "-") return 0;
    if (!name.includes("/")) notAFile(name);
    if (!existsSync(name)) throw new Refused(`there is no file ${name}; ${HELP} says how it is called`);
    if (statSync(name).isDirectory()) throw new Refused(`${name} is a folder; an input is a file`);
    try {
        return openSync(name, "r");
    } catch {
        throw new Refused(`${name} may not be read`);
    }
}

/**
 * The number of the line `%`, where the input can be read once more.
 *
 * @param {string | undefined} name
 */
function marker(name) {
    const again = name === undefined || name === "-" ? "/dev/stdin" : name;
    if (!existsSync(again) || !statSync(again).isFile()) return 0;
    return readFileSync(again, "latin1").split("\n").indexOf("%") + 1;
}

/**
 * What helps after a fault, as lines.
 *
 * @param {string} said
 * @param {string[]} options
 * @param {string | undefined} name
 */
function cure(said, options, name) {
    const isLog = said.includes("bad log");
    const file = name === undefined || name === "-" ? (isLog ? "LOG" : "FILE") : name;
    const tells = of
        ? `dorydate explain ${isLog ? "--audit " : ""}< ${file} tells why`
        : `the workbench tells why, once it has opened ${file}: ${NPM} page > dorydate.html`;
    const bad = /^arpasim: bad script line (\d+)/.exec(said);
    const line = bad ? marker(name) : 0;
    if (line) return [`that is line ${line + Number(bad?.[1])} of the file, since lines of the script are counted from the \`%\``, tells];
    if (bad || /^arpasim: bad (topology|log)/.test(said)) return [tells];
    if (!said.startsWith("arpasim: bad arguments")) return [];
    return [...options.flatMap((it) => ofAnother(it, options.length)), `${HELP} has the options`];
}

/**
 * What an option is that has no place here.
 *
 * @param {string} word
 * @param {number} count
 */
function ofAnother(word, count) {
    const [explain, exports] = [
        ["--chart", "--page", "--expect", "--promise", "--worksheet", "--answers", "--slides"],
        ["--pcapng", "--svg", "--perfetto", "--shiviz"],
    ];
    if (explain.includes(word)) return [`${word} is an option of dorydate explain`];
    if (exports.includes(word)) return [`${word} is an option of dorydate export`];
    return ["--log", "--trace", "--audit"].includes(word) && count > 1 ? [`${word} is the only option where it is given`] : [];
}

/** @param {string} line */
function say(line) {
    process.stderr.write(`arpasim: ${line}\n`);
}

/** @param {string[]} words */
function run(words) {
    const names = words.filter((it) => it === "-" || (it !== "" && !it.startsWith("-")));
    const options = words.filter((it) => !names.includes(it)).map((it) => (it === "-h" ? "--help" : it));
    if (names.length > 1) throw new Refused(`one input at a time, and these are two: ${names[0]}, ${names[1]}`);
    const [name] = names;
    const ran = runOnce(options, opened(name));
    process.exitCode = ran.status;
    if (ran.status !== 0) for (const line of cure(ran.said, options, name)) say(line);
}

/**
 * Runs the program on the words of a command line.
 *
 * @param {string[]} words
 */
export function main(words) {
    try {
        run(words);
    } catch (why) {
        if (!(why instanceof Refused)) throw why;
        say(why.message);
        process.exitCode = 1;
    }
}
