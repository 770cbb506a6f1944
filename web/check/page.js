/**
 * Tries the plain page in browsers: node web/check/page.js PAGE EXAMPLES [SHOTS]
 *
 * PAGE is opened from its file in Chromium and in Firefox, as many of them as there are. Each file of EXAMPLES is run
 * with its stored words and has to end as stored; a bad line is marked, an endless replay is ended by its limits and by
 * Stop, nothing is cut at any width, and the page asks for nothing. With SHOTS, a folder, pictures are left there. It
 * ends with status 1 where something is wrong.
 */

import { existsSync, readdirSync, readFileSync } from "node:fs";

import { noteOf } from "../run/embedded.js";
import { unpacked } from "../run/packed.js";
import { chromium, firefox } from "./browser.js";

/** @typedef {import("./browser.js").Browser} Browser */

const WIDTHS = [390, 720, 1024, 1280, 1440];

/** What each trial begins with. */
const HELPERS = `
const part = (id) => document.getElementById(id);
const pause = (time) => new Promise((go) => setTimeout(go, time));
const ended = async () => {
    for (let at = 0; at < 4000; at++) {
        if (!part("run").disabled && part("said").textContent !== "Running …") return;
        await pause(10);
    }
    throw new Error("a run never ends");
};
const run = async (text, task = "", checks = []) => {
    await ended();
    part("script").value = text;
    part("task").value = task;
    for (const id of ["texts", "book"]) part(id).checked = checks.includes("--" + id);
    part("run").click();
    await ended();
    return { printed: part("printed").textContent, said: part("said").textContent, isDrawn: !part("chart").hidden };
};
`;
class Wrong extends Error {}

/**
 * @param {boolean} holds
 * @param {string} what
 */
function want(holds, what) {
    if (!holds) throw new Wrong(what);
}

/**
 * Every example, with the words that are stored for it.
 *
 * @param {Browser} browser
 * @param {string} folder
 */
async function tryExamples(browser, folder) {
    const names = readdirSync(folder).filter((name) => !name.includes("."));
    for (const name of names) {
        const read = (/** @type {string} */ ending) => (
            existsSync(`${folder}/${name}${ending}`) ? readFileSync(`${folder}/${name}${ending}`, "utf8") : ""
        );
        const words = read(".args").split("\n").filter(Boolean);
        const task = words.find((word) => !["--texts", "--book"].includes(word)) ?? "";
        const { printed, said } = await browser.evaluate(
            `${HELPERS} return run(${JSON.stringify(read(""))}, ${JSON.stringify(task)}, ${JSON.stringify(words)});`,
        );
        want(
            printed === read(".stdout"),
            `${name}: ${printed.length} letters are printed, stored are ${read(".stdout").length}`,
        );
        const status = read(".status").trim() || "0";
        want(said.includes(read(".stderr").trim()) && said.endsWith(`status ${status}.`), `${name}: ${said}`);
    }
    return names.length;
}

/**
 * What the page says of its program has to be what the module in its file says.
 *
 * @param {Browser} browser
 * @param {string} page
 */
async function tryNote(browser, page) {
    const packed = /id="program">([^<]*)</.exec(readFileSync(page, "utf8"))?.[1] ?? "";
    const { proved, sources } = noteOf(await WebAssembly.compile(await unpacked(packed)));
    const [said, note] = await browser.evaluate(
        "return ['proved', 'note'].map((it) => document.getElementById(it).textContent);",
    );
    want(
        said.startsWith(proved ? "This is the proved program" : "NOT PROVED") && note.includes(sources),
        `the page says: ${said} ${note}`,
    );
}

/**
 * @param {Browser} browser
 * @param {string} example
 */
async function tryFaults(browser, example) {
    const bad = example.replace("take 0/2", "tak 0/2");
    const { said } = await browser.evaluate(`${HELPERS} return run(${JSON.stringify(bad)});`);
    const line = bad.split("\n").indexOf("tak 0/2") + 1;
    want(said.includes(`(line ${line} of the box)`), `a bad line: ${said}`);
    const marked = await browser.evaluate(
        "const box = document.getElementById('script'); return box.value.slice(box.selectionStart, box.selectionEnd);",
    );
    want(marked === "tak 0/2", `a bad line: ${marked} is marked`);
    const drawn = await browser.evaluate(
        `${HELPERS} const { isDrawn } = await run(${JSON.stringify(example)});
        return isDrawn && document.querySelectorAll("#drawing line.arrow").length;`,
    );
    want(drawn === 2, `first-message has ${drawn} arrows`);
}

/**
 * @param {Browser} browser
 * @param {string} example resets-in-step, whose `calm 7` would go on for ever
 */
async function tryLimits(browser, example) {
    const endless = JSON.stringify(example.replace(/^calm 7$/m, "calm 4294967295"));
    const bySeconds = await browser.evaluate(`${HELPERS} part("seconds").value = "1"; return run(${endless});`);
    want(bySeconds.said.startsWith("Ended after 1 s"), `a limit of time: ${bySeconds.said}`);
    const stopped = await browser.evaluate(`${HELPERS}
        part("seconds").value = "60";
        const running = run(${endless});
        await pause(300);
        part("stop").click();
        return running;`);
    want(stopped.said.startsWith("Stopped."), `Stop: ${stopped.said}`);
    const again = await browser.evaluate(`${HELPERS} return run("x");`);
    want(again.said.startsWith("arpasim: bad topology"), `the run after Stop: ${again.said}`);
}

/**
 * @param {Browser} browser
 * @param {string} page
 * @param {string | undefined} shots
 */
async function tryWidths(browser, page, shots) {
    for (const width of WIDTHS) {
        await browser.resize(width, 844);
        await browser.open("about:blank");
        await browser.open(`file://${page}#from-a-terminal-to-a-server`);
        const [whole, seen, cut] = await browser.evaluate(`${HELPERS} await ended();
            const cut = [...document.querySelectorAll("button, select, textarea, pre, label, p, h1, h2")].filter(
                (it) => it.getBoundingClientRect().right > innerWidth + 1,
            );
            const { scrollWidth } = document.documentElement;
            return [scrollWidth, innerWidth, cut.map((it) => it.id || it.textContent).join()];`);
        want(whole <= seen && cut === "", `at ${width} the page is ${whole} wide, ${seen} are seen, cut: ${cut}`);
        if (shots) await browser.shoot(`${shots}/${browser.name}-${width}.png`);
    }
}

/**
 * @param {Browser} browser
 * @param {string} page
 * @param {string} examples
 * @param {string | undefined} shots
 */
async function tryPage(browser, page, examples, shots) {
    const began = Date.now();
    await browser.open(`file://${page}`);
    await browser.evaluate(`${HELPERS} await ended();`);
    const first = Date.now() - began;
    await tryNote(browser, page);
    const count = await tryExamples(browser, examples);
    await tryFaults(browser, readFileSync(`${examples}/first-message`, "utf8"));
    await tryLimits(browser, readFileSync(`${examples}/resets-in-step`, "utf8"));
    await tryWidths(browser, page, shots);
    const asked = browser.requests().filter((it) => !/^(?:file|blob|about|data):/.test(it));
    want(asked.length === 0, `the page asked for ${asked.join(", ")}`);
    const told = `${count} examples end as stored, faults, limits and widths are as they should be`;
    console.log(`${browser.name}: ${told}; the first result after ${first} ms`);
}

const [page, examples, shots] = process.argv.slice(2);
/** @type {[typeof chromium, string[]][]} */
const kinds = [
    [chromium, ["/usr/bin/chromium", "/usr/bin/chromium-browser", "/usr/bin/google-chrome"]],
    [firefox, ["/usr/bin/firefox-esr", "/usr/bin/firefox"]],
];
let tried = 0;
for (const [start, programs] of kinds) {
    const program = programs.find(existsSync);
    if (!program) continue;
    const browser = await start(program);
    try {
        await tryPage(browser, page, examples, shots);
        tried += 1;
    } catch (why) {
        console.log(`${browser.name}: ${why}`);
        process.exitCode = 1;
    } finally {
        await browser.close();
    }
}
if (tried === 0 && !process.exitCode) {
    console.log("there is no browser: Debian's packages chromium and firefox-esr");
    process.exitCode = 1;
}
