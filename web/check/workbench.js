/**
 * Tries the workbench in a browser: node web/check/workbench.js PAGE [PART..] BROWSER..
 *
 * The parts are --lessons, --deeds, --sizes, --maps, --looks and --faults; without one all of them are tried. Each is
 * told when it is done, since all of them take minutes. --lessons=PATTERN steps through those whose names match it,
 * --faults=WORDS plants those that are called so.
 *
 * Each lesson is stepped forth and back, parts are tapped, an address is opened again, keys and the focus are looked
 * at, and what a screen reader gets, and at each size nothing is cut and no text is on another. Faults that are
 * planted in the page have to be found. It ends with status 1 where something is wrong, and says what.
 */

import { mkdtempSync, readFileSync, rmSync, writeFileSync } from "node:fs";
import { tmpdir } from "node:os";

import { chromium, firefox, load, webkit } from "./browser.js";
import { opened, PLANTED } from "./planted.js";
import * as trials from "./trials.js";

/** @typedef {import("./browser.js").Browser} Browser */

const WIDE = /** @type {[number, number]} */ ([1440, 900]);
const SIZES = /** @type {[number, number][]} */ (
    [[360, 640], [390, 844], [844, 390], [740, 360], [640, 320], [512, 384], [320, 256], [720, 450], [1024, 768], [1280, 720], WIDE]
);
const LARGE = /** @type {[number, number][]} */ ([[1280, 800], [360, 740]]);
const LARGER = /** @type {[number, number][]} */ ([[1024, 768], WIDE]);
const MOST_OCTETS = 1_050_000;
/** The sizes at which maps are read, and the maps. */
const READ_AT = /** @type {[number, number][]} */ (
    [[1280, 800], [1440, 900], [1920, 1080], [390, 844], [740, 360], [1024, 768], [768, 1024], [360, 640]]
);
const MAPS = [
    "arpanet-of-december-1969",
    "arpanet-of-december-1970",
    "arpanet-of-april-1971",
    "arpanet-of-august-1972",
    "arpanet-of-september-1973",
    "arpanet-of-july-1977",
    "reassembly-lockup",
    "lo-of-login",
];
const PACKETS = "arpanet-of-april-1971"; // a map of dots with packets under way
const SHOWN = [
    "lo-of-login",
    "arpanet-of-december-1969",
    "reassembly-lockup",
    "rerouted-over-a-triangle",
    "from-a-terminal-to-a-server",
];

const TABLES = ["next", "distances", "inside", "hosts", "book", "printed", "compare", "waits"];
const WITH_PROGRAMS = ["lo-of-login", "from-a-terminal-to-a-server", "resets-in-step"];

/** @typedef {import("./trials.js").Page} Page */
/** @typedef {(page: Page, given: any) => void | Promise<void>} Trial a function that runs in the page, given a value */

/**
 * Runs trials in the page, one after the other; what they find wrong, also where one breaks off.
 *
 * @param {Browser} browser
 * @param {[Trial, any?][]} tried
 * @returns {Promise<string[]>}
 */
function trial(browser, ...tried) {
    return findings(browser, "", tried);
}

/**
 * What trials find wrong, up to the first thing that has these words.
 *
 * @param {Browser} browser
 * @param {string} sought the words; "" for all that is wrong
 * @param {[Trial, any?][]} tried
 * @returns {Promise<string[]>}
 */
async function findings(browser, sought, tried) {
    const calls = tried.map(([body, given]) => `await (${body})(page, ${JSON.stringify(given ?? null)});`);
    const page = `const page = (${trials.makePage})(${load()}, ${JSON.stringify(sought)});`;
    const broke = 'page.wrong.push("a trial broke off: " + (why instanceof Error ? why.message : why));';
    const all = `try { await page.ready();\n${calls.join("\n")} } catch (why) { ${broke} }`;
    try {
        return await browser.evaluate(`${page}\n${all}\nreturn page.wrong;`);
    } catch (why) {
        return [`a trial broke off: ${why instanceof Error ? why.message : why}`];
    }
}

/** @type {Trial} */
const open = ({ load }, name) => load(name);

/** @type {Trial} opens a lesson and goes to a part of its steps, from 0 to 1 */
const openAt = async ({ $, load, slide, pause }, [name, part]) => {
    await load(name);
    slide(Math.floor(part * Number($("slider").max)));
    await pause(150);
};

/** @type {Trial} opens a table */
const table = async ({ press, pause }, name) => {
    press(`tab-${name}`);
    await pause(100);
};

/** @type {Trial} */
const larger = ({ press }, times) => {
    for (let at = 0; at < times; at += 1) press("larger");
};

/** @type {Trial} */
const index = ({ press, $ }, isOpen) => {
    if (isOpen) press("lessons");
    press("index-answers");
    if (!isOpen) $("index").close();
};

/** @type {Trial} opens the script for editing, or closes it */
const edit = async ({ press, pause }) => {
    press("edit");
    await pause(100);
};

/** @type {Trial} opens the menu of the first part of the map, or closes it */
const menu = async ({ $, key, focused, pause }, isOpen) => {
    key("Escape", focused());
    if (isOpen) key("Enter", $("network"));
    if (isOpen) key("Enter", focused());
    await pause(100);
};

/** 63 IMPs in a ring with chords, four hosts at each, and messages across. */
function largeNetwork() {
    const imps = Array.from({ length: 63 }, (_, place) => place + 1);
    const ring = imps.map((imp) => [imp, (imp % 63) + 1]);
    const chords = imps.filter((imp) => imp % 4 === 1).map((imp) => [imp, ((imp + 20) % 63) + 1]);
    const script = ["calm 13", "out 0/1 0/30 5 8 41", "out 1/2 2/40 5 8 42", "calm 12", "take 0/30", "calm 12"];
    return [
        "raw = true",
        ...imps.flatMap((imp) => ["[[imp]]", `id = ${imp}`, "hosts = 4"]),
        ...[...ring, ...chords].flatMap(([a, b]) => ["[[line]]", `a = ${a}`, `b = ${b}`]),
        ...["%", ...script, "out 3/50 2/7 9 16 4142", "calm 12", ""],
    ].join("\n");
}

/** A message and its RFNM on each of 256 links between two hosts. */
function messageOnEachLink() {
    const imps = [1, 2].flatMap((imp) => ["[[imp]]", `id = ${imp}`, "hosts = 1"]);
    const answered = ["deliver 0 - 1", "drop 0 - 0", "drop 0 - 0", "take 0/1", "drop 0 + 0"];
    const events = Array.from({ length: 256 }, (_, link) => (
        [`out 0/1 0/2 ${link} 8 41`, "deliver 0 + 0", "drop 0 + 0", "take 0/2", ...answered]
    ));
    return ["raw = true", ...imps, "[[line]]", "a = 1", "b = 2", "%", "calm 2", ...events.flat(), ""].join("\n");
}

/** What trials are given, by their names. */
const GIVEN = /** @type {{[name: string]: (() => string) | undefined}} */ ({
    large: largeNetwork,
    legible: () => "arpanet-of-july-1977",
    namedOnPaper: () => "arpanet-of-july-1977",
    uncovered: () => PACKETS,
    linked: messageOnEachLink,
});

/** What a reader comes to on the way through the page, in this order. */
const WAY = [
    "Dorydate",
    "lesson or example",
    "Share",
    "script and chart",
    "map of the network",
    "Larger map",
    "Waits",
    "Next step",
];

/**
 * What is wrong for who hears the page: what takes the focus has a role and a name in words, nothing is
 * said twice, no two regions have one name, and the way through the page is that of the eyes. Only Chromium says it.
 *
 * @param {Browser} browser
 * @param {boolean} [isWhole] whether nothing is over the page
 * @returns {Promise<string[]>}
 */
async function heard(browser, isWhole = true) {
    const tree = (await browser.tree()).filter((it) => !["option", "RootWebArea"].includes(it.role));
    if (!tree.length) return [];
    const nameless = tree.filter((it) => it.isReached && !/[A-Za-z]{2}/.test(it.name));
    const without = tree.filter((it) => it.isReached && ["", "generic", "none"].includes(it.role));
    const twice = tree.filter((it) => it.name && it.name === it.about);
    const regions = tree.filter((it) => it.role === "region").map((it) => it.name);
    const places = WAY.map((name) => tree.findIndex((it) => it.name.startsWith(name) && it.role !== "StaticText"));
    const isInOrder = places.every((place, at) => place >= 0 && (at === 0 || place > places[at - 1]));
    return [
        ...nameless.map((it) => `no name in words for who hears a ${it.role}: ${it.name}`),
        ...without.map((it) => `no role for who hears ${it.name.slice(0, 40)}`),
        ...twice.map((it) => `said twice: ${it.name}`),
        ...regions.filter((it, at) => regions.indexOf(it) < at).map((it) => `two regions are called ${it}`),
        ...(isInOrder || !isWhole ? [] : [`who hears the page comes to ${WAY} at ${places}`]),
    ];
}

/**
 * What is wrong for who hears the page: at a step with each table, in the editor, in a menu, and in the index.
 *
 * @param {Browser} browser
 * @param {string} [sought] words with which it ends; without them it tells all
 * @returns {Promise<string[]>}
 */
async function spoken(browser, sought) {
    /** @type {string[]} */
    const wrong = [];
    const look = async (/** @type {string} */ what, /** @type {[Trial, any?][]} */ tried, isWhole = true) => {
        if (sought && wrong.some((it) => it.includes(sought))) return;
        wrong.push(...(await trial(browser, ...tried)));
        wrong.push(...(await heard(browser, isWhole)).map((it) => `${what}: ${it}`));
    };
    for (const name of ["arpanet-of-december-1969", "lo-of-login"]) {
        await look(name, [[openAt, [name, 0.5]]]);
        for (const it of TABLES) await look(`${name}, ${it}`, [[table, it]]);
    }
    await look("the editor", [[edit]], false);
    await look("a menu", [[edit], [menu, true]], false);
    await look("the index", [[menu, false], [index, true]], false);
    await trial(browser, [index, false]);
    return wrong;
}

/** @type {Trial} the page has its dark colours */
const darkened = ({ want }) => {
    const ground = getComputedStyle(document.body).backgroundColor;
    const parts = (ground.match(/\d+/g) ?? []).slice(0, 3).map(Number);
    want(parts.every((it) => it < 80), `in the dark the page is ${ground}`);
};

/**
 * The dark colours, and what is printed.
 *
 * @param {Browser} browser
 * @returns {Promise<string[]>}
 */
async function darkAndPaper(browser) {
    const { contrast, namedOnPaper, paper } = trials;
    await browser.look({ dark: true });
    const wrong = await trial(browser, [darkened]);
    for (const name of SHOWN) {
        const found = await trial(browser, [openAt, [name, 0.6]], [contrast]);
        wrong.push(...found.map((it) => `${name} in the dark: ${it}`));
    }
    await browser.resize(794, 1123); // a sheet of A4
    await browser.look({ paper: true });
    for (const name of SHOWN) {
        const found = await trial(browser, [open, name], [paper]);
        wrong.push(...found.map((it) => `${name}: ${it}`));
    }
    for (const name of MAPS) wrong.push(...(await trial(browser, [namedOnPaper, name])));
    wrong.push(...(await trial(browser, [index, true], [paper], [index, false])));
    await browser.look({});
    return wrong;
}

/**
 * What a part of the trials found wrong, and what it tried, in words.
 *
 * @typedef {{wrong: string[], tried: string}} Found
 */

/**
 * Each lesson is stepped forth and back.
 *
 * @param {Browser} browser
 * @param {string} called a pattern of the names of those that are, "" for all
 * @returns {Promise<Found>}
 */
async function lessons(browser, called) {
    const wrong = await trial(browser, [trials.entered]);
    const first = await browser.evaluate("return Math.round(performance.now());");
    const options = 'document.querySelectorAll("#lesson option")';
    const every = await browser.evaluate(`return [...${options}].map((it) => it.value);`);
    const names = every.filter((/** @type {string} */ it) => RegExp(called).test(it));
    let steps = 0;
    for (const [place, name] of names.entries()) {
        if (/a-bad-line|an-unknown-event/.test(name)) continue;
        const found = await trial(browser, [open, name], [trials.stepped, name]);
        wrong.push(...found.map((it) => (it.includes(name) ? it : `${name}: ${it}`)));
        steps += await browser.evaluate('return Number(document.getElementById("slider").max);');
        if (place % 20 === 19) console.log(`${browser.name}: lessons: ${place + 1} of ${names.length}`);
    }
    return { wrong, tried: `ready after ${first} ms, ${names.length} lessons with ${steps} steps forth and back` };
}

/**
 * What one does in the page: large networks, menus, addresses, keys, tables, the editor; and what is heard.
 *
 * @param {Browser} browser
 * @returns {Promise<Found>}
 */
async function deeds(browser) {
    /** @type {string[]} */
    const wrong = [];
    const { keys, tapped, holding, distances, compared, printed, hidden, typed } = trials;
    const { booked, bundles, followed, happening, judged, large, linked, named, sending, unopened } = trials;
    for (const size of LARGE) {
        await browser.resize(...size);
        wrong.push(...(await trial(browser, [large, largeNetwork()], [followed], [bundles])));
        const measured = await browser.evaluate("return document.documentElement.dataset.measured;");
        console.log(`${browser.name}: 63 IMPs at ${size.join(" by ")}: ${measured}, at load ${load().toFixed(1)}`);
    }
    await browser.resize(...WIDE);
    wrong.push(...(await trial(browser, [linked, messageOnEachLink()])));
    for (const size of [WIDE, ...LARGE]) {
        await browser.resize(...size);
        wrong.push(...(await trial(browser, [sending])).map((it) => `${it}, at ${size.join(" by ")}`));
    }
    await browser.resize(...WIDE);
    const bodies = [
        named, unopened, happening, judged, keys, tapped, holding,
        distances, compared, booked, printed, hidden, typed,
    ];
    for (const body of bodies) wrong.push(...(await trial(browser, [body])));
    wrong.push(...(await spoken(browser)));
    return { wrong, tried: `${bodies.length + 5} kinds of deeds` };
}

/**
 * At each size nothing is cut and no text is on another.
 *
 * @param {Browser} browser
 * @returns {Promise<Found>}
 */
async function sizes(browser) {
    /** @type {string[]} */
    const wrong = [];
    const { measured, contrast, reached, touched } = trials;
    let places = 0;
    for (const [width, height] of SIZES) {
        await browser.resize(width, height);
        for (const name of SHOWN) {
            for (const part of [0, 0.35, 0.8]) {
                const tried = /** @type {[Trial, any?][]} */ ([[openAt, [name, part]], [measured], [contrast]]);
                const found = await trial(browser, ...tried, ...(part ? [/** @type {[Trial]} */ ([reached])] : []));
                wrong.push(...found.map((it) => `${name} at ${width} by ${height}: ${it}`));
                places += 1;
            }
        }
        for (const name of WITH_PROGRAMS) {
            const found = await trial(browser, [openAt, [name, 0.6]], [table, "hosts"], [measured], [contrast]);
            wrong.push(...found.map((it) => `${name}, its hosts, at ${width} by ${height}: ${it}`));
            const listed = await trial(browser, [table, "next"], [measured]);
            wrong.push(...listed.map((it) => `${name}, what is possible, at ${width} by ${height}: ${it}`));
            const faults = await trial(browser, [touched], [measured], [contrast]);
            wrong.push(...faults.map((it) => `${name}, its book, at ${width} by ${height}: ${it}`));
            await trial(browser, [table, "waits"]);
            places += 1;
        }
    }
    for (const [width, height] of LARGER) {
        await browser.resize(width, height);
        const at = ["arpanet-of-december-1969", 0.35];
        const found = await trial(browser, [larger, 2], [openAt, at], [measured], [larger, 1]);
        wrong.push(...found.map((it) => `the largest text at ${width} by ${height}: ${it}`));
        places += 1;
    }
    return { wrong, tried: `${places} places at ${SIZES.length} sizes` };
}

/**
 * Maps can be read at each size.
 *
 * @param {Browser} browser
 * @returns {Promise<Found>}
 */
async function maps(browser) {
    /** @type {string[]} */
    const wrong = [];
    const { legible, uncovered } = trials;
    for (const [width, height] of READ_AT) {
        await browser.resize(width, height);
        const tried = MAPS.map((name) => /** @type {[Trial, any?]} */ ([legible, name]));
        const found = await trial(browser, ...tried, [uncovered, PACKETS]);
        wrong.push(...found.map((it) => `${it}, at ${width} by ${height}`));
    }
    return { wrong, tried: `${MAPS.length} maps at ${READ_AT.length} sizes` };
}

/** The parts of the trials that need only the page, by their names. */
const PARTS = /** @type {{[name: string]: (browser: Browser, called: string) => Promise<Found>}} */ ({
    lessons,
    deeds,
    sizes,
    maps,
    looks: async (browser) => ({ wrong: await darkAndPaper(browser), tried: "in the dark and on paper" }),
});

/**
 * Plants each fault in the page; those that aren't found are wrong. A page that is opened anew for each fault takes most
 * of the time, so its trial ends with the first thing that shows it.
 *
 * @param {Browser} browser
 * @param {string} page
 * @param {string} called words of the faults that are planted, "" for all
 * @returns {Promise<Found>}
 */
async function faults(browser, page, called) {
    const room = mkdtempSync(`${tmpdir()}/workbench-`);
    const whole = opened(readFileSync(page, "utf8"));
    /** @type {string[]} */
    const wrong = [];
    let tried = 0;
    for (const fault of PLANTED.filter((it) => it.what.includes(called))) {
        if (!(await shows(browser, fault))) continue;
        tried += 1;
        const found = await planted(browser, fault, whole, `${room}/planted.html`);
        const isFound = found.some((it) => it.includes(fault.words));
        console.log(`${browser.name}: faults: ${isFound ? "found" : "not found"}: ${fault.what}`);
        if (!isFound) wrong.push(`a planted fault was not found: ${fault.what}: ${found.slice(0, 3).join("; ")}`);
    }
    rmSync(room, { recursive: true, force: true });
    return { wrong, tried: `${tried - wrong.length} of ${tried} planted faults found` };
}

/**
 * Whether a browser can show what a fault does.
 *
 * @param {Browser} browser
 * @param {import("./planted.js").Planted} fault
 */
async function shows(browser, { by, only }) {
    return (!only || only === browser.name) && (by !== "spoken" || (await browser.tree()).length > 0);
}

/**
 * What the trial of a fault finds wrong in a page that has it.
 *
 * @param {Browser} browser
 * @param {import("./planted.js").Planted} fault
 * @param {string} page without it
 * @param {string} file where the page with it is put
 * @returns {Promise<string[]>}
 */
async function planted(browser, { from, to, by, size, words }, page, file) {
    if (!page.includes(from)) return ["there is no place to plant it"];
    writeFileSync(file, page.replace(from, () => to));
    await browser.resize(...(size ?? WIDE));
    await browser.open(`file://${file}`);
    if (by === "entered") { // a visit is the first one where the tab keeps nothing of another
        await browser.evaluate("sessionStorage.clear();");
        await browser.open(`file://${file}`);
    }
    await browser.look({ paper: by === "paper" });
    const body = /** @type {{[name: string]: Trial}} */ (/** @type {unknown} */ (trials))[by];
    const found = by === "spoken" ? await spoken(browser, words) : await findings(browser, words, [[body, GIVEN[by]?.()]]);
    await browser.look({});
    return found;
}

/**
 * Runs the parts that are asked for in one browser; whether something is wrong.
 *
 * @param {Browser} browser
 * @param {string} page
 * @param {string[]} asked
 */
async function failsIn(browser, page, asked) {
    const words = new Map(asked.map((it) => /** @type {[string, string]} */ (it.split(/=(.*)/s).slice(0, 2))));
    const is = (/** @type {string} */ name) => !asked.length || words.has(name);
    let count = 0;
    /** @type {(name: string, run: () => Promise<Found>) => Promise<void>} */
    const tell = async (name, run) => {
        const { wrong, tried } = await run();
        for (const it of wrong.slice(0, 40)) console.log(`${browser.name}: ${it}`);
        console.log(`${browser.name}: ${name}: ${tried}, ${wrong.length} things wrong`);
        count += wrong.length;
    };
    await browser.resize(...WIDE);
    await browser.open(`file://${page}`);
    for (const [name, part] of Object.entries(PARTS)) {
        if (is(name)) await tell(name, () => part(browser, words.get(name) ?? ""));
    }
    const others = browser.requests().filter((it) => !/^(?:file|blob|data):/.test(it));
    if (others.length) console.log(`${browser.name}: the page asks for ${others[0]}`);
    if (is("faults")) await tell("faults", () => faults(browser, page, words.get("faults") ?? ""));
    return count + others.length > 0;
}

async function main() {
    const [page, ...words] = process.argv.slice(2);
    const asked = words.filter((it) => it.startsWith("--")).map((it) => it.slice(2));
    const unknown = asked.filter((it) => !/^(?:faults|lessons)(?:=|$)/.test(it) && !(it in PARTS));
    if (unknown.length) throw new Error(`there is no part ${unknown}: ${Object.keys(PARTS)}, faults`);
    const octets = new TextEncoder().encode(readFileSync(page, "utf8")).length;
    let failed = octets > MOST_OCTETS;
    console.log(`the page has ${octets} octets${failed ? `, more than ${MOST_OCTETS}` : ""}`);
    for (const program of words.filter((it) => !it.startsWith("--"))) {
        const start = /firefox/.test(program) ? firefox : /WebKit/.test(program) ? webkit : chromium;
        const browser = await start(program);
        try {
            if (await failsIn(browser, page, asked)) failed = true;
        } finally {
            await browser.close();
        }
    }
    process.exit(failed ? 1 : 0);
}

await main();
