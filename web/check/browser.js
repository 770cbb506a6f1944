/**
 * Drives a browser without a library: Chromium by its pipe of DevTools messages, Firefox by Marionette, a socket of its
 * own, and WebKit by its WebDriver, over HTTP.
 *
 * Each gives a `Browser`. It runs without a window, WebKit on a screen that nobody sees, with a profile of its own,
 * which is removed afterwards.
 */

import { spawn } from "node:child_process";
import { existsSync, mkdirSync, mkdtempSync, readFileSync, readdirSync, rmSync, writeFileSync } from "node:fs";
import { request } from "node:http";
import { connect } from "node:net";
import { cpus, loadavg, tmpdir } from "node:os";

/**
 * A node of the tree that a screen reader is given.
 *
 * @typedef {object} Spoken
 * @property {string} role
 * @property {string} name
 * @property {string} about what is said of it beside its name
 * @property {boolean} isReached whether it takes the focus
 */

/**
 * How a page is looked at: as on paper, in the dark, or, without a word, in the light on a screen.
 *
 * @typedef {{paper?: boolean, dark?: boolean}} Look
 */

/**
 * A browser with one page.
 *
 * @typedef {object} Browser
 * @property {string} name
 * @property {(address: string) => Promise<void>} open opens a page, and waits until it is loaded
 * @property {(body: string) => Promise<any>} evaluate runs the body of an async function in the page, and gives what it
 *     returns
 * @property {(width: number, height: number) => Promise<void>} resize sets the size of the page, in CSS pixels
 * @property {(how: Look) => Promise<void>} look shows the page as on paper or in the dark, until another one is opened
 * @property {(file: string) => Promise<void>} shoot writes a picture of the page
 * @property {(file: string) => Promise<void>} print writes what is printed of the page, as PDF
 * @property {() => Promise<Spoken[]>} tree what a screen reader gets, in order: only Chromium says it
 * @property {() => string[]} requests the addresses that the page has asked for; only Chromium tells
 * @property {() => Promise<void>} close
 */

const MOST_WORK = 900; // seconds of the processor that a browser may take for one step: WebKit draws slowly
const LONGEST = 3_600; // seconds by the clock after which it has stopped working, whatever else the machine does
const TICKS = 100; // of a second of the processor, as Linux counts
const MOST_LOAD = 5;
const END = 20_000; // milliseconds that a browser has to end by itself

/**
 * How many times longer a page may take for what else the machine has to do at present: 1 where it has a processor
 * free, 5 at most.
 */
export function load() {
    return Math.min(MOST_LOAD, Math.max(1, loadavg()[0] / cpus().length));
}

/** @type {(milliseconds: number) => Promise<void>} */
const pause = (milliseconds) => new Promise((resolve) => setTimeout(() => resolve(), milliseconds));

/**
 * The ticks of the processor that a program, and all that it has started, has taken so far.
 *
 * @param {number} root
 */
function ticksOf(root) {
    /** @type {Map<number, {parent: number, ticks: number}>} */
    const found = new Map();
    for (const name of readdirSync("/proc").filter((it) => /^\d+$/.test(it))) {
        try {
            const fields = readFileSync(`/proc/${name}/stat`, "latin1").split(") ").at(-1)?.split(" ") ?? [];
            const [parent, user, system] = [1, 11, 12].map((it) => Number(fields[it]));
            found.set(Number(name), { parent, ticks: user + system });
        } catch {
            // it has ended meanwhile
        }
    }
    const isOfRoot = (/** @type {number} */ id) => {
        for (let at = id; at; at = found.get(at)?.parent ?? 0) if (at === root) return true;
        return false;
    };
    return [...found].reduce((sum, [id, it]) => sum + (isOfRoot(id) ? it.ticks : 0), 0);
}

/**
 * Whether a browser has had enough for one step, from now on: not by the clock, which no load of the machine slows.
 *
 * @param {number} browser the number of its process
 */
function patience(browser) {
    const [began, before] = [Date.now(), ticksOf(browser)];
    return () => ticksOf(browser) - before > MOST_WORK * TICKS || Date.now() - began > 1000 * LONGEST;
}

/**
 * What comes of a promise, or an error that says what was awaited, once a browser has had enough for it.
 *
 * @template Answer
 * @param {Promise<Answer>} promise
 * @param {string} what
 * @param {number} browser the number of its process
 * @returns {Promise<Answer>}
 */
function within(promise, what, browser) {
    const [began, isLate] = [Date.now(), patience(browser)];
    /** @type {ReturnType<typeof setInterval>} */
    let timer;
    const late = new Promise((_, reject) => {
        timer = setInterval(() => {
            const seconds = Math.round((Date.now() - began) / 1000);
            if (isLate()) reject(new Error(`${what}: no answer in ${seconds} s and ${MOST_WORK} of the processor`));
        }, 2000);
    });
    return /** @type {Promise<Answer>} */ (Promise.race([promise, late])).finally(() => clearInterval(timer));
}

/**
 * Shows a page as on paper or in the dark where its browser has no call for that: the page's own rules for it hold, and
 * no others. It runs in the page.
 *
 * @param {Look} how
 */
function shown({ paper, dark }) {
    const known = /** @type {{written?: Map<any, string>}} */ (/** @type {unknown} */ (window));
    const written = (known.written ??= new Map()); // what rules ask for, as they were written
    const rules = [...document.styleSheets].flatMap((sheet) => [...sheet.cssRules].filter((it) => "media" in it));
    for (const rule of /** @type {any[]} */ (rules)) {
        if (!written.has(rule)) written.set(rule, rule.media.mediaText);
        const asked = written.get(rule) ?? "";
        const holds = (paper && asked === "print") || (dark && asked.includes("dark"));
        rule.media.mediaText = holds ? "all" : asked;
    }
    document.documentElement.style.colorScheme = dark ? "dark" : "";
}

/**
 * Asks until something is there.
 *
 * @template Answer
 * @param {() => Answer | Promise<Answer>} look
 * @param {string} what
 * @param {number} browser the number of its process
 * @returns {Promise<NonNullable<Answer>>}
 */
async function until(look, what, browser) {
    for (const isLate = patience(browser); !isLate(); await pause(500)) {
        const found = await look();
        if (found) return found;
    }
    throw new Error(`never: ${what}`);
}

/**
 * A script that calls its last argument with what the body of an async function returns, or why it doesn't.
 *
 * @param {string} body
 */
function answering(body) {
    return `const done = arguments[0];
        (async () => {${body}})().then((it) => done({ it }), (why) => done({ why: String(why) }))`;
}

/**
 * Ends a program that was started here; one that doesn't end by itself is killed.
 *
 * @param {{kill: (signal: string) => void}} child
 * @param {Promise<unknown>} ended
 */
async function stopped(child, ended) {
    child.kill("SIGTERM");
    const timer = setTimeout(() => child.kill("SIGKILL"), END);
    await ended;
    clearTimeout(timer);
}

/**
 * Numbered questions and their answers.
 *
 * @param {number} browser the number of its process
 * @param {(number: number, method: string, given: object) => void} send
 */
function questions(browser, send) {
    /** @type {Map<number, {resolve: (answer: any) => void, reject: (why: Error) => void}>} */
    const open = new Map();
    let last = 0;
    let gone = "";
    return {
        /** @type {(method: string, given?: object) => Promise<any>} */
        ask(method, given = {}) {
            if (gone) return Promise.reject(new Error(`${method}: ${gone}`));
            const number = ++last;
            send(number, method, given);
            const answered = new Promise((resolve, reject) => open.set(number, { resolve, reject }));
            return within(answered, method, browser).finally(() => open.delete(number));
        },
        /**
         * Nobody answers any more: what is asked fails with this reason.
         *
         * @type {(why: string) => void}
         */
        end(why) {
            gone = why;
            for (const { reject } of open.values()) reject(new Error(why));
        },
        /** @type {(number: number, error: object | null | undefined, answer: any) => void} */
        answer(number, error, answer) {
            const waiting = open.get(number);
            open.delete(number);
            if (error) waiting?.reject(new Error(JSON.stringify(error)));
            else waiting?.resolve(answer);
        },
    };
}

/**
 * @param {string} program
 * @returns {Promise<Browser>}
 */
export async function chromium(program) {
    const profile = mkdtempSync(`${tmpdir()}/chromium-`);
    const words = [
        "--headless",
        "--no-sandbox",
        "--disable-gpu",
        "--no-first-run",
        "--remote-debugging-pipe",
        `--user-data-dir=${profile}`,
    ];
    const child = spawn(program, words, { stdio: ["ignore", "ignore", "ignore", "pipe", "pipe"] });
    const ended = new Promise((resolve) => child.on("exit", resolve));
    const [, , , to, from] = child.stdio;
    /** @type {string[]} */
    const requests = [];
    let session = "";
    const { ask, answer, end } = questions(
        child.pid,
        (id, method, params) => to.write(
            JSON.stringify({ id, method, params, ...(session && { sessionId: session }) }) + "\0",
        ),
    );
    /** @type {Map<string, () => void>} */
    const awaited = new Map();
    const decoder = new TextDecoder();
    let rest = "";
    from.on("data", (/** @type {Uint8Array} */ octets) => {
        const messages = (rest + decoder.decode(octets, { stream: true })).split("\0");
        rest = messages.pop() ?? "";
        for (const message of messages.map((it) => JSON.parse(it))) {
            if (message.id) answer(message.id, message.error, message.result);
            if (message.method === "Network.requestWillBeSent") requests.push(message.params.request.url);
            if (message.method === "Inspector.targetCrashed") end("the page has crashed");
            awaited.get(message.method)?.();
        }
    });
    void ended.then(() => end("Chromium has ended"));
    const { targetId } = await ask("Target.createTarget", { url: "about:blank" });
    session = (await ask("Target.attachToTarget", { targetId, flatten: true })).sessionId;
    for (const domain of ["Page", "Runtime", "Network", "Inspector"]) await ask(`${domain}.enable`);
    return {
        name: "Chromium",
        async open(url) {
            const loaded = new Promise((resolve) => awaited.set("Page.loadEventFired", () => resolve(undefined)));
            await ask("Page.navigate", { url });
            await within(loaded, `opening ${url}`, child.pid);
        },
        async evaluate(body) {
            const ran = await ask(
                "Runtime.evaluate",
                { expression: `(async () => {${body}})()`, awaitPromise: true, returnByValue: true },
            );
            if (ran.exceptionDetails) {
                throw new Error(JSON.stringify(ran.exceptionDetails.exception ?? ran.exceptionDetails.text));
            }
            return ran.result.value;
        },
        async resize(width, height) {
            await ask(
                "Emulation.setDeviceMetricsOverride",
                { width, height, deviceScaleFactor: 1, mobile: width < 600 },
            );
        },
        async look({ paper, dark }) {
            const features = [{ name: "prefers-color-scheme", value: dark ? "dark" : "light" }];
            await ask("Emulation.setEmulatedMedia", { media: paper ? "print" : "", features });
        },
        async shoot(file) {
            writeFileSync(file, (await ask("Page.captureScreenshot", {})).data, "base64");
        },
        async print(file) {
            writeFileSync(
                file,
                (await ask("Page.printToPDF", { paperWidth: 8.27, paperHeight: 11.69 })).data,
                "base64",
            );
        },
        tree: async () => treeOf(ask),
        requests: () => requests,
        async close() {
            await stopped(child, ended);
            rmSync(profile, { recursive: true, force: true });
        },
    };
}

/**
 * What a screen reader gets: Chromium's accessibility tree, in its order.
 *
 * @param {(method: string, given?: object) => Promise<any>} ask
 * @returns {Promise<Spoken[]>}
 */
async function treeOf(ask) {
    /** @type {{nodes: any[]}} */
    const { nodes } = await ask("Accessibility.getFullAXTree");
    const byId = new Map(nodes.map((it) => [it.nodeId, it]));
    /** @type {any[]} */
    const found = [];
    const walk = (/** @type {any} */ node) => {
        if (!node.ignored) found.push(node);
        for (const id of node.childIds ?? []) if (byId.has(id)) walk(byId.get(id));
    };
    walk(nodes[0]);
    return found.map((it) => ({
        role: it.role?.value ?? "",
        name: it.name?.value ?? "",
        about: it.description?.value ?? "",
        isReached: (it.properties ?? []).some((/** @type {any} */ one) => one.name === "focusable" && one.value.value),
    }));
}

/**
 * @param {string} program
 * @returns {Promise<Browser>}
 */
export async function firefox(program) {
    const profile = mkdtempSync(`${tmpdir()}/firefox-`);
    writeFileSync(
        `${profile}/user.js`,
        'user_pref("marionette.port", 0);\nuser_pref("datareporting.policy.dataSubmissionEnabled", false);\n'
            + 'user_pref("toolkit.legacyUserProfileCustomizations.stylesheets", true);\n',
    );
    mkdirSync(`${profile}/chrome`); // windows may be as narrow as a telephone
    writeFileSync(`${profile}/chrome/userChrome.css`, ":root { min-width: 0 !important; min-height: 0 !important; }\n");
    const child = spawn(
        program,
        ["--headless", "--marionette", "--no-remote", "--profile", profile],
        { stdio: ["ignore", "ignore", "ignore"] },
    );
    const ended = new Promise((resolve) => child.on("exit", resolve));
    const file = `${profile}/MarionetteActivePort`; // which it listens on
    const port = () => (existsSync(file) ? Number(readFileSync(file, "utf8")) : 0);
    const socket = connect(await until(port, "Firefox listens", child.pid), "127.0.0.1");
    const { ask, answer, end } = questions(child.pid, (number, method, given) => {
        const message = JSON.stringify([0, number, method, given]);
        socket.write(`${new TextEncoder().encode(message).length}:${message}`);
    });
    void ended.then(() => end("Firefox has ended"));
    const greeted = new Promise((resolve) => {
        let rest = new Uint8Array();
        socket.on("data", (/** @type {Uint8Array} */ octets) => {
            rest = Uint8Array.from([...rest, ...octets]);
            for (let colon = rest.indexOf(58); colon >= 0; colon = rest.indexOf(58)) {
                const last = colon + 1 + Number(new TextDecoder().decode(rest.subarray(0, colon)));
                if (rest.length < last) return;
                const message = JSON.parse(new TextDecoder().decode(rest.subarray(colon + 1, last)));
                rest = rest.slice(last);
                if (Array.isArray(message)) answer(message[1], message[2], message[3]);
                else resolve(undefined);
            }
        });
    });
    await within(greeted, "Firefox's greeting", child.pid);
    await ask("WebDriver:NewSession", {});
    await ask("WebDriver:SetTimeouts", { script: 1000 * LONGEST, pageLoad: 1000 * LONGEST });
    const evaluate = async (/** @type {string} */ body) => {
        const { value } = await ask("WebDriver:ExecuteAsyncScript", { script: answering(body), args: [] });
        if (value.why) throw new Error(value.why);
        return value.it;
    };
    return {
        name: "Firefox",
        async open(url) {
            await ask("WebDriver:Navigate", { url });
        },
        evaluate,
        async resize(width, height) {
            await ask("WebDriver:SetWindowRect", { width, height });
            // the window is larger than its page
            const script = "return [outerWidth - innerWidth, outerHeight - innerHeight];";
            const { value: [beside, above] } = await ask("WebDriver:ExecuteScript", { script, args: [] });
            await ask("WebDriver:SetWindowRect", { width: width + beside, height: height + above });
        },
        look: (how) => evaluate(`(${shown})(${JSON.stringify(how)});`),
        async shoot(file) {
            writeFileSync(file, (await ask("WebDriver:TakeScreenshot", { full: false })).value, "base64");
        },
        async print(file) {
            writeFileSync(file, (await ask("WebDriver:Print", {})).value, "base64");
        },
        tree: async () => [],
        requests: () => [],
        async close() {
            socket.end();
            await stopped(child, ended);
            rmSync(profile, { recursive: true, force: true });
        },
    };
}

/**
 * A screen that nobody sees.
 *
 * @returns {Promise<{name: string, end: () => void}>} the name of the display
 */
async function screen() {
    const words = ["-displayfd", "3", "-screen", "0", "2000x1600x24", "-nolisten", "tcp"];
    const child = spawn("Xvfb", words, { stdio: ["ignore", "ignore", "ignore", "pipe"] });
    const named = new Promise((resolve, reject) => {
        child.on("error", reject);
        const listen = (/** @type {Uint8Array} */ octets) => resolve(new TextDecoder().decode(octets).trim());
        child.stdio[3].on("data", listen);
    });
    const number = await within(named, "the name of a screen", child.pid);
    return { name: `:${number}`, end: () => child.kill("SIGTERM") };
}

/**
 * The answer of a server here.
 *
 * @param {number} port
 * @param {string} method
 * @param {string} path
 * @param {string} body
 * @returns {Promise<{status: number, text: string}>}
 */
function answered(port, method, path, body) {
    return new Promise((resolve, reject) => {
        const headers = { "Content-Length": new TextEncoder().encode(body).length };
        const asked = request({ host: "127.0.0.1", port, method, path, headers }, (answer) => {
            const decoder = new TextDecoder();
            let text = "";
            answer.on("data", (octets) => (text += decoder.decode(octets, { stream: true })));
            answer.on("end", () => resolve({ status: answer.statusCode, text }));
        });
        asked.on("error", reject);
        asked.end(body);
    });
}

/**
 * The program `WebKitWebDriver`, which starts a small browser, on a screen that nobody sees.
 *
 * @param {string} program
 */
async function driver(program) {
    const display = await screen();
    const home = mkdtempSync(`${tmpdir()}/webkit-`);
    mkdirSync(`${home}/gtk-3.0`); // windows may be as narrow as a telephone
    const style = "* { min-width: 0; padding: 0; margin: 0; font-size: 1px; -gtk-icon-transform: scale(0); }\n";
    writeFileSync(`${home}/gtk-3.0/gtk.css`, style);
    const port = 20_000 + (Number(display.name.slice(1)) % 10_000);
    const folders = { HOME: home, XDG_CACHE_HOME: home, XDG_CONFIG_HOME: home, XDG_DATA_HOME: home };
    const env = { ...process.env, ...folders, DISPLAY: display.name, GDK_BACKEND: "x11" };
    const child = spawn(program, [`--port=${port}`], { env, stdio: ["ignore", "ignore", "ignore"] });
    const ended = new Promise((resolve) => child.on("exit", resolve));
    return {
        id: child.pid,
        /** @type {(method: string, path: string, given?: object) => Promise<any>} */
        async ask(method, path, given) {
            const asked = answered(port, method, path, given ? JSON.stringify(given) : "");
            const { status, text } = await within(asked, `${method} ${path}`, child.pid);
            const { value } = JSON.parse(text);
            if (status !== 200) throw new Error(`${value.error}: ${value.message}`);
            return value;
        },
        async end() {
            await stopped(child, ended);
            display.end();
            rmSync(home, { recursive: true, force: true });
        },
    };
}

/**
 * WebKit, by `WebKitWebDriver`. It needs `Xvfb`.
 *
 * @param {string} program
 * @returns {Promise<Browser>}
 */
export async function webkit(program) {
    const { ask, id, end } = await driver(program);
    await until(() => ask("GET", "/status").then((it) => it.ready, () => false), "WebKit listens", id);
    const session = `/session/${(await ask("POST", "/session", { capabilities: {} })).sessionId}`;
    await ask("POST", `${session}/timeouts`, { script: 1000 * LONGEST, pageLoad: 1000 * LONGEST });
    const evaluate = async (/** @type {string} */ body) => {
        const value = await ask("POST", `${session}/execute/async`, { script: answering(body), args: [] });
        if (value.why) throw new Error(value.why);
        return value.it;
    };
    return {
        name: "WebKit",
        async open(url) {
            await ask("POST", `${session}/url`, { url });
        },
        evaluate,
        async resize(width, height) {
            // the window is larger than its page, and comes to its size by and by
            let [beside, above] = [0, 0];
            for (let tried = 0; tried < 20; tried += 1) {
                await ask("POST", `${session}/window/rect`, { width: width + beside, height: height + above });
                await pause(50);
                const script = "return [innerWidth, innerHeight, outerWidth - innerWidth, outerHeight - innerHeight];";
                const found = await ask("POST", `${session}/execute/sync`, { script, args: [] });
                if (found[0] === width && found[1] === height) {
                    // the page hears of it before it is drawn again
                    const drawn = "requestAnimationFrame(() => requestAnimationFrame(arguments[0]));";
                    return void (await ask("POST", `${session}/execute/async`, { script: drawn, args: [] }));
                }
                [beside, above] = found.slice(2);
            }
            throw new Error(`WebKit's window does not come to ${width} by ${height}`);
        },
        look: (how) => evaluate(`(${shown})(${JSON.stringify(how)});`),
        async shoot(file) {
            writeFileSync(file, await ask("GET", `${session}/screenshot`), "base64");
        },
        async print(file) {
            writeFileSync(file, await ask("POST", `${session}/print`, {}), "base64");
        },
        tree: async () => [],
        requests: () => [],
        async close() {
            await ask("DELETE", session).catch(() => {});
            await end();
        },
    };
}
