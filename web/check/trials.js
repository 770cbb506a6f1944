/**
 * What is tried in the page of the workbench: each function runs there, by itself, and is given what it may use.
 *
 * So none of them may use a name of this module. What is wrong is noted by `want`.
 */

/**
 * @typedef {object} Page what a trial uses. Elements are of any kind, and have to be there
 * @property {(id: string) => any} $ an element by its id
 * @property {(selector: string) => any} one
 * @property {(selector: string) => any[]} all
 * @property {() => any} focused the element that has the focus
 * @property {(milliseconds: number) => Promise<void>} pause
 * @property {(holds: () => unknown, what: string, seconds?: number) => Promise<void>} until
 * @property {() => Promise<void>} ready waits until the page is ready
 * @property {(does: () => void) => Promise<void>} changed does something, and waits until the script is replayed
 * @property {(id: string) => void} press
 * @property {(at: number) => void} slide goes to a step
 * @property {(name: string) => Promise<void>} load opens a lesson
 * @property {(name: string, on?: any, more?: object) => void} key
 * @property {(holds: unknown, what: string) => void} want
 * @property {string[]} wrong
 * @property {number} slow how many times longer things may take
 * @property {() => number} pace how many times longer a piece of work takes at present than it can
 */

/**
 * Makes what trials use, in the page.
 *
 * @param {number} slow how many times longer things may take, for what else the machine has to do
 * @param {string} sought where a fault is planted, the words that have to be found: the trial ends with them, and what
 *     never comes for its sake is awaited for a short time only. "" where all that is wrong is asked for
 * @returns {Page}
 */
export function makePage(slow, sought) {
    /** @type {string[]} */
    const wrong = [];
    const isSought = (/** @type {string} */ what) => sought !== "" && what.includes(sought);
    // some milliseconds of the processor: waits are counted in work, since a clock goes on while the machine does else
    const work = () => {
        let found = 0;
        for (let at = 0; at < 3_000_000; at += 1) found = (31 * found + at) | 0;
        return found;
    };
    /** @type {Page} */
    const page = {
        wrong,
        slow,
        pace() {
            const times = Array.from({ length: 40 }, () => {
                const was = performance.now();
                work();
                return performance.now() - was;
            });
            return times.reduce((sum, it) => sum + it, 0) / (times.length * Math.min(...times));
        },
        $: (id) => document.getElementById(id),
        one: (selector) => document.querySelector(selector),
        all: (selector) => [...document.querySelectorAll(selector)],
        focused: () => document.activeElement,
        pause: (milliseconds) => new Promise((go) => setTimeout(() => go(), milliseconds)),
        async until(holds, what, seconds = 15) {
            const most = isSought(what) ? Math.min(3, seconds) : seconds;
            for (let at = 0; at < 40 * most * slow; at += 1) {
                if (holds()) return;
                work();
                await page.pause(25);
            }
            throw new Error(`never: ${what}`);
        },
        ready() {
            const { dataset } = document.documentElement;
            return page.until(() => dataset.ready === "yes" && page.$("count").textContent, "the page is ready");
        },
        async changed(does) {
            const { dataset } = document.documentElement;
            const was = dataset.replays;
            does();
            await page.until(() => dataset.replays !== was, "the script is replayed");
            await page.pause(20);
        },
        press: (id) => page.$(id).click(),
        slide(at) {
            page.$("slider").value = at;
            page.$("slider").dispatchEvent(new Event("input"));
        },
        async load(name) {
            await page.changed(() => {
                page.$("lesson").value = name;
                page.$("lesson").dispatchEvent(new Event("change"));
            });
            const isShown = page.$("lesson").value === name && page.$("count").textContent.startsWith("step 0");
            page.want(isShown, `${name} is not shown`);
        },
        key(name, on = document.body, more = {}) {
            on.dispatchEvent(new KeyboardEvent("keydown", { key: name, bubbles: true, cancelable: true, ...more }));
        },
        want(holds, what) {
            if (holds) return;
            wrong.push(what);
            if (isSought(what)) throw new Error("the fault is found");
        },
    };
    return page;
}

/**
 * Goes through the steps of a lesson forth and back: each has its sentence, and it is the same both ways.
 *
 * @param {Page} page
 * @param {string} name
 */
export function stepped({ $, one, press, slide, want }, name) {
    const count = Number($("slider").max);
    const seen = [];
    const every = Math.max(1, Math.floor(count / 150));
    for (let at = 0; at <= count; at += every) {
        slide(at);
        seen.push($("sentence").textContent);
        want($("sentence").textContent.length > 3, name + ": a sentence at step " + at);
        want($("count").textContent === "step " + at + " of " + count, name + ": the count at step " + at);
    }
    for (let at = seen.length - 1; at >= 0; at -= 1) {
        slide(at * every);
        want($("sentence").textContent === seen[at], name + ": another sentence on the way back at step " + at * every);
    }
    press("next");
    want($("count").textContent.startsWith(count ? "step 1 " : "step 0 "), name + ": next goes one step, where there is one");
    press("back");
    want($("count").textContent.startsWith("step 0 "), name + ": back goes one step");
}

/**
 * A stranger is asked what it sends: what is typed is read, sent by its button, and in the script; hosts with programs
 * are not asked.
 *
 * @param {Page} page
 */
export async function sending({ $, all, one, key, focused, load, changed, pause, want }) {
    await load("a-storm-of-resets");
    const menuOf = async (/** @type {string} */ host) => {
        key("Escape", focused());
        all("#network [data-what]").find((it) => it.dataset.what.includes('"host":"' + host + '"')).dispatchEvent(
            new MouseEvent("click", { bubbles: true }),
        );
        await pause(100);
        return all("#menu button").find((it) => it.textContent.startsWith("It sends commands"));
    };
    want(!(await menuOf("0/1")), "a host with a program is asked what it sends");
    const asks = await menuOf("1/2");
    want(asks, "a stranger isn't asked what it sends");
    want(one("#menu h2").textContent === "Host 1/2 (a stranger)", "a stranger's menu doesn't say what it is");
    const strangers = all("#network .stranger title").map((it) => it.textContent);
    want(/^Host 1\/2, a stranger\b/.test(strangers.join("; ")), "the map shows as strangers: " + strangers.join("; "));
    if (!asks) return;
    asks.click();
    await pause(100);
    const typed = (/** @type {string} */ words) => {
        $("send-words").value = words;
        $("send-words").dispatchEvent(new Event("input", { bubbles: true }));
        return $("send-said").textContent;
    };
    want(focused() === $("send-words"), "what is sent isn't ready to be typed");
    want(typed("HELLO").includes("is no command"), "what is no command isn't told");
    want(one("#menu [type=submit]").disabled, "what is no command can be sent");
    want(typed("ECO 7, NOP") === "It says: ECO 7, NOP.", "what is typed isn't said in words");
    $("send-to").value = "0/2";
    await changed(() => one("#menu [type=submit]").click());
    want($("menu").hidden, "the box stays when its message is sent");
    const script = all("#sheet code, #sheet .text").map((it) => it.textContent).join(" ") || $("sheet").textContent;
    want(script.includes("out 1/2 0/2 0 64 000800030009" + "0700"), "what is sent isn't in the script");
}

/**
 * Nothing is cut at this size, and no text is on another.
 *
 * @param {Page} page
 */
export function measured({ $, all, want, wrong }) {
    const room = { width: document.documentElement.clientWidth, height: document.documentElement.clientHeight };
    want(
        document.documentElement.scrollWidth <= room.width,
        "the page is " + document.documentElement.scrollWidth + " wide at " + room.width,
    );
    for (const id of ["head", "told", "map", "tabs", "foot"]) {
        const box = $(id).getBoundingClientRect();
        want(box.width > 0 && box.height > 20, id + " is " + Math.round(box.width) + " by " + Math.round(box.height));
        want(box.right <= room.width + 1 && box.left >= -1, id + " is cut at the side");
    }
    want(
        $("sheet").getBoundingClientRect().height > 60 || $("pane").getBoundingClientRect().height > 60,
        "neither the script nor a table has room",
    );
    want($("map").getBoundingClientRect().height > Math.min(100, 0.35 * room.height), "the map has no room");
    want($("pane").scrollWidth <= $("pane").clientWidth + 1, "the table is " + $("pane").scrollWidth + " wide");
    for (const it of all("#head button, #foot button, #tabs button")) {
        const box = it.getBoundingClientRect();
        if (box.width && !it.closest("#rare:not(.open)")) {
            want(
                box.right <= room.width + 1 && box.left >= -1 || it.closest("#tabs"),
                "the button " + it.textContent + " is cut",
            );
        }
    }
    /** @typedef {{text: string, box: DOMRect}} Seen */
    const isSeen = (/** @type {any} */ it) =>
        it.getBoundingClientRect().width && getComputedStyle(it).display !== "none";
    /** @type {(selector: string) => Seen[]} */
    const boxes = (selector) =>
        all(selector)
            .filter((it) => it.textContent.trim() && isSeen(it))
            .map((it) => ({ text: it.textContent, box: it.getBoundingClientRect() }));
    const isOn = (/** @type {DOMRect} */ a, /** @type {DOMRect} */ b) =>
        Math.min(a.right, b.right) - Math.max(a.left, b.left) > 2 &&
        Math.min(a.bottom, b.bottom) - Math.max(a.top, b.top) > 3;
    const overlap = (/** @type {Seen[]} */ list, /** @type {string} */ what) =>
        list.forEach((a, at) => {
            for (const b of list.slice(at + 1)) want(!isOn(a.box, b.box), `${what}: ${a.text} on ${b.text}`);
        });
    overlap(boxes("#network text"), "map");
    const frame = $("network").getBoundingClientRect();
    for (const it of all("#network .arc, #network .box, #network .disc")) {
        const box = it.getBoundingClientRect();
        if (!box.width) continue; // folded
        want(
            box.top >= frame.top - 1
                && box.bottom <= frame.bottom + 1
                && box.left >= frame.left - 1
                && box.right <= frame.right + 1,
            "something is cut at the edge of the map: " + it.getAttribute("class"),
        );
    }
    overlap(boxes(".chart .mark:not(.gone) text:not(.plate)"), "chart");
    overlap(boxes("#sheet .row:not([hidden]) .text"), "rows");
    overlap(boxes("#sheet .head"), "heads");
    overlap(boxes(".holds dt, .holds dd, .holds h4"), "hosts");
}

/**
 * The map and the step buttons are in reach without scrolling, also where the page is low, and the present step is seen
 * in the script.
 *
 * @param {Page} page
 */
export function reached({ $, one, press, want }) {
    if (!one(".row.current")) press("next");
    const { clientHeight: height, scrollHeight } = document.documentElement;
    want(scrollHeight <= 2.5 * height, "the page is " + scrollHeight + " high at " + height);
    for (const id of ["map", "next", "back", "slider"]) {
        const box = $(id).getBoundingClientRect();
        want(box.top >= -1 && box.bottom <= height + 1, id + " is out of reach: " + Math.round(box.top));
    }
    const row = one(".row.current");
    const [box, frame] = [row, one(".sheet-scroll")].map((it) => it.getBoundingClientRect());
    want(box.top >= frame.top && box.bottom <= frame.bottom + 1, "the script isn't at the present step");
}

/**
 * A network of 63 IMPs with 252 hosts is soon there, and each step, too; its labels can be read, and it can be looked at
 * from near, moved, and given the whole page.
 *
 * @param {Page} page
 * @param {string} text
 */
export async function large({ $, one, all, until, changed, pause, press, key, want, wrong, slow, pace }, text) {
    const given = new DataTransfer();
    given.items.add(new File([text], "large.txt"));
    $("file").files = given.files;
    const start = performance.now();
    let first = 0;
    await changed(() => {
        $("file").dispatchEvent(new Event("change"));
        void until(() => all("#network .part.imp").length === 63, "a picture").then(() => (first = performance.now() - start));
    });
    const whole = performance.now() - start;
    want($("label").textContent === "A script", "the large network is not shown");
    const steps = [];
    for (let at = 0; at < 30; at += 1) {
        const was = performance.now();
        press("next");
        steps.push(performance.now() - was);
        await pause(0);
    }
    const median = steps.sort((a, b) => a - b)[15];
    const times = [first, whole, median].map((it) => Math.round(it));
    document.documentElement.dataset.measured = `a picture after ${times[0]} ms, all steps after ${times[1]} ms, a step ${times[2]} ms`;
    const longer = Math.max(slow, pace());
    want(median < 100 * longer, `a step takes ${times[2]} ms`);
    want(first < 3000 * longer, `the first picture takes ${times[0]} ms`);
    want(whole < 6000 * longer, `all steps are there after ${times[1]} ms`);
    const shown = () => all("#network .part.imp:not(.folded) .title").filter((it) => it.getBoundingClientRect().width);
    want(shown().length > 8, `only ${shown().length} labels`);
    for (const it of shown()) {
        const { height } = it.getBoundingClientRect();
        want(height >= 9, `a label is ${height.toFixed(1)} pixels high: ${it.textContent}`);
    }
    want(all("#network .part.host").every((it) => !it.getBoundingClientRect().width), "hosts are not folded");
    const box = () => one("#network .part.imp .box").getBoundingClientRect();
    const far = box().width;
    const frame = $("network").getBoundingClientRect();
    const [clientX, clientY] = [frame.x + frame.width / 2, frame.y + frame.height / 2];
    $("network").dispatchEvent(new WheelEvent("wheel", { deltaY: -900, clientX, clientY, cancelable: true }));
    for (let at = 0; at < 4; at += 1) press("nearer");
    want(all("#network .part.host:not(.folded)").length > 200, "hosts stay folded from near");
    const room = $("network").getBoundingClientRect();
    const isInside = (/** @type {DOMRect} */ it) => (
        it.left > room.left + 40 && it.right < room.right - 40 && it.top > room.top + 25 && it.bottom < room.bottom - 25
    );
    const nameless = all("#network .part.imp.folded .spot").filter((it) => isInside(it.getBoundingClientRect()));
    want(nameless.length === 0, `${nameless.length} labels are left out from near`);
    const view = () => $("network").getAttribute("viewBox");
    let before = view();
    key("ArrowRight", $("network"), { shiftKey: true });
    want(view() !== before, "keys do not move the map");
    before = view();
    const at = { bubbles: true, pointerId: 7, button: 0 };
    $("network").dispatchEvent(new PointerEvent("pointerdown", { ...at, clientX, clientY }));
    $("network").dispatchEvent(new PointerEvent("pointermove", { ...at, clientX: clientX - 40, clientY: clientY - 20 }));
    $("network").dispatchEvent(new PointerEvent("pointerup", { ...at, clientX: clientX - 40, clientY: clientY - 20 }));
    want(view() !== before, "the map is not moved by a pointer");
    before = view();
    for (const [id, x] of [[8, 0], [9, 30]]) {
        $("network").dispatchEvent(
            new PointerEvent("pointerdown", { ...at, pointerId: id, clientX: clientX + x, clientY }),
        );
    }
    $("network").dispatchEvent(new PointerEvent("pointermove", { ...at, pointerId: 9, clientX: clientX + 20, clientY }));
    want(view() !== before, "two fingers do nothing");
    for (const id of [8, 9]) $("network").dispatchEvent(new PointerEvent("pointerup", { ...at, pointerId: id }));
    key("0", $("network"));
    want(Math.abs(box().width - far) < 2, "the whole map does not come back");
    if (document.documentElement.dataset.layout === "wide") {
        const { width } = $("map").getBoundingClientRect();
        key("ArrowLeft", $("split-x"));
        want($("map").getBoundingClientRect().width > width + 5, "the border is not drawn by keys");
        const { height } = $("map").getBoundingClientRect();
        key("ArrowDown", $("split-y"));
        want($("map").getBoundingClientRect().height > height + 5, "the lower border is not drawn by keys");
    }
    press("whole");
    await pause(60);
    const { width, height } = $("map").getBoundingClientRect();
    const { clientWidth, clientHeight } = document.documentElement;
    want(width > 0.98 * clientWidth && height > 0.4 * clientHeight, "the map does not take the whole page");
    press("whole");
    await pause(60);
    const other = $("pane").getBoundingClientRect().height + $("sheet").getBoundingClientRect().height;
    want(other > 40, "the map does not give the page back");
    if (wrong.length) wrong.push(document.documentElement.dataset.measured);
}

/**
 * A script with a message on each of 256 links is shown to its end, and forth and back.
 *
 * @param {Page} page
 * @param {string} text
 */
export async function linked({ $, changed, pause, press, slide, want }, text) {
    const given = new DataTransfer();
    given.items.add(new File([text], "links.txt"));
    $("file").files = given.files;
    await changed(() => $("file").dispatchEvent(new Event("change")));
    const last = Number($("slider").max);
    slide(last);
    const told = $("sentence").textContent;
    want(!/stopped after/.test(told), `the replay does not come to its end: ${told}`);
    want($("count").textContent === `step ${last} of ${last}` && last >= 512, `${last} steps of 256 messages`);
    press("tab-waits");
    await pause(100);
    want(/Nothing waits/.test($("pane").textContent), `at the end there waits ${$("pane").textContent}`);
    slide(0);
    slide(last);
    want($("sentence").textContent === told, "the last step has another sentence on the way back");
}

/**
 * At a distance lines that run side by side are one, with their number, and each is back from near.
 *
 * @param {Page} page
 */
export async function bundles({ $, all, pause, press, load, key, want }) {
    await load("arpanet-of-july-1977");
    const folded = () => all("#network .line.folded").length;
    const far = folded();
    const counts = all("#network .line.bundle .many").map((it) => Number(it.textContent.slice(1)));
    want(far > 5, `only ${far} lines are folded`);
    const counted = counts.filter((it) => it > 1);
    const folds = counted.reduce((sum, it) => sum + it - 1, 0);
    want(folds <= far, `${far} lines are folded, in bundles of ${counted}`);
    const on = () => {
        const boxes = all("#network .part.imp:not(.folded) .box").map((it) => it.getBoundingClientRect());
        const areOn = (/** @type {DOMRect} */ a, /** @type {DOMRect} */ b) =>
            Math.min(a.right, b.right) - Math.max(a.left, b.left) > 2 && Math.min(a.bottom, b.bottom) - Math.max(a.top, b.top) > 2;
        return boxes.flatMap((a, at) => boxes.slice(at + 1).filter((b) => areOn(a, b))).length;
    };
    for (let at = 0; at < 4; at += 1) press("nearer");
    await pause(60);
    want(on() === 0, `${on()} IMPs are on others from near`);
    for (let at = 0; at < 5; at += 1) press("nearer");
    await pause(60);
    want(folded() === 0, `${folded()} lines stay folded from near`);
    want(all("#network .many").every((it) => !it.textContent.startsWith("×")), "a bundle has its number from near");
    key("0", $("network"));
    await pause(60);
    want(folded() === far, `${folded()} lines are folded again, and not ${far}`);
}

/**
 * On a map of dots no packet lies on a name.
 *
 * @param {Page} page
 * @param {string} name
 */
export async function uncovered({ $, all, load, slide, pause, want }, name) {
    await load(name);
    let seen = 0;
    for (const part of [0.2, 0.3, 0.4, 0.5, 0.6]) {
        slide(Math.floor(part * Number($("slider").max)));
        await pause(60);
        const names = all("#network .imp:not(.folded) .tag .box").map((it) => it.getBoundingClientRect());
        const signs = all("#network .frame.data .sign, #network .frame.rfnm .sign").map((it) => it.getBoundingClientRect());
        seen += signs.length;
        for (const { left, right, top, bottom } of signs) {
            const [x, y] = [(left + right) / 2, (top + bottom) / 2];
            const isOn = names.some((it) => it.left < x && x < it.right && it.top < y && y < it.bottom);
            want(!isOn, `${name} at ${part}: a packet lies on a name`);
        }
    }
    want(seen > 0, `${name}: no packet is on a line`);
}

/**
 * A first visit has its doors, until a lesson is chosen.
 *
 * @param {Page} page
 */
export async function entered({ $, load, want }) {
    want(!$("doors").hidden, "a first visit has no doors");
    const words = $("sentence").textContent;
    await load("first-message");
    want($("doors").hidden && $("sentence").textContent !== words, "the doors stay over a lesson that was chosen");
}

/**
 * The map of a lesson can be read at each size of text: no letter is below 9 pixels, none is smaller in larger text, no
 * name, number or box lies on another, and the sites of which the lesson tells have their names.
 *
 * @param {Page} page
 * @param {string} name
 */
export async function legible({ $, all, load, press, pause, want }, name) {
    await load(name);
    const isSeen = (/** @type {Element} */ it) => {
        const { width, height } = it.getBoundingClientRect();
        return (it.textContent ?? "").trim() !== "" && width > 0 && height > 0 && getComputedStyle(it).display !== "none";
    };
    const texts = () => all("#network text").filter((it) => isSeen(it) && !it.closest(".frame"));
    const letters = (/** @type {SVGGraphicsElement} */ it) => {
        const { a, b } = it.getScreenCTM() ?? { a: 1, b: 0 };
        return parseFloat(getComputedStyle(it).fontSize) * Math.hypot(a, b);
    };
    const isOn = (/** @type {DOMRect} */ a, /** @type {DOMRect} */ b) =>
        Math.min(a.right, b.right) - Math.max(a.left, b.left) > 1.5 && Math.min(a.bottom, b.bottom) - Math.max(a.top, b.top) > 2.5;
    let least = 0;
    for (const size of [0, 1, 2]) {
        await pause(60);
        const seen = texts();
        const sizes = seen.map(letters);
        const smallest = Math.min(...sizes);
        const where = `${name}, text ${size}`;
        want(seen.length > 1, `${where}: the map has ${seen.length} words`);
        want(smallest >= 9, `${where}: letters of ${smallest.toFixed(1)} pixels: ${seen[sizes.indexOf(smallest)]?.textContent}`);
        want(smallest > least, `${where}: letters of ${smallest.toFixed(1)} pixels, and of ${least.toFixed(1)} in smaller text`);
        least = smallest;
        const marks = all("#network .tag .box, #network .spot, #network .part.host:not(.folded) .disc, #network .imp > .box").filter(
            (it) => it.getBoundingClientRect().width > 0 && !it.closest(".folded .tag"),
        );
        seen.forEach((text, at) => {
            const box = text.getBoundingClientRect();
            for (const other of seen.slice(at + 1)) {
                want(!isOn(box, other.getBoundingClientRect()), `${where}: ${text.textContent} lies on ${other.textContent}`);
            }
            for (const mark of marks) {
                const isOwn = mark.closest(".part") === text.closest(".part");
                want(isOwn || !isOn(box, mark.getBoundingClientRect()), `${where}: ${text.textContent} lies on a box or a dot`);
            }
        });
        if (size === 0) {
            const told = new Set(all("#sheet .head:not(.script)").map((it) => it.textContent.trim().split(" ")[0]));
            const isSmall = $("network").hasAttribute("data-small");
            const named = new Set(seen.map((it) => it.textContent));
            for (const it of isSmall ? [...told].filter((site) => /^[A-Z]/.test(site)) : []) want(named.has(it), `${where}: ${it} has no name on the map`);
        }
        press("larger");
    }
    await pause(60);
}

/**
 * In a script of hundreds of rows the present one is seen, wherever the slider goes.
 *
 * @param {Page} page
 */
export async function followed({ $, one, load, until, slide, want }) {
    await load("arpanet-of-september-1973");
    for (const part of [0.6, 0.3, 0.9]) {
        slide(Math.floor(part * Number($("slider").max)));
        const isSeen = () => {
            const [box, frame] = [".row.current", ".sheet-scroll"].map((it) => one(it).getBoundingClientRect());
            return box.top >= frame.top && box.bottom <= frame.bottom + 1;
        };
        await until(isSeen, "the present row", 1).catch(() => want(false, `the present row is not seen at ${part}`));
    }
}

/**
 * Sentences name the hosts that send and take.
 *
 * @param {Page} page
 */
export async function named({ $, load, slide, want }) {
    await load("arpanet-of-december-1969");
    const said = [];
    for (let at = 1; at <= Number($("slider").max); at += 1) {
        slide(at);
        said.push($("sentence").textContent);
    }
    const found = said.flatMap((it) => {
        const [, source, destination] = /(\w+) hands its IMP a message for (\w+)/.exec(it) ?? [];
        const [, taker, sender] = /(\w+) takes (\w+)'s message/.exec(it) ?? [];
        return source ? [`${source} to ${destination}`] : taker ? [`${taker} from ${sender}`] : [];
    });
    const first = ["UTAH to UCLA", "UCLA from UTAH", "UTAH to UCLA", "UCLA from UTAH", "UTAH to UCLA"];
    const whole = [...first, "UCLA to UTAH", "UCLA to UTAH"].join(", ");
    want(found.join(", ") === whole, `who sends and takes: ${found.join(", ")}`);
}

/**
 * What can happen now is listed by the program, and a tap on it does it; a surprise is played, and a search finds.
 *
 * @param {Page} page
 */
export async function happening({ $, one, all, until, changed, press, slide, load, want }) {
    await load("first-message");
    slide(1);
    press("tab-next");
    const listed = () => all("#pane .possible button code").map((it) => it.textContent);
    await until(() => listed().length, "what can happen");
    want(listed().includes("take 0/2") && listed().includes("giveup 0/1 0/2 5"), "can happen: " + listed());
    want(!listed().includes("hostup 0/1") && !listed().some((it) => /^out 0\/1 0\/2 5/.test(it)), "refused: " + listed());
    const take = all("#pane .possible button").find((it) => it.textContent.includes("take 0/2"));
    want(/prints: in 0\/1 0\/2 5 24/.test(take.textContent), "what it prints: " + take.textContent);
    await changed(() => take.click());
    want(/takes host 0\/1's message/.test($("sentence").textContent), "it did not happen: " + $("sentence").textContent);
    await changed(() => press("undo"));
    await load("rerouted-over-a-triangle");
    slide(14);
    await until(() => one("#pane .possible h3") && listed().some((it) => it.startsWith("deliver ")), "frames can arrive");
    want(all("#pane .possible h3").map((it) => it.textContent).join() === "Hosts,Lines,IMPs", "no groups");
    await changed(() => press("surprise"));
    want(all(".row.added").length >= 3 && $("play").textContent === "Pause", "no surprise is played");
    want(!all(".row.added").some((it) => it.classList.contains("refused")), "a surprise is refused");
    press("play");
    $("search").value = "taken-and-incomplete";
    press("search-go");
    await until(() => $("label").textContent === "A script", "a search finds a script", 90);
    want(all(".row.event").length < 14, "what is found is long");
    press("tab-waits");
}

/**
 * An exercise says when its goal is reached, and how many events the shortest known script has.
 *
 * @param {Page} page
 */
export async function judged({ $, one, all, until, changed, pause, press, load, want }) {
    await load("exercise-an-rfnm");
    const goal = () => $("goal").textContent;
    await until(() => goal(), "the goal");
    want(/not reached yet.*shortest script that is known has 3 events/.test(goal()), goal());
    want(!/Goal:/.test($("sentence").textContent), "the pattern is in the introduction");
    want(one(".empty").getBoundingClientRect().height > 10, "an empty script doesn't say what to do");
    press("edit");
    const area = one("textarea");
    area.value += "calm 1\nout 0/1 0/2 5 8 41\n";
    await changed(() => area.dispatchEvent(new Event("input")));
    await pause(1500);
    want(/not reached yet/.test(goal()), "too early: " + goal());
    area.value += "calm 2\n";
    await changed(() => area.dispatchEvent(new Event("input")));
    await until(() => /is reached, with 3 events/.test(goal()), "that the goal is reached: " + goal());
    want($("goal").classList.contains("reached"), "a reached goal looks as others");
    one(".editor-head button").click();
    await load("first-message");
    await until(() => $("goal").hidden, "a lesson without a goal has none");
    want(one(".empty").hidden, "a script with events is said to be empty");
    want(all("#lesson option").filter((it) => it.value.startsWith("exercise-")).length === 10, "ten exercises");
}

export * from "./further_trials.js";
