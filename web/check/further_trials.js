/**
 * More of what is tried in the page of the workbench (trials.js): addresses and files, what is seen, touched, heard and printed.
 *
 * Each function runs in the page by itself, so none may use a name of this module.
 */

/** @typedef {import("./trials.js").Page} Page */

/**
 * An address that is cut off, and one with the name of no lesson, open nothing else without a word.
 *
 * @param {Page} page
 */
export async function unopened({ $, load, until, want }) {
    await load("lo-of-login");
    for (const [hash, words] of [["#s=abc", /cut off/], ["#e=late-seventies-x", /no lesson late-seventies-x/]]) {
        location.hash = String(hash);
        await until(() => !$("toast").hidden && RegExp(words).test($("toast").textContent), "why nothing is opened");
        want($("lesson").value === "lo-of-login", "another script is opened");
    }
    await load("first-message");
    want($("toast").hidden, "what was said of the address stays over another script");
}

/**
 * Texts that have to be read have contrast enough.
 *
 * @param {Page} page
 */
export function contrast({ all, want }) {
    const parse = (/** @type {string} */ color) => (color.match(/[\d.]+/g) ?? []).map(Number);
    const light = (/** @type {number[]} */ rgb) => {
        const [r, g, b] = rgb.map((it) => {
            const value = it / 255;
            return value <= 0.03928 ? value / 12.92 : ((value + 0.055) / 1.055) ** 2.4;
        });
        return 0.2126 * r + 0.7152 * g + 0.0722 * b;
    };
    const ground = (/** @type {any} */ it) => {
        for (let at = it; at; at = at.parentElement) {
            const color = parse(getComputedStyle(at).backgroundColor);
            if (color.length === 3 || color[3] > 0.99) return color.slice(0, 3);
        }
        return [255, 255, 255];
    };
    const read = ["#label", "#sentence", ".row .text", ".row .number", ".row .steps", ".head", ".soft", "#count"];
    const marks = ".chart .mark text:not(.plate)";
    const more = [marks, "#legend span", ".wait p", ".wait h3", "th", "td", "#tabs button", ".holds dt", ".holds dd"];
    for (const it of all([...read, ...more].join())) {
        if (!it.textContent.trim() || !it.getBoundingClientRect().width) continue;
        const back = ground(it);
        let opacity = 1;
        for (let at = it; at; at = at.parentElement) opacity *= Number(getComputedStyle(at).opacity);
        const style = getComputedStyle(it);
        const front = parse(it.closest("svg") ? style.fill : style.color).slice(0, 3).map(
            (value, place) => value * opacity + back[place] * (1 - opacity),
        );
        const [a, b] = [light(front), light(back)].sort((x, y) => y - x);
        const ratio = (a + 0.05) / (b + 0.05);
        const what = `${it.id || it.className} ${it.textContent.slice(0, 30)}`;
        want(ratio >= 4.45, `contrast ${ratio.toFixed(2)}: ${what}`);
    }
}

/**
 * Keys, the focus, names for who hears, and shapes that differ without colour.
 *
 * @param {Page} page
 */
export async function keys({ $, one, all, focused, load, key, want }) {
    await load("first-message");
    want($("sentence").getAttribute("aria-live") === "polite", "no live region");
    $("next").focus();
    $("next").click();
    want(focused() === $("next"), "a step takes the focus from the button");
    key(" ", $("next"));
    want($("play").textContent === "Play", "space on a button plays");
    key("ArrowRight");
    want($("count").textContent.startsWith("step 2 "), "right goes a step");
    key("ArrowLeft");
    key("End");
    want($("count").textContent === "step " + $("slider").max + " of " + $("slider").max, "End goes to the end");
    key("Home");
    want($("count").textContent.startsWith("step 0 "), "Home goes to the beginning");
    want(/^step 0 of/.test($("slider").getAttribute("aria-valuetext")), "the slider has no text");
    key("Enter", $("network"));
    want(focused() && focused().closest("#network"), "Enter goes into the map");
    const rows = all("#sheet [role=list] > [role=listitem]");
    want(rows.length > 5, "the script is no list for who hears it: " + rows.length + " rows");
    want(rows.filter((it) => it.getAttribute("aria-current") === "step").length <= 1, "two rows are the present step");
    const part = focused();
    want(part.querySelector("title")?.textContent, "a part without a name");
    key("Enter", part);
    want(!$("menu").hidden, "Enter opens the menu");
    key("Escape", focused());
    want($("menu").hidden && focused() === part, "Escape gives the focus back");
    key("Enter", part);
    $("next").focus();
    want($("menu").hidden, "the menu stays where the focus leaves it");
    $("tab-waits").focus();
    key("ArrowRight", $("tab-waits"));
    want(
        $("tab-next").getAttribute("aria-selected") === "true" && focused() === $("tab-next"),
        "arrows do not go from tab to tab",
    );
    want(
        all("#network .part").every((it) => it.querySelector("title").textContent && !it.getAttribute("aria-label")),
        "a part without a title for who points at it and who hears it, or with two",
    );
    want(
        all("th").every((it) => it.getAttribute("scope")),
        "a head of a table without scope",
    );
    const signs = all("#legend .sign").map((it) => it.getAttribute("d"));
    want(signs.length > 1 && new Set(signs).size === signs.length, "two kinds of frames have one shape");
    want($("pace").options.length >= 3, "there is no choice of speed");
    want(
        all("button, select, input:not([type=file])").every(
            (it) => it.textContent.trim() || it.getAttribute("aria-label"),
        ),
        "a button without a name",
    );
}

/**
 * Taps change the script, Undo brings it back, and an address brings it elsewhere.
 *
 * @param {Page} page
 */
export async function tapped({ $, one, all, pause, changed, press, load, want, wrong }) {
    await load("rerouted-over-a-triangle");
    for (let at = 0; at < 14; at += 1) press("next");
    const count = () => $("count").textContent;
    const script = () => all(".row.event .text").map((it) => it.textContent).join("\n");
    for (const kind of ["line", "imp", "host", "frame"]) {
        const part = one("#network .part." + kind);
        if (!part) {
            wrong.push("no " + kind + " to tap");
            continue;
        }
        const before = [count(), script()];
        part.dispatchEvent(new MouseEvent("click", { bubbles: true }));
        if (matchMedia("(pointer: coarse)").matches && one("#menu h2").textContent === "Which one?") {
            one("#menu [role=menuitem]").click();
        }
        const items = all("#menu [role=menuitem]").filter((it) => it.querySelector("code"));
        want(items.length > 0, kind + ": no choices");
        const lines = items[0].querySelector("code").textContent.split(" · ");
        await changed(() => items[0].click());
        const isThere = (/** @type {string} */ line) => script().includes(line);
        want(lines.every(isThere), `${kind}: the lines are not in the script: ${lines}`);
        want(all(".row.added").length >= lines.length, kind + ": added lines are not marked");
        await changed(() => press("undo"));
        want(
            count() === before[0] && script() === before[1],
            kind + ": undo does not bring back the same script and step: " + count(),
        );
    }
    await changed(() => press("round"));
    press("share");
    await pause(120);
    const shared = { hash: location.hash, count: count(), sentence: $("sentence").textContent, script: script() };
    want(/^#s=/.test(shared.hash), "no script in the address");
    await load("first-message");
    await changed(() => { location.hash = shared.hash; });
    want(
        count() === shared.count && script() === shared.script && $("sentence").textContent === shared.sentence,
        "the address brings another script or step",
    );
}

/**
 * The table of hosts has what programs hold as of the step, and never what is still to come; what a step changed is
 * framed, and nothing else.
 *
 * @param {Page} page
 */
export async function holding({ $, all, press, load, want }) {
    await load("lo-of-login");
    press("tab-hosts");
    const name = (/** @type {any} */ it) => it.getAttribute("data-key");
    const cells = () => new Map(
        all("#pane .holds dl > div").map((it) => [
            [it.closest(".host-row"), it.closest(".holds"), it].map(name).join(" | "),
            { text: it.children[1].textContent, isFramed: it.classList.contains("changed") },
        ]),
    );
    want(cells().size === 0, "something is held before the first step");
    const seen = { sent: [""], taken: [""] };
    let before = cells();
    for (let at = 0; at < Number($("slider").max); at += 1) {
        press("next");
        const now = cells();
        for (const [key, { text, isFramed }] of now) {
            const isOther = before.get(key)?.text !== text;
            want(isOther === isFramed, `step ${at + 1}: ${key} is ${isFramed ? "framed" : "not framed"}: ${text}`);
            const kind = /0\/1 .* sent$/.test(key) ? seen.sent : /0\/2 .* taken$/.test(key) ? seen.taken : [text];
            if (kind[kind.length - 1] !== text) kind.push(text);
        }
        before = now;
    }
    const told = "0 bits in 0 messages, 8 bits in 1 message, 16 bits in 2 messages";
    want(seen.sent.join(", ").startsWith(`, ${told}, 24 bits in 3 messages, 0 bits`), "sent: " + seen.sent.join(", "));
    want(seen.taken.join(", ").startsWith(`, ${told}, 0 bits`), "taken: " + seen.taken.join(", "));
    press("tab-waits");
}

/**
 * The table of distances has those of the step, and frames what the step changed, and nothing else; a chosen column
 * colours the map, and is drawn over time.
 *
 * @param {Page} page
 */
export async function distances({ $, one, all, press, load, want }) {
    await load("arpanet-of-december-1969");
    press("tab-distances");
    const cells = () => all(".distances tbody td").map((it) => (
        { text: it.textContent, isFramed: it.classList.contains("changed") }
    ));
    let before = cells();
    let framed = 0;
    for (let at = 0; at < 60; at += 1) {
        press("next");
        const now = cells();
        now.forEach(({ text, isFramed }, place) => {
            const isOther = before[place].text !== text;
            want(isOther === isFramed, `step ${at + 1}: a distance is ${isFramed ? "framed" : "not framed"}: ${text}`);
            framed += isFramed ? 1 : 0;
        });
        before = now;
    }
    want(framed > 8, "hardly a distance changes in 60 steps");
    all(".distances button.column")[3].click();
    const imps = all("#network .part.imp");
    const shown = all(".distances tbody tr").map((it) => it.children[4].querySelector("b").textContent);
    want(imps.length === shown.length, "the map has other IMPs than the table");
    imps.forEach((it, place) => {
        const told = it.querySelector(".below").textContent;
        want(told === shown[place], `the map has the distance ${told}, and the table ${shown[place]}`);
        const shade = Number(it.getAttribute("data-shade"));
        want(shade === Math.min(8, Number(told)), `distance ${told} has the shade ${shade}`);
    });
    want(all(".staircase path").length === imps.length - 1, "the distances are not drawn over time");
    const now = one(".staircase .now").getAttribute("x1");
    press("next");
    want(Number(one(".staircase .now").getAttribute("x1")) > Number(now), "the staircase doesn't show the step");
    all(".distances button.column")[3].click();
    press("tab-waits");
}

/**
 * Two maps are beside each other after a change, at the same step, with what differs; and the index has all lessons.
 *
 * @param {Page} page
 */
export async function compared({ $, one, all, focused, until, changed, press, load, want }) {
    await load("rerouted-over-a-triangle");
    press("tab-compare");
    want(
        $("was").hidden && /^Nothing was changed/.test($("pane").textContent),
        "a script that was not changed is compared",
    );
    for (let at = 0; at < 4; at += 1) press("next");
    const line = one("#network .part.line");
    line.dispatchEvent(new MouseEvent("click", { bubbles: true }));
    const cut = all("#menu [role=menuitem]").find((it) => /^(?:Cut|Line)/.test(it.textContent));
    await changed(() => cut.click());
    await until(() => !$("was").hidden, "the map as it was is shown");
    want(
        /^Not alike at this step: .*IMP 1/.test(one("#pane .parts").textContent),
        "what differs is not said: " + one("#pane .parts").textContent,
    );
    want(all("#was .part.marked").length >= 2, "what differs is not marked");
    want(
        all("#network .half.down").length === 2
            && all("#was .half.down").length === 0,
        "the two maps are not as it is and as it was",
    );
    want(
        /^as it was opened, line /.test($("was-words").textContent) && /^now, line /.test($("now-words").textContent),
        "the maps have no captions",
    );
    want(all("#was [tabindex]").length === 0, "keys go through the map as it was");
    press("last");
    press("first");
    want(/alike inside/.test(one("#pane .parts").textContent), "at the beginning both are alike");
    await changed(() => press("undo"));
    want($("was").hidden, "the map as it was stays after Undo");
    press("tab-waits");
    want($("was").hidden && $("now-words").hidden, "the map as it was stays beside another table");
    $("lessons").focus();
    press("lessons");
    want(
        $("index").open && all("#index [data-name]").length === $("lesson").options.length,
        "the index has other lessons than the list",
    );
    const first = one("#index [data-name]").dataset.name;
    want(focused().dataset.name === first, "the index doesn't begin at its first lesson");
    const words = all("#index .words dt").map((it) => it.textContent);
    const newcomers = "IMP host link RFNM Dead RST RTS STR ALL CLS allocation stranger calm".split(" ");
    const lacking = newcomers.filter((it) => !words.includes(it));
    want(lacking.length === 0, "the index doesn't say what these are: " + lacking);
    want(
        all("#index .lessons ul > li").filter((it) => !it.querySelector("ol")).length === 12,
        "lessons without a question: " + all("#index .lessons ul > li").filter((it) => !it.querySelector("ol")).map(
            (it) => it.querySelector("button").textContent,
        ),
    );
    want(
        all("#index .answer").every((it) => getComputedStyle(it).display === "none"),
        "the index shows answers at once",
    );
    press("index-answers");
    want(
        all("#index .answer").every((it) => getComputedStyle(it).display !== "none"),
        "the index shows no answers",
    );
    window.dispatchEvent(new Event("beforeprint"));
    want(all("#handout .lessons li li").length > 60, "the index is not printed");
    window.dispatchEvent(new Event("afterprint"));
    press("index-answers");
    const years = all("#index .years [data-year]").map((it) => it.dataset.year);
    const named = all("#lesson option").map((it) => it.value);
    want(years.length > 8 && years.every((it) => named.includes(it)), "years lead to no lessons: " + years);
    await changed(() => one("#index [data-year=arpanet-of-july-1977]").click());
    want(!$("index").open && $("lesson").value === "arpanet-of-july-1977", "a year opens no map");
    press("lessons");
    await changed(() => one("#index [data-name=a-repeat-is-taken-once]").click());
    want(!$("index").open && $("lesson").value === "a-repeat-is-taken-once" , "the index opens no lesson");
}

/**
 * On paper each line of the script has what came of it; and a file that isn't UTF-8 is refused by name.
 *
 * @param {Page} page
 */
export async function printed({ $, one, all, until, load, want }) {
    await load("lo-of-login");
    window.dispatchEvent(new Event("beforeprint"));
    const rows = all("#handout tbody tr:not(.note):not(.blank)").map(
        (it) => [...it.children].map((cell) => cell.textContent),
    );
    const events = all("#sheet .row.event .number").map((it) => it.textContent);
    want(
        rows.filter((it) => it[0]).map((it) => it[0]).join() === events.join(),
        "the handout has other lines than the script: " + rows.filter((it) => it[0]).map((it) => it[0]).join(),
    );
    want(rows.every((it) => it[1] && /[.”]$/.test(it[2])), "a row of the handout without its sentence");
    want(
        all("#handout .blank").length === 2 && one("#handout svg"),
        "the handout has no room for answers, or no map",
    );
    window.dispatchEvent(new Event("afterprint"));
    const given = new DataTransfer();
    given.items.add(new File([new Uint8Array([0x23, 0xfc, 0x0a])], "latin.txt"));
    $("file").files = given.files;
    $("file").dispatchEvent(new Event("change"));
    await until(() => /latin.txt is not UTF-8/.test($("toast").textContent), "that the file is not UTF-8");
    want($("label").textContent !== "A script", "a file in Latin-1 is opened");
}

/**
 * A life of the book is touched, and each clause that speaks of it says something by names and lines; so is a message.
 *
 * @param {Page} page
 */
export async function booked({ all, one, press, load, until, want }) {
    await load("lo-of-login");
    press("tab-book");
    await until(() => all(".entry").length > 0, "the lives and messages");
    const [life, message] = [one(".entry button"), all(".entry button").at(-1)];
    want(/^line \d+: socket \d+ of (UCLA|SRI), /.test(life.textContent), `a life without its names: ${life.textContent}`);
    life.click();
    const said = () => all(".entry dl > div").map((it) => it.textContent);
    const has = (/** @type {RegExp} */ words) => want(said().some((it) => words.test(it)), `no ${words}: ${said()}`);
    want(life.getAttribute("aria-expanded") === "true", "it isn't said that a life is open");
    has(/^promise\.formed\.own.*Its own request went out in line \d+/);
    has(/^over.*since it began in line \d+|^over.*it began in line \d+/);
    const first = said().length;
    message?.click();
    want(said().length > 3 && said().length !== first, "a message isn't open in place of the life");
    has(/^promise\.safe\.messages\.once.*in line \d+/);
    one(".entry div:not([hidden]) > button:last-child")?.click();
    want(/hands its IMP a message/.test(one("#sentence").textContent), "its step isn't gone to");
    want(life.getAttribute("aria-expanded") === "false", "the life stays open");
    message?.click();
    want(said().length === 0, "the message stays open");
    press("hide");
    want(!all(".entry").some((it) => it.checkVisibility()), "the book gives the future away");
    press("hide");
    press("tab-waits");
}

/**
 * Opens the first life of the book, where there is one.
 *
 * @param {Page} page
 */
export async function touched({ $, all, one, press, until }) {
    press("tab-book");
    const isEmpty = () => $("pane").textContent.startsWith("No connection was opened here");
    await until(() => all(".entry").length > 0 || isEmpty(), "the lives and messages");
    if (!isEmpty() && !all(".entry dl > div").length) one(".entry button").click();
}

/**
 * On paper nothing is beyond the edge, no text is on another, and the page itself is not there.
 *
 * @param {Page} page
 */
export function paper({ all, want }) {
    window.dispatchEvent(new Event("beforeprint"));
    const width = document.documentElement.clientWidth;
    for (const it of all("body > *")) {
        const box = it.getBoundingClientRect();
        want(it.id === "handout" || box.height === 0, "on paper there is " + (it.id || it.tagName));
    }
    const cells = all("#handout td, #handout th, #handout h1, #handout p, #handout li > p").filter(
        (it) => it.textContent.trim(),
    );
    want(cells.length > 4, "nothing is printed");
    const boxes = cells.map((it) => {
        const range = document.createRange();
        range.selectNodeContents(it);
        return {
            text: it.textContent.slice(0, 40),
            box: range.getBoundingClientRect(),
            own: it.getBoundingClientRect(),
        };
    });
    for (const { text, box, own } of boxes) {
        want(box.right <= own.right + 1 && own.right <= width + 1, "cut on paper: " + text);
    }
    boxes.forEach((a, at) => {
        for (const b of boxes.slice(at + 1, at + 8)) {
            const width = Math.min(a.box.right, b.box.right) - Math.max(a.box.left, b.box.left);
            const height = Math.min(a.box.bottom, b.box.bottom) - Math.max(a.box.top, b.box.top);
            want(width < 2 || height < 3, `on paper: ${a.text} on ${b.text}`);
        }
    });
    window.dispatchEvent(new Event("afterprint"));
}

/**
 * On the map of a handout the sites of which the lesson tells have their names.
 *
 * @param {Page} page
 * @param {string} name
 */
export async function namedOnPaper({ all, load, want }, name) {
    await load(name);
    window.dispatchEvent(new Event("beforeprint"));
    const shown = all("#handout .network .imp:not(.folded) .title").map((it) => it.textContent);
    const told = all("#sheet .head:not(.script) b").map((it) => it.textContent);
    for (const site of told.filter((it) => /^[A-Z][A-Z0-9]+$/.test(it))) {
        want(shown.includes(site), `on paper ${site} has no name on the map`);
    }
    window.dispatchEvent(new Event("afterprint"));
}

/**
 * What is to come is hidden, and questions are asked in place of the next step.
 *
 * @param {Page} page
 */
export async function hidden({ $, one, all, press, load, want }) {
    await load("reassembly-lockup");
    press("hide");
    for (let at = 0; at < 3; at += 1) press("next");
    const shown = all("#sheet .row:not([hidden])").filter(
        (it) => it.getBoundingClientRect().height,
    );
    want(shown.every((it) => !it.classList.contains("future")), "a row of the future is shown");
    want(
        all(".chart [data-at]").every(
            (it) => !it.classList.contains("future") || it.classList.contains("gone"),
        ),
        "an arrow of the future is shown",
    );
    want(
        !/ of /.test($("count").textContent) && Number($("slider").max) <= 3,
        "the count or the slider gives the length away",
    );
    press("edit");
    want($("editor").hidden, "Edit shows the future");
    await load("first-message");
    press("next");
    press("next");
    want(!$("question").hidden && one("#question button"), "no question is asked");
    want($("sentence").textContent === "", "the sentence is beside the question");
    press("next");
    want(
        $("count").textContent === "step 2" && !$("question").hidden && $("sentence").textContent,
        "the answer does not follow: " + $("count").textContent,
    );
    press("hide");
}

/**
 * Faults are shown while one types, and nothing is lost on reload.
 *
 * @param {Page} page
 */
export async function typed({ $, one, all, changed, press, load, key, want }) {
    await load("first-message");
    await changed(() => press("round"));
    await load("a-message-given-up");
    await changed(() => press("undo"));
    want(
        all(".row.added .text").some((it) => it.textContent.startsWith("calm 1"))
            && $("lesson").value === "first-message",
        "what was changed is lost with another lesson",
    );
    await load("first-message");
    press("edit");
    want(!$("editor").hidden, "no editor");
    const area = one("textarea");
    const good = area.value;
    area.value = good.replace("take 0/2", "tak 0/2");
    await changed(() => area.dispatchEvent(new Event("input")));
    want(
        /Is .?take.? meant/.test(one(".fault").textContent),
        "no fault while one types: " + one(".fault").textContent,
    );
    want(all(".gutter .bad").length === 1, "no line is marked");
    want(JSON.parse(sessionStorage.getItem("dorydate") ?? "{}").text.includes("tak 0/2"), "what was typed is not kept");
    area.value = good.replace("take 0/2", "calm 2");
    area.dispatchEvent(new Event("input"));
    await changed(() => key("Enter", area, { ctrlKey: true }));
    want(
        one(".fault").textContent === ""
            && all(".row.event .text").some((it) => it.textContent.startsWith("calm 2")),
        "what was typed is not replayed",
    );
    one(".editor-head button").click();
    want($("editor").hidden && !$("sheet").hidden, "the editor stays");
    await changed(() => press("undo"));
}
