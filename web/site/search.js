/**
 * The search of the site, which works from files too: the index is a script beside this one (index.js), loaded when somebody begins to search.
 */

/**
 * A section: its page's title, its heading, its address from the top of the site, and its words in small letters.
 * @typedef {[page: string, heading: string, address: string, words: string]} Section
 */

const MOST = 12; // sections that are shown
const script = /** @type {HTMLScriptElement} */ (document.currentScript);
const top_of_site = script.dataset.top ?? "";
const form = /** @type {HTMLFormElement} */ (document.getElementById("search"));
const input = /** @type {HTMLInputElement} */ (form.querySelector("input"));
const list = /** @type {HTMLOListElement} */ (form.querySelector("ol"));
/** @type {Section[] | null} */
let sections = null;

/**
 * How well a section fits words; 0 where one of them is missing. Words of its heading and of its page's title count more.
 * @param {Section} section
 * @param {string[]} words
 */
function fit([page, heading, , text], words) {
    const title = page.toLowerCase(), head = heading.toLowerCase();
    let sum = 0;
    for (const word of words) {
        const here = (head.includes(word) ? 6 : 0) + (title.includes(word) ? 3 : 0) + (` ${text} `.includes(` ${word} `) ? 2 : ` ${text}`.includes(` ${word}`) ? 1 : 0);
        if (!here) return 0;
        sum += here;
    }
    return sum;
}

/** Shows the sections that fit best what is asked for. */
function show() {
    const words = input.value.toLowerCase().split(/\s+/).filter(Boolean);
    list.replaceChildren();
    if (!sections || !words.length) return;
    const found = sections.map((it) => /** @type {[number, Section]} */ ([fit(it, words), it])).filter(([sum]) => sum).sort((a, b) => b[0] - a[0]);
    for (const [, [page, heading, address]] of found.slice(0, MOST)) {
        const item = document.createElement("li"), link = document.createElement("a"), where = document.createElement("small");
        link.href = top_of_site + address;
        link.textContent = heading;
        where.textContent = page;
        link.append(where);
        item.append(link);
        list.append(item);
    }
    if (!found.length) {
        const item = document.createElement("li"), words_of = document.createElement("span");
        words_of.textContent = "No section has all these words.";
        item.append(words_of);
        list.append(item);
    }
}

/** Loads the index, once. */
function load() {
    if (document.getElementById("index")) return;
    const loaded = document.createElement("script");
    loaded.id = "index";
    loaded.src = `${top_of_site}index.js`;
    loaded.onload = () => {
        sections = /** @type {any} */ (window).SECTIONS;
        show();
    };
    document.head.append(loaded);
}

input.addEventListener("focus", load);
input.addEventListener("input", () => {
    load();
    show();
});
form.addEventListener("submit", (event) => {
    event.preventDefault();
    list.querySelector("a")?.click();
});
form.addEventListener("keydown", (event) => {
    if (event.key === "Escape") list.replaceChildren();
});
