/** The first hour as slides: one file of HTML, with a map, the question, what happens, and the answer of each lesson. */

import { TABLE } from "../../../python/dorydate/sentences/table.mjs";
import { History } from "../fold.js";
import { isReplay, OF_LESSON, replay } from "../runs.js";
import { headComment } from "../script.js";
import { sentenceOf } from "../sentences.js";
import { stopsOf } from "../stops.js";
import { h, sayWithCode } from "./dom.js";
import { mapAt } from "./handout.js";

/** @typedef {import("../app.js").Example} Example */

const WORDS = TABLE.paper;
const HOUR = /** @type {[number, string, string, string][]} */ (TABLE.hour);
const MOST = 7; // sentences on a slide
const MOST_TOLD = 230; // letters that introduce a lesson
const ROOM = { width: 360, height: 170 }; // for a map, so that it can be read from the last row
const END = "<\/script>"; // as no page may spell it within its own

/** What turns the slides: keys, and a press on the right or the left. */
const SCRIPT = [
    'const slides = [...document.querySelectorAll(".slide")];',
    'let at = Math.min(slides.length - 1, Math.max(0, Number(location.hash.slice(1)) || 0));',
    'const show = (by) => {',
    'at = Math.min(slides.length - 1, Math.max(0, at + by));',
    'slides.forEach((it, place) => it.classList.toggle("shown", place === at));',
    'history.replaceState(null, "", "#" + at);',
    '};',
    'addEventListener("keydown", ({ key }) => {',
    'if (["ArrowRight", " ", "PageDown", "Enter"].includes(key)) show(1);',
    'if (["ArrowLeft", "PageUp", "Backspace"].includes(key)) show(-1);',
    '});',
    'addEventListener("click", ({ clientX }) => show(clientX < innerWidth / 3 ? -1 : 1));',
    'show(0);',
].join("\n");

/**
 * The slides of the hour, as the text of a file.
 *
 * @param {import("../../run/runner.js").Runner} runner
 * @param {Example[]} examples
 */
export async function slidesOf(runner, examples) {
    const titleOf = (/** @type {string} */ name) => examples.find((it) => it.name === name)?.title ?? "";
    const plan = HOUR.filter(([, name]) => titleOf(name)).map(
        ([minutes, name]) => h("li", {}, h("b", {}, `${minutes} min`), titleOf(name)),
    );
    const kicker = h("p", { class: "kicker" }, "Dorydate");
    const slides = [h("section", { class: "slide title" }, kicker, h("h2", {}, WORDS.slides), h("ul", {}, ...plan))];
    for (const [minutes, name, question, answer] of HOUR) {
        const example = examples.find((it) => it.name === name);
        const outcome = example ? await replay(runner.run, example.text, OF_LESSON) : null;
        const history = outcome && isReplay(outcome) ? new History(outcome) : null;
        slides.push(...slidesOfLesson(titleOf(name), `${minutes} min`, history, question, answer));
    }
    const style = document.querySelector("style")?.textContent ?? "";
    const body = slides.map((it) => it.outerHTML).join("\n");
    return `<!doctype html>\n<html lang="en">\n<head>\n<meta charset="utf-8">\n<meta name="viewport" content="width=device-width">\n`
        + `<title>${WORDS.slides}</title>\n<style>${style}</style>\n</head>\n<body class="slides">\n${body}\n<script>${SCRIPT}${END}\n</body>\n</html>\n`;
}

/**
 * @param {string} title
 * @param {string} time
 * @param {History | null} history
 * @param {string} question
 * @param {string} answer
 */
function slidesOfLesson(title, time, history, question, answer) {
    const said = (/** @type {string} */ words) => h("p", { class: "kicker" }, words);
    const kicker = (/** @type {string} */ what) => said([title, what].filter(Boolean).join(" · "));
    const slide = (/** @type {(Node | string)[]} */ ...parts) => h("section", { class: "slide" }, ...parts);
    const told = history ? sentencesOf(history) : [];
    const map = (/** @type {number} */ at) => (history ? [mapAt(history, at, ROOM)] : []);
    return [
        ...(history ? [slide(said(time), h("h2", {}, title), h("p", {}, brief(headComment(history.replay.input))), ...map(0))] : []),
        slide(kicker(WORDS.question), h("p", { class: "big" }, question), ...map(0)),
        ...(told.length ? [slide(kicker(WORDS["what happens"]), h("ul", {}, ...told))] : []),
        slide(kicker(WORDS.answer), h("p", { class: "big" }, question), h("p", {}, answer), ...map(history?.length ?? 0)),
    ];
}

/**
 * The first sentences of a text, as many as a slide has room for.
 *
 * @param {string} text
 */
function brief(text) {
    const sentences = text.match(/.*?[.?!](?:\s+|$)/g) ?? [text];
    const ends = sentences.map((_, place) => sentences.slice(0, place + 1).join("").trim());
    return ends.filter((it) => it.length <= MOST_TOLD).at(-1) ?? ends[0];
}

/**
 * What the steps of a lesson say, as many as a slide has room for.
 *
 * @param {History} history
 */
function sentencesOf(history) {
    const steps = stopsOf(history, "arrival").filter((it) => it.main >= 0 && history.replay.moments[it.main].printed.length);
    const every = Math.max(1, Math.ceil(steps.length / MOST));
    return steps.filter((_, place) => place % every === 0).map((it) => {
        const item = h("li");
        sayWithCode(item, sentenceOf(history, it.main));
        return item;
    });
}
