/** What is printed: the lesson step by step, with its questions and room for their answers. */

import { impsNamed, notesOf } from "../script.js";
import { sentenceOf } from "../sentences.js";
import { shortened, stopWords } from "../sheet.js";
import { stopsOf } from "../stops.js";
import { count } from "../words.js";
import { TABLE } from "../../../python/dorydate/sentences/table.mjs";
import { Talk } from "../talk.js";
import { h, s, sayWithCode } from "./dom.js";
import { MapView } from "./map.js";

/** @typedef {import("../fold.js").History} History */

const PAPER = { width: 640, height: 215 }; // for a map across a sheet

/**
 * @typedef {object} Paper what is printed of a lesson
 * @property {string} title
 * @property {string} intro
 * @property {"handout" | "worksheet" | "answers"} kind a worksheet says nothing of what happens after its first question,
 *   and answers say what each question's is
 * @property {number} until the position after which a handout says nothing of what happens, Infinity for none
 */

/**
 * Fills a sheet: each line of the script and what came of it. Of a calm the stops that printed something are there. Where
 * something is kept from the reader, the map is that of the beginning.
 *
 * @param {HTMLElement} element
 * @param {History} history
 * @param {Paper} paper
 */
export function fillHandout(element, history, { title, intro, kind, until }) {
    const { input, moments } = history.replay;
    const stops = stopsOf(history, "round");
    const notes = notesOf(input);
    const rows = h("tbody");
    let isOpen = kind !== "worksheet" || notes.some((it) => it.kind === "question");
    const told = (/** @type {number} */ moment) => (isOpen && moment < until ? sentenceOf(history, moment) : "");
    const put = (/** @type {import("../script.js").Note} */ note) => {
        if (kind === "worksheet" && note.kind === "question") isOpen = false;
        const isLate = kind === "worksheet" && !isOpen && note.kind === "comment";
        const isHidden = until < Infinity && note.before > (moments[until - 1]?.event ?? -1) + 1;
        if (!isLate && !isHidden) rows.append(...noteRows(note, kind));
    };
    let note = 0;
    let from = 0;
    input.events.forEach((event, place) => {
        for (; note < notes.length && notes[note].before <= place; note += 1) put(notes[note]);
        let to = from;
        while (to < stops.length && stops[to].event === place) to += 1;
        const mine = stops.slice(from, to).filter((stop) => stop.main >= 0);
        from = to;
        const rounds = event.words[1];
        const text = shortened(event.words);
        if (mine.length === 0) {
            const passing = `${count(Number(rounds), "round")} ${rounds === "1" ? "passes" : "pass"}`;
            const isSaid = isOpen && place <= (moments[Math.min(until, moments.length) - 1]?.event ?? -1);
            const quiet = event.words[0] === "calm" && isSaid ? `${passing}, and no host's interface is crossed.` : "";
            rows.append(row(String(event.line), text, quiet));
        }
        mine.forEach((stop, at) => {
            const sentence = told(stop.main);
            if (!sentence && at > 0) return; // what a round brings is told by its words, too
            const start = at === 0 ? `${text}${stop.round && sentence ? ", " : ""}` : "";
            const words = stop.round && sentence ? `${start}round ${stop.round}: ${stopWords(history, stop)}` : start;
            rows.append(row(at === 0 ? String(event.line) : "", words, sentence));
        });
    });
    for (; note < notes.length; note += 1) put(notes[note]);
    if (moments.length === 0) rows.append(row("", "", "The script is empty."));
    const head = h(
        "thead",
        {},
        h(
            "tr",
            {},
            h("th", { scope: "col" }, ""),
            h("th", { scope: "col" }, "script"),
            h("th", { scope: "col" }, "what happens"),
        ),
    );
    const which = kind === "handout" ? "" : `${TABLE.paper[kind]}: `;
    const name = kind === "worksheet" ? h("p", { class: "name" }, `${TABLE.paper.name}: `) : "";
    const heading = h("h1", {}, `${which}${title}`);
    element.replaceChildren(heading, name, h("p", { class: "intro" }, intro), mapAt(history, 0, PAPER), h("table", {}, head, rows));
}

/**
 * A picture of the map at a position.
 *
 * @param {History} history
 * @param {number} position
 * @param {{width: number, height: number}} [room] for which it is arranged
 */
export function mapAt(history, position, room) {
    const svg = s("svg", { class: "network", role: "img" });
    const map = new MapView(svg, history.network, null, room);
    map.name(impsNamed(history.replay.input.events.map((it) => it.words)));
    map.draw({ state: history.at(position), talk: new Talk(history.replay).goTo(position), to: 0 });
    return svg;
}

/**
 * A comment, a question with room for its answer, or the answer on a sheet of answers.
 *
 * @param {import("../script.js").Note} note
 * @param {Paper["kind"]} paper
 */
function noteRows({ kind, text }, paper) {
    if (kind === "answer" && paper !== "answers") return [];
    const told = h("tr", { class: kind === "answer" ? "note reply" : "note" }, h("td", { colspan: 3 }, text));
    return kind === "question" && paper !== "answers" ? [told, h("tr", { class: "blank" }, h("td", { colspan: 3 }))] : [told];
}

/**
 * A line of the script; one of which nothing is said has room to write that in.
 *
 * @param {string} number
 * @param {string} words
 * @param {string} sentence
 */
function row(number, words, sentence) {
    const told = h("td");
    sayWithCode(told, sentence);
    return h("tr", sentence ? {} : { class: "open" }, h("td", {}, number), h("td", {}, words), told);
}
