/** The index of all lessons with their questions: to choose from, and for paper. */

import { glossary, networkWords } from "../glossary.js";
import { headComment, notesOf, readInput } from "../script.js";
import { byId, h, sayWithCode, set } from "./dom.js";

/** @typedef {import("../app.js").Example} Example */

/** A dialog with all lessons. */
export class Index {
    /**
     * @param {HTMLElement} element
     * @param {Example[]} examples
     * @param {import("../chronology.js").Chronology} years
     * @param {(name: string) => void} load
     */
    constructor(element, examples, years, load) {
        this.dialog = /** @type {HTMLDialogElement} */ (element);
        this.examples = examples;
        this.years = years;
        this.load = load;
        this.list = h("div", { class: "lessons" });
        const answers = h("button", { type: "button", "aria-pressed": "false", id: "index-answers" }, "Answers");
        answers.addEventListener("click", () => {
            const isShown = this.dialog.classList.toggle("with-answers");
            set(answers, { "aria-pressed": String(isShown) });
        });
        const print = h("button", { type: "button", onclick: () => window.print() }, "Print");
        const close = h("button", { type: "button", onclick: () => this.close() }, "Close");
        const head = h("header", {}, h("h2", { id: "index-title" }, "All lessons"), answers, print, close);
        this.dialog.replaceChildren(head, this.list);
        this.dialog.addEventListener("close", () => byId("lessons").focus());
    }

    isOpen() {
        return this.dialog.open;
    }

    open() {
        const groups = () => this.groups((it) => this.button(it));
        if (!this.list.firstChild) this.list.replaceChildren(...groups(), this.chronology(), ...this.words());
        if (!this.dialog.open) this.dialog.showModal();
        this.list.querySelector("button")?.focus();
    }

    close() {
        this.dialog.close();
    }

    /**
     * The lessons in their groups.
     *
     * @param {(example: Example) => Node | string} title
     */
    groups(title) {
        const groups = [...new Set(this.examples.map((it) => it.group))];
        return groups.map((group) => {
            const lessons = this.examples.filter((it) => it.group === group).map((it) => lesson(it, title(it)));
            return h("section", {}, h("h3", {}, group), h("ul", {}, ...lessons));
        });
    }

    /** The words of the network and those of scripts, for who meets them for the first time. */
    words() {
        const section = (/** @type {string} */ title, /** @type {[string, string][]} */ words) => {
            const rows = words.map(([word, meaning]) => {
                const told = h("dd");
                sayWithCode(told, meaning);
                return h("div", {}, h("dt", {}, word), told);
            });
            return h("section", { class: "words" }, h("h3", {}, title), h("dl", {}, ...rows));
        };
        return [section("Words of the network", networkWords()), section("Words of scripts", glossary())];
    }

    /** What happened when, with the lesson of each year and event. */
    chronology() {
        const { rows, notes } = this.years;
        const plain = { type: "button", class: "plain" };
        const said = (/** @type {import("../chronology.js").Piece[]} */ it) => it.map((piece) => (
            typeof piece === "string"
                ? piece
                : h("button", { ...plain, "data-year": piece.lesson, onclick: () => this.choose(piece.lesson) }, piece.text)
        ));
        const told = rows.map(({ when, what, here, source }) => h(
            "div",
            {},
            h("dt", {}, ...said(when)),
            h("dd", {}, ...said(what), ". ", ...said(here), here.length ? ". " : "", h("small", {}, ...said(source))),
        ));
        const title = h("h3", {}, "What happened when");
        return h("section", { class: "years" }, title, h("dl", {}, ...told), ...notes.map((it) => h("p", {}, ...said(it))));
    }

    /** @param {string} name */
    choose(name) {
        this.close();
        this.load(name);
    }

    /** @param {Example} example */
    button(example) {
        const choose = () => this.choose(example.name);
        const attributes = { type: "button", class: "plain", "data-name": example.name, onclick: choose };
        return h("button", attributes, example.title);
    }

    /** The same for paper: the answers only where they are shown. */
    forPaper() {
        const answers = this.dialog.classList.contains("with-answers") ? "with-answers" : "";
        const groups = this.groups((it) => h("b", {}, it.title));
        return h("div", { class: `lessons ${answers}` }, h("h1", {}, "Dorydate: all lessons"), ...groups, ...this.words());
    }
}

/**
 * @param {Example} example
 * @param {Node | string} title
 */
function lesson({ text }, title) {
    const input = readInput(text);
    const notes = notesOf(input);
    const intro = headComment(input) || (notes.find((it) => it.kind === "comment")?.text ?? "");
    const questions = notes.filter((it) => it.kind === "question").map(({ before, text: words }) => {
        const answer = notes.find((it) => it.kind === "answer" && it.before === before);
        return h("li", {}, words, answer ? h("span", { class: "answer" }, ` ${answer.text}`) : "");
    });
    return h("li", {}, title, h("p", {}, intro), questions.length ? h("ol", {}, ...questions) : "");
}
