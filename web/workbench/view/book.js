/** Shows the book of a replay: each life and each message of data, and what each clause of the promise says of it. */

import { Book } from "../book.js";
import { octetsOf, textOf } from "../octets.js";
import { entriesOf, saidOf } from "../promised.js";
import { whyCut } from "../runs.js";
import { hostName } from "../topology.js";
import { h, keep, say } from "./dom.js";

/** @typedef {import("../../run/runner.js").Runner} Runner */
/** @typedef {import("../topology.js").Network} Network */

const MOST_OCTETS = 4 * 2 ** 20;
const UNTOLD = "What each clause says among strangers isn’t told yet. “Printed” has the lives of the book.";
const MOST_SHOWN = 300; // lives and messages

const WORDS = "Lives of connections and messages of data, by their lines in the log (--log). "
    + "Tap one, and each clause of the promise that speaks of it says what it says here.";

/** The book's panel. */
export class BookView {
    /**
     * @param {Runner} runner
     * @param {import("../runs.js").LimitsOf} limitsOf
     * @param {(line: number) => void} goTo goes to the step of a line of the log
     */
    constructor(runner, limitsOf, goTo) {
        this.runner = runner;
        this.limitsOf = limitsOf;
        this.goTo = goTo;
        this.status = h("p", { class: "soft", role: "status" });
        this.list = h("div", { class: "pane-body" });
        this.element = h("div", {}, this.status, this.list);
        this.book = new Book("");
        /** @type {Network | null} */
        this.network = null;
        this.text = "";
        this.chosen = 0; // its line
    }

    /**
     * Shows the book of a text.
     *
     * @param {HTMLElement} pane
     * @param {string} text
     * @param {Network} network
     * @param {boolean} hidden whether what is to come is hidden
     */
    draw(pane, text, network, hidden) {
        if (this.element.parentElement !== pane) pane.replaceChildren(this.element);
        this.element.hidden = hidden;
        if (hidden || this.text === text) return;
        [this.text, this.network] = [text, network];
        this.open(new Book(""));
        void this.run();
    }

    async run() {
        const { text } = this;
        if (this.network?.strangers.length) return say(this.status, UNTOLD);
        const limits = { ...this.limitsOf(text), octets: MOST_OCTETS };
        say(this.status, "runs…");
        const outcome = await this.runner.run(["--log"], octetsOf(text), limits);
        if (this.text !== text) return;
        const why = whyCut(outcome, limits);
        this.open(new Book(why ? "" : textOf(outcome)));
        const count = entriesOf(this.book, String).length;
        const more = count > MOST_SHOWN ? ` The first ${MOST_SHOWN} of ${count} are shown.` : "";
        say(this.status, why || (count ? `${WORDS}${more}` : "No connection was opened here, and no data were sent."));
    }

    /** @param {Book} book */
    open(book) {
        [this.book, this.chosen] = [book, 0];
        this.show();
    }

    /** The names of hosts. */
    names() {
        const { network } = this;
        return (/** @type {string} */ host) => (network ? hostName(network, host) : host);
    }

    show() {
        keep(
            this.list,
            entriesOf(this.book, this.names()).slice(0, MOST_SHOWN),
            (it) => `${it.line} ${it.title}`,
            (it) => h(
                "div",
                { class: "entry" },
                h("button", { type: "button", class: "plain", onclick: () => this.touch(it.line) }, it.title),
                h("div"),
            ),
            (element, { line }) => {
                const [button, told] = element.children;
                const isOpen = line === this.chosen;
                button.setAttribute("aria-expanded", String(isOpen));
                told.hidden = !isOpen;
                told.replaceChildren(...(isOpen ? this.told(line) : []));
            },
        );
    }

    /** @param {number} line */
    touch(line) {
        this.chosen = this.chosen === line ? 0 : line;
        this.show();
    }

    /**
     * What the clauses say of a line, and a way to its step.
     *
     * @param {number} line
     */
    told(line) {
        const found = saidOf(this.book, line, this.names());
        if (!found) return [];
        const said = found.said.map((it) => h("div", {}, h("dt", {}, h("code", {}, it.clause)), h("dd", {}, it.sentence)));
        const go = () => this.goTo(found.begins);
        return [h("dl", {}, ...said), h("button", { type: "button", onclick: go }, `Go to line ${found.begins}`)];
    }
}
