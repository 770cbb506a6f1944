/** Shows what the program prints, with its options: for who wants its very lines. */

import { octetsOf, textOf } from "../octets.js";
import { whyCut } from "../runs.js";
import { h, say } from "./dom.js";

/** @typedef {import("../../run/runner.js").Runner} Runner */

const MOST_SHOWN = 400_000; // letters
const MOST_OCTETS = 16 * 2 ** 20;

/** The option words, and what they are for. */
const OPTIONS = [
    ["", "what crosses"],
    ["--texts", "with the texts of messages (--texts)"],
    ["--book", "with the lives of connections (--book)"],
    ["--log", "the log of the book (--log)"],
    ["--audit", "the audit of that log (--audit)"],
    ["--trace", "the trace (--trace)"],
];

/** The program's own output. */
export class Printed {
    /**
     * @param {Runner} runner
     * @param {import("../runs.js").LimitsOf} limitsOf
     */
    constructor(runner, limitsOf) {
        this.runner = runner;
        this.limitsOf = limitsOf;
        this.select = /** @type {HTMLSelectElement} */ (
            h(
                "select",
                { "aria-label": "what is printed" },
                ...OPTIONS.map(([value, words]) => h("option", { value }, words)),
            )
        );
        this.status = h("span", { class: "soft", role: "status" });
        this.output = h("pre", { class: "printed", tabindex: 0, role: "region", "aria-label": "lines" });
        this.whole = "";
        this.shown = "";
        this.element = h(
            "div",
            {},
            h(
                "div",
                { class: "printed-head" },
                this.select,
                h("button", { type: "button", onclick: () => this.save() }, "Save"),
                this.status,
            ),
            this.output,
        );
        this.select.addEventListener("change", () => void this.run());
        this.text = "";
    }

    /**
     * Shows what is printed for a text.
     *
     * @param {HTMLElement} pane
     * @param {string} text
     * @param {boolean} hidden whether what is to come is hidden
     */
    draw(pane, text, hidden) {
        if (this.element.parentElement !== pane) pane.replaceChildren(this.element);
        this.element.hidden = hidden;
        if (hidden) return;
        this.text = text;
        if (this.shown !== `${this.select.value} ${text}`) void this.run();
    }

    async run() {
        const word = this.select.value;
        this.shown = `${word} ${this.text}`;
        const limits = { ...this.limitsOf(this.text), octets: MOST_OCTETS };
        say(this.status, "runs…");
        let outcome = await this.runner.run(
            word ? [word === "--audit" ? "--log" : word] : [],
            octetsOf(this.text),
            limits,
        );
        if (word === "--audit" && outcome.status === 0) outcome = await this.runner.run([word], outcome.stdout, limits);
        if (this.shown !== `${word} ${this.text}`) return;
        this.whole = textOf(outcome);
        say(this.output, this.whole.slice(0, MOST_SHOWN));
        const rest = this.whole.length > MOST_SHOWN
            ? ` The first ${MOST_SHOWN} of ${this.whole.length} letters are shown; Save has all.`
            : "";
        say(this.status, `${whyCut(outcome, limits) || `status ${outcome.status}`}${rest}`);
    }

    save() {
        const link = h(
            "a",
            { href: URL.createObjectURL(new Blob([this.whole], { type: "text/plain" })), download: "output.txt" },
        );
        link.click();
        URL.revokeObjectURL(link.getAttribute("href") ?? "");
    }
}
