/**
 * The editor: the whole input with line numbers as the program counts them, and faults at their lines while one types.
 */

import { h, keep, say, sayWithCode } from "./dom.js";

/** The editor of an input. */
export class Editor {
    /**
     * @param {HTMLElement} element
     * @param {{changed: (text: string) => void, run: () => void, close: () => void}} does
     */
    constructor(element, does) {
        this.numbers = h("div", { class: "gutter", "aria-hidden": "true" });
        this.area = /** @type {HTMLTextAreaElement} */ (
            h(
                "textarea",
                {
                    spellcheck: "false",
                    autocapitalize: "off",
                    autocomplete: "off",
                    "aria-label": "network and script",
                    wrap: "off",
                },
            )
        );
        this.fault = h("p", { class: "fault", role: "status" });
        this.element = element;
        element.replaceChildren(
            h(
                "div",
                { class: "editor-head" },
                h("span", {}, "Network, %, script"),
                h("button", { type: "button", class: "done", onclick: does.close }, "Done"),
            ),
            h("div", { class: "editor-body" }, this.numbers, this.area),
            this.fault,
        );
        this.area.addEventListener("input", () => {
            this.number();
            does.changed(this.area.value);
        });
        this.area.addEventListener(
            "scroll",
            () => (this.numbers.style.transform = `translateY(${-this.area.scrollTop}px)`),
        );
        this.area.addEventListener("keydown", (event) => {
            event.stopPropagation();
            if (event.key === "Enter" && (event.ctrlKey || event.metaKey)) does.run();
            if (event.key === "Escape") does.close();
        });
    }

    /** @param {string} text */
    show(text) {
        if (this.area.value !== text) this.area.value = text;
        this.number();
    }

    /** Numbers the lines after the marker, as the program counts them. */
    number() {
        const lines = this.area.value.split("\n");
        const marker = lines.indexOf("%");
        keep(
            this.numbers,
            lines.map((_, place) => place),
            (place) => `${place}`,
            () => h("div", {}),
            (element, place) => {
                say(element, marker >= 0 && place > marker ? String(place - marker) : place === marker ? "%" : "·");
                element.classList.toggle("bad", place === this.bad);
            },
        );
    }

    /**
     * Shows a fault, or that there is none.
     *
     * @param {string} text
     * @param {number} line its line in the file, from 1; 0 where it isn't known
     */
    showFault(text, line) {
        this.bad = line - 1;
        sayWithCode(this.fault, text);
        this.fault.classList.toggle("bad", text !== "");
        this.number();
    }
}
