/** The menu of a part that was tapped, the question which part is meant, and the message after a change. */

import { h } from "./dom.js";

/**
 * @typedef {object} Item
 * @property {string} words
 * @property {string[]} lines
 * @property {() => void} act
 */

/** A menu beside a part; on small screens a sheet from below. */
export class Menu {
    /** @param {HTMLElement} element */
    constructor(element) {
        this.element = element;
        /** @type {Element | null} */
        this.from = null;
        element.addEventListener("keydown", (event) => this.key(event));
        document.addEventListener("pointerdown", (event) => this.leave(event.target));
        element.addEventListener("focusout", (event) => this.leave(event.relatedTarget));
    }

    /**
     * Closes the menu where something else is pressed or gets the focus, since its choices are for the step at which it
     * was opened.
     *
     * @param {EventTarget | null} to
     */
    leave(to) {
        if (to instanceof Node && !this.element.contains(to)) this.close(false);
    }

    /**
     * @param {Element} from the part that was tapped
     * @param {string} title
     * @param {Item[]} items
     * @param {Node | null} note what is above the choices
     */
    open(from, title, items, note) {
        this.from = from;
        const buttons = items.map((item) =>
            h(
                "button",
                {
                    type: "button",
                    role: "menuitem",
                    onclick: () => {
                        this.close(true);
                        item.act();
                    },
                },
                h("span", {}, item.words),
                item.lines.length ? h("code", {}, item.lines.join(" · ")) : null,
            ),
        );
        const close = h("button", { type: "button", class: "close", onclick: () => this.close(true) }, "Close");
        this.element.replaceChildren(
            h("h2", {}, title),
            note ?? "",
            h("div", { role: "menu", "aria-label": title }, ...buttons),
            close,
        );
        this.element.hidden = false;
        this.place(from);
        (buttons[0] ?? close).focus();
    }

    /** @param {Element} from */
    place(from) {
        this.element.style.left = this.element.style.top = "";
        if (document.documentElement.dataset.layout === "narrow") return;
        const at = from.getBoundingClientRect();
        const { offsetWidth: width, offsetHeight: height } = this.element;
        const left = at.right + 10 + width < window.innerWidth ? at.right + 10 : Math.max(8, at.left - width - 10);
        this.element.style.left = `${Math.min(left, window.innerWidth - width - 8)}px`;
        this.element.style.top = `${Math.max(8, Math.min(at.top - 10, window.innerHeight - height - 8))}px`;
    }

    /** @param {boolean} giveBack whether the part gets the focus back */
    close(giveBack) {
        if (this.element.hidden) return;
        this.element.hidden = true;
        if (!giveBack) return;
        const key = this.from?.getAttribute("data-part"); // a map that was arranged anew has another element for its part
        const from = this.from?.isConnected || !key ? this.from : document.querySelector(`#network [data-part="${key}"]`);
        if (from instanceof HTMLElement || from instanceof SVGElement) from.focus();
    }

    /** @param {KeyboardEvent} event */
    key(event) {
        const buttons = /** @type {HTMLElement[]} */ ([...this.element.querySelectorAll("button")]);
        const at = buttons.indexOf(/** @type {HTMLElement} */ (document.activeElement));
        const isTyped = event.target instanceof HTMLInputElement || event.target instanceof HTMLSelectElement;
        if (event.key === "Escape") this.close(true);
        else if (isTyped) return event.stopPropagation();
        else if (event.key === "ArrowDown") buttons[(at + 1) % buttons.length].focus();
        else if (event.key === "ArrowUp") buttons[(at + buttons.length - 1) % buttons.length].focus();
        else if (event.key === "Home") buttons[0].focus();
        else if (event.key === "End") buttons[buttons.length - 1].focus();
        else return;
        event.preventDefault();
        event.stopPropagation();
    }
}

/** A message that goes by itself. */
export class Toast {
    /** @param {HTMLElement} element */
    constructor(element) {
        this.element = element;
        this.timer = 0;
    }

    /**
     * @param {string} text
     * @param {(() => void) | null} act
     * @param {boolean} [stays] whether it stays until something else is shown
     * @param {string} [words] what a press of its button does
     */
    show(text, act, stays = false, words = "Undo") {
        window.clearTimeout(this.timer);
        this.element.replaceChildren(
            h("span", {}, text),
            act ? h("button", { type: "button", onclick: act }, words) : "",
            h("button", { "type": "button", "class": "quiet", "aria-label": "Close", "onclick": () => this.hide() }, "×"),
        );
        this.element.hidden = false;
        if (!stays) this.timer = window.setTimeout(() => this.hide(), 9000);
    }

    hide() {
        window.clearTimeout(this.timer);
        this.element.hidden = true;
    }
}
