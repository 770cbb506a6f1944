/** A part that is tapped: which one is meant, and its menu. */

import { choicesFor, partTitle } from "../choices.js";
import { stopAt } from "../stops.js";
import { h, say } from "./dom.js";
import { Menu } from "./menu.js";
import { sendingBox } from "./sending.js";

/** @typedef {import("../app.js").Workbench} Workbench */
/** @typedef {import("../choices.js").Part} Part */
/** @typedef {{part: Part, element: Element}} Near */

const FINGER = 22; // pixels from the middle of a part to that of one beside it
const MOST_NEAR = 6;

/** The menus of parts. */
export class Taps {
    /**
     * @param {Workbench} bench
     * @param {HTMLElement} element where menus are shown
     */
    constructor(bench, element) {
        this.bench = bench;
        this.menu = new Menu(element);
        this.cutOff = false;
    }

    /**
     * A part was tapped. Under a finger there may be several: then the page asks which one is meant.
     *
     * @param {Part} part
     * @param {Element} element
     */
    tapped(part, element) {
        const { history, position } = this.bench;
        const near = window.matchMedia("(pointer: coarse)").matches ? this.partsNear(element) : [];
        if (near.length < 2 || !history) return this.openMenu(part, element);
        const state = history.at(position);
        const items = near.map((it) => ({
            words: partTitle(state, it.part),
            lines: [],
            act: () => this.openMenu(it.part, it.element),
        }));
        this.menu.open(element, "Which one?", items, null);
    }

    /**
     * The parts whose middles are near that of another one, the nearest first.
     *
     * @param {Element} element
     * @returns {Near[]}
     */
    partsNear(element) {
        const at = middleOf(element);
        return (this.bench.map?.parts() ?? [])
            .map((it) => ({ element: it, far: distance(middleOf(it), at), part: JSON.parse(it.dataset.what ?? "{}") }))
            .filter((it) => it.far < FINGER)
            .sort((a, b) => a.far - b.far)
            .slice(0, MOST_NEAR);
    }

    /**
     * @param {Part} part
     * @param {Element} element
     */
    openMenu(part, element) {
        const { history, position, talk } = this.bench;
        if (!history || !talk) return;
        const state = history.at(position);
        const items = choicesFor(state, talk.goTo(position), part).map(({ words, lines, asks }) => ({
            words,
            lines,
            act: () => {
                if (asks && part.kind === "host") this.askWhat(part.host, element);
                else if (lines.length) void this.bench.change(lines, words);
                else if (part.kind === "imp") this.bench.choose(part.imp);
            },
        }));
        const packet = part.kind === "frame" ? state.line(part.line)[part.way][part.place]?.packet : null;
        if (packet) items.push({ words: "Follow its message", lines: [], act: () => this.bench.follow(packet.flow) });
        this.menu.open(element, partTitle(state, part), items, this.note());
    }

    /**
     * Asks what a stranger sends.
     *
     * @param {string} host
     * @param {Element} element
     */
    askWhat(host, element) {
        const { history, position } = this.bench;
        if (!history) return;
        const box = sendingBox(history.network, host, (line, words) => {
            this.menu.close(true);
            void this.bench.change([line], words);
        });
        const title = `${partTitle(history.at(position), { kind: "host", host })} sends`;
        this.menu.open(element, title, [], h("div", {}, this.note(), box));
        box.querySelector("input[type=text]")?.dispatchEvent(new Event("input", { bubbles: true }));
        /** @type {HTMLElement | null} */ (box.querySelector("#send-words"))?.focus();
    }

    /** Where lines are added, and a switch for what becomes of the lines that follow. */
    note() {
        const at = stopAt(this.bench.stops, this.bench.position);
        const toggle = h("button", { type: "button" }, this.fate());
        toggle.addEventListener("click", () => {
            this.cutOff = !this.cutOff;
            say(toggle, this.fate());
        });
        return h("p", { class: "note" }, `${at ? `after step ${at}` : "before step 1"}; what follows `, toggle);
    }

    fate() {
        return this.cutOff ? "is cut off" : "stays";
    }
}

/** @param {Element} element */
function middleOf(element) {
    const box = (element.querySelector(".sign, .box, .disc, .plate") ?? element).getBoundingClientRect();
    return { x: box.x + box.width / 2, y: box.y + box.height / 2 };
}

/**
 * @param {{x: number, y: number}} a
 * @param {{x: number, y: number}} b
 */
function distance(a, b) {
    return Math.hypot(a.x - b.x, a.y - b.y);
}
