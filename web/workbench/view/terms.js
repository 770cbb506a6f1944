/** Words that are explained where they stand: a tap on one says what it means. */

import { TABLE } from "../../../python/dorydate/sentences/table.mjs";
import { capital } from "../words.js";
import { byId, h, sayWithCode } from "./dom.js";

const GLOSSARY = /** @type {{[term: string]: string}} */ (TABLE.glossary);
const NAMES = new Map(Object.keys(GLOSSARY).flatMap((it) => (
    /^[a-z]/.test(it) ? [[it, it], [capital(it), it]] : [[it, it]]
)));
const FORM = new RegExp(`\\b(${[...NAMES.keys()].sort((a, b) => b.length - a.length).join("|")})(?:e?s)?\\b`, "g");
const MOST_WIDE = 8; // pixels from the edge of the page

/**
 * A text in which the first standing of each word that is known can be tapped.
 *
 * @param {string} text
 * @param {Set<string>} [seen] the words that had their first standing before
 * @returns {(string | HTMLElement)[]}
 */
export function withTerms(text, seen = new Set()) {
    /** @type {(string | HTMLElement)[]} */
    const found = [];
    let last = 0;
    for (const match of text.matchAll(FORM)) {
        const term = NAMES.get(match[1]) ?? "";
        if (seen.has(term)) continue;
        seen.add(term);
        found.push(text.slice(last, match.index), termOf(term, match[0]));
        last = (match.index ?? 0) + match[0].length;
    }
    return [...found, text.slice(last)];
}

/**
 * Something that says what a word means when it is tapped.
 *
 * @param {string} term
 * @param {...(string | Node)} children
 */
export function termOf(term, ...children) {
    return h("span", { "class": "term", "role": "button", "tabindex": 0, "data-term": term, "aria-haspopup": "dialog" }, ...children);
}

/** Opens what a word means beside it. */
export class Terms {
    constructor() {
        this.element = byId("term");
        /** @type {HTMLElement | null} */
        this.from = null;
        document.addEventListener("click", (event) => this.tapped(event.target));
        document.addEventListener("keydown", (event) => this.key(event), true);
        document.addEventListener("scroll", () => this.close(), true);
    }

    /** @param {EventTarget | null} target */
    tapped(target) {
        const term = target instanceof Element ? target.closest(".term") : null;
        if (term instanceof HTMLElement && term !== this.from) return this.open(term);
        if (!(target instanceof Node) || !this.element.contains(target)) this.close();
    }

    /** @param {KeyboardEvent} event */
    key(event) {
        const { target, key } = event;
        if (key === "Escape" && this.from) {
            this.from.focus();
            this.close();
            event.stopPropagation();
        } else if (target instanceof HTMLElement && target.matches(".term") && (key === "Enter" || key === " ")) {
            event.preventDefault();
            event.stopPropagation();
            this.tapped(target);
        }
    }

    /** @param {HTMLElement} from */
    open(from) {
        const term = from.dataset.term ?? "";
        const meaning = h("span");
        sayWithCode(meaning, GLOSSARY[term] ?? "");
        this.element.replaceChildren(h("b", {}, capital(term)), meaning);
        this.element.hidden = false;
        this.from = from;
        const at = from.getBoundingClientRect();
        const { offsetWidth: width, offsetHeight: height } = this.element;
        const left = Math.min(Math.max(MOST_WIDE, at.left), window.innerWidth - width - MOST_WIDE);
        const isBelow = at.bottom + 6 + height < window.innerHeight;
        this.element.style.left = `${left}px`;
        this.element.style.top = `${isBelow ? at.bottom + 6 : Math.max(MOST_WIDE, at.top - height - 6)}px`;
    }

    close() {
        this.element.hidden = true;
        this.from = null;
    }
}
