/** Shows another replay beside the present one: the map as it was at the same step, and what both printed. */

import { beside, differingParts, partWords, placeBeside, printedBy } from "../compare.js";
import { History } from "../fold.js";
import { isReplay, replay } from "../runs.js";
import { impsNamed } from "../script.js";
import { Talk } from "../talk.js";
import { byId, h, say, set } from "./dom.js";
import { MapView } from "./map.js";

/** @typedef {import("../../run/runner.js").Runner} Runner */
/** @typedef {import("../compare.js").Printed} Line */

/**
 * @typedef {object} Now where one is in the present replay
 * @property {History} history
 * @property {number} position
 * @property {number} to the IMP by whose distance the map is coloured
 * @property {boolean} hidden whether what is to come is hidden
 */

const SHOWN_WORDS = 5; // of a printed line with octets

/** The comparison of the present replay with that of another text. */
export class Compare {
    /**
     * @param {Runner} runner
     * @param {import("../runs.js").LimitsOf} limitsOf
     * @param {(position: number) => void} go
     * @param {() => void} redraw
     */
    constructor(runner, limitsOf, go, redraw) {
        this.runner = runner;
        this.limitsOf = limitsOf;
        this.go = go;
        this.redraw = redraw;
        /** @type {string} the title of what is compared, "" for the text as it was opened */
        this.other = "";
        /** @type {string} the text whose replay is here */
        this.text = "";
        /** @type {History | null} */
        this.was = null;
        /** @type {MapView | null} */
        this.map = null;
        this.shown = "";
        this.intro = h("p", { class: "soft" });
        this.parts = h("p", { class: "parts" });
        this.heads = [h("th", { scope: "col" }), h("th", { scope: "col" }, "now")];
        this.rows = h("tbody");
        const table = h("table", { class: "beside" }, h("thead", {}, h("tr", {}, ...this.heads)), this.rows);
        this.element = h("div", {}, this.intro, this.parts, table);
    }

    /**
     * Draws the table and the map.
     *
     * @param {HTMLElement} pane
     * @param {string} text what is compared
     * @param {Now} now
     */
    draw(pane, text, now) {
        if (this.element.parentElement !== pane) pane.replaceChildren(this.element);
        say(this.heads[0], this.name());
        const isSame = text === now.history.replay.input.text;
        this.rows.hidden = now.hidden || isSame;
        this.parts.hidden = isSame;
        if (isSame) return this.nothing("Nothing was changed yet. Tap a part of the map, or edit the script.");
        if (text !== this.text) return void this.load(text);
        if (!this.was) return this.nothing("The script as it was opened is refused, so there is nothing to compare.");
        this.drawMap(this.was, now);
        this.drawLines(this.was, now);
    }

    /** What the other replay is called. */
    name() {
        return this.other || "as it was opened";
    }

    /**
     * Shows the map of the other replay, if there is one, or hides it.
     *
     * @param {boolean} isShown
     */
    showMap(isShown) {
        const hidden = !isShown || !this.map || this.parts.hidden;
        byId("was").hidden = hidden;
        byId("now-words").hidden = hidden;
    }

    /** @param {string} why */
    nothing(why) {
        say(this.intro, why);
        this.parts.hidden = true;
        this.rows.hidden = true;
    }

    /**
     * Replays another text.
     *
     * @param {string} text
     */
    async load(text) {
        this.text = text;
        this.map = this.was = null;
        const outcome = await replay(this.runner.run, text, this.limitsOf(text));
        if (text !== this.text) return;
        if (isReplay(outcome)) {
            const svg = /** @type {SVGElement} */ (/** @type {unknown} */ (byId("was-network")));
            this.was = new History(outcome);
            this.talk = new Talk(outcome);
            this.map = new MapView(svg, this.was.network, null);
            this.map.name(impsNamed(outcome.input.events.map((it) => it.words)));
        }
        this.redraw();
    }

    /**
     * Draws the other map at the same step, and marks on it what differs.
     *
     * @param {History} was
     * @param {Now} now
     */
    drawMap(was, { history, position, to }) {
        if (!this.map || !this.talk) return;
        const place = placeBeside(was.replay, history.replay, position);
        const state = was.at(place);
        this.map.draw({ state, talk: this.talk.goTo(place), to });
        const differs = differingParts(state, history.at(position));
        this.map.mark(new Set(differs));
        const words = differs.map((name) => partWords(was.network, name));
        const alike = "At this step both are alike inside.";
        say(this.parts, words.length ? `Not alike at this step: ${words.join(", ")}.` : alike);
        this.parts.hidden = false;
        const at = stepWords(was, place);
        say(byId("was-words"), `${this.name()}, ${at}`);
        set(byId("was-network"), { "aria-label": `The map ${this.name()}, ${at}. ${this.parts.textContent}` });
        say(byId("now-words"), `now, ${stepWords(history, position)}`);
    }

    /**
     * Shows what both printed, like lines beside each other.
     *
     * @param {History} was
     * @param {Now} now
     */
    drawLines(was, { history, hidden }) {
        if (hidden) return say(this.intro, "What both print is hidden with the future.");
        const key = `${this.text}\n${history.replay.input.text}`;
        if (key === this.shown) return;
        this.shown = key;
        const pairs = beside(printedBy(was.replay), printedBy(history.replay));
        const differ = pairs.filter((pair) => !pair.before || !pair.after).length;
        const words = `${differ} of the lines that the two print ${differ === 1 ? "differs" : "differ"}.`;
        say(this.intro, differ ? words : "Both print the same.");
        this.rows.replaceChildren(
            ...pairs.map(({ before, after }) => {
                const cells = [before ? this.cell(before, false) : "", after ? this.cell(after, true) : ""];
                return h("tr", { class: before && after ? "" : "differs" }, ...cells.map((it) => h("td", {}, it)));
            }),
        );
        this.rows.querySelector(".differs")?.scrollIntoView({ block: "nearest" });
    }

    /**
     * @param {Line} line
     * @param {boolean} isNow whether one can go there
     */
    cell({ line, text, position }, isNow) {
        const short = /^(?:in|out) /.test(text) ? text.split(" ").slice(0, SHOWN_WORDS).join(" ") : text;
        const words = [h("small", {}, `${line} `), short];
        if (!isNow) return h("span", {}, ...words);
        return h("button", { type: "button", class: "plain", onclick: () => this.go(position) }, ...words);
    }
}

/**
 * A position in words.
 *
 * @param {History} history
 * @param {number} position
 */
function stepWords(history, position) {
    if (position === 0) return "at the beginning";
    const { event, round } = history.replay.moments[position - 1];
    return `line ${history.replay.input.events[event].line}${round ? `, round ${round}` : ""}`;
}
