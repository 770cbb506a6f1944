/** Shows what can happen now, each event a tap; plays a surprise; and finds a script by a search with a name. */

import { chance } from "../../check/chance.js";
import { goOn } from "../edits.js";
import { candidates, possible } from "../possible.js";
import { isReplay, replay } from "../runs.js";
import { find, headOf, schedules, searches } from "../schedules.js";
import { readTopology } from "../topology.js";
import { count } from "../words.js";
import { h, say } from "./dom.js";

/** @typedef {import("../app.js").Workbench} Workbench */
/** @typedef {import("../possible.js").Possible} Possible */

const SURPRISE = { tried: 160, kept: 10 };
const LATER = 60; // milliseconds at a step until the program is asked what can happen at it
const IDLE = ["take", "offer", "calm", "ask", "deliver", "forget", "resend", "route"]; // what is left out of a surprise where it prints nothing
const SECONDS = 60; // of a search
const GROUPS = /** @type {[string, string][]} */ ([["hosts", "Hosts"], ["lines", "Lines"], ["IMPs", "IMPs"]]);

/** The table of what can happen now. */
export class Next {
    /** @param {Workbench} bench */
    constructor(bench) {
        this.bench = bench;
        this.shown = "";
        this.topology = ""; // of what is listed
        this.turn = 0;
        this.timer = 0;
        this.seed = Date.now() % 1_000_000;
        this.isSearching = false;
        this.status = h("p", { class: "soft", role: "status" });
        this.list = h("div", { class: "possible" });
        this.select = /** @type {HTMLSelectElement} */ (
            h(
                "select",
                { "aria-label": "search", id: "search" },
                ...searches().map(({ name, what }) => h("option", { value: name, title: what }, what)),
            )
        );
        this.found = h("p", { class: "soft", role: "status" });
        const surprise = { type: "button", id: "surprise", onclick: () => void this.surprise() };
        this.finder = h("button", { type: "button", id: "search-go", onclick: () => void this.search() }, "Find");
        this.element = h(
            "div",
            {},
            h(
                "div",
                { class: "next-head" },
                h("button", surprise, "Surprise me"),
                h("label", {}, "find a script in which ", this.select),
                this.finder,
            ),
            this.found,
            this.status,
            this.list,
        );
    }

    /**
     * Draws what can happen at the present position.
     *
     * @param {HTMLElement} pane
     */
    draw(pane) {
        if (this.element.parentElement !== pane) pane.replaceChildren(this.element);
        const { history, position, hidden } = this.bench;
        const key = `${position} ${history?.replay.input.text}`;
        if (hidden) {
            this.shown = "";
            this.list.replaceChildren();
            return say(this.status, "What can happen is hidden with the future.");
        }
        if (key === this.shown) return;
        if (this.bench.topology !== this.topology) this.list.replaceChildren();
        this.topology = this.bench.topology;
        this.stale(true);
        this.shown = key;
        window.clearTimeout(this.timer);
        this.timer = window.setTimeout(() => void this.look(), LATER);
    }

    /**
     * What is listed is of another step, until the program has answered: it can't be pressed then.
     *
     * @param {boolean} isStale
     */
    stale(isStale) {
        this.list.inert = isStale;
        this.list.classList.toggle("stale", isStale);
        if (isStale) say(this.status, "The program is asked what can happen now…");
    }

    /** Asks the program what can happen. */
    async look() {
        const { history, position, talk, runner } = this.bench;
        if (!history || !talk) return;
        this.turn += 1;
        const { turn } = this;
        const tried = candidates(history.at(position), talk.goTo(position));
        const found = await possible(runner.batch, history, position, tried);
        if (turn !== this.turn || this.shown !== `${this.bench.position} ${this.bench.history?.replay.input.text}`) return;
        this.stale(false);
        const left = found.count < tried.length ? ` There was time for ${found.count} of ${tried.length}.` : "";
        const [can, cannot] = [found.possible.length, found.count - found.possible.length];
        const refused = cannot ? ` ${count(cannot, "other")} would be refused.` : "";
        say(this.status, `${count(can, "event")} can happen now, by the program itself.${refused}${left}`);
        this.list.replaceChildren(...GROUPS.flatMap(([kind, title]) => this.group(title, found.possible, kind)));
    }

    /**
     * @param {string} title
     * @param {Possible[]} all
     * @param {string} kind
     */
    group(title, all, kind) {
        const mine = all.filter((it) => it.kind === kind);
        if (!mine.length) return [];
        const parts = [...new Set(mine.map((it) => it.part))];
        const rows = parts.map((part) => h(
            "div",
            { class: "possible-part" },
            h("h4", {}, part),
            h("ul", {}, ...mine.filter((it) => it.part === part).map((it) => h("li", {}, this.button(it)))),
        ));
        return [h("section", {}, h("h3", {}, title), ...rows)];
    }

    /** @param {Possible} it */
    button({ words, line, printed }) {
        const told = printed.length ? `prints: ${printed.join("; ")}` : "prints nothing";
        return h(
            "button",
            { type: "button", onclick: () => void this.bench.change([line], words) },
            h("span", {}, words),
            h("code", {}, line),
            h("small", {}, told),
        );
    }

    /** Adds a random schedule after the present step, of events that are not refused, and plays it. */
    async surprise() {
        const { history, position, runner } = this.bench;
        if (!history) return;
        this.seed += 1;
        const draw = chance(this.seed);
        const lines = [...greeting(history.network, draw), ...schedules(history.network, draw)().slice(1, SURPRISE.tried)];
        const edit = goOn(history, position, lines, true);
        const outcome = await replay(runner.run, edit.text);
        if (!isReplay(outcome)) return;
        const refused = new Set(
            outcome.moments.filter((it) => it.printed[0]?.startsWith("refused ")).map((it) => it.event),
        );
        const printing = new Set(outcome.moments.filter((it) => it.printed.length).map((it) => it.event));
        const isIdle = (/** @type {string[]} */ [kind], /** @type {number} */ event) => IDLE.includes(kind) && !printing.has(event);
        const kept = outcome.input.events.flatMap(
            ({ line, text, words }, event) => (line >= edit.line && !refused.has(event) && !isIdle(words, event) ? [text] : []),
        );
        const added = kept.slice(0, SURPRISE.kept);
        const cutOff = this.bench.taps.cutOff;
        this.bench.taps.cutOff = true;
        await this.bench.change(added, "A surprise");
        this.bench.taps.cutOff = cutOff;
        this.bench.go(edit.position);
        this.bench.player.toggle();
    }

    /** Makes the search that is chosen, and opens what it finds. */
    async search() {
        if (this.isSearching) {
            this.isSearching = false;
            return;
        }
        const search = searches().find((it) => it.name === this.select.value);
        if (!search) return;
        const head = headOf(search.network);
        const network = readTopology(head.join("\n"));
        this.isSearching = true;
        say(this.finder, "Stop");
        this.seed += 1;
        const how = {
            seconds: SECONDS,
            isOver: () => !this.isSearching,
            tell: (/** @type {number} */ runs) => say(this.found, `${runs} schedules were run…`),
        };
        const { script, count: runs } = await find(
            this.bench.runner.batch,
            head,
            network,
            search.pattern,
            chance(this.seed),
            how,
        );
        this.isSearching = false;
        say(this.finder, "Find");
        if (!script) return say(this.found, `None of ${runs} schedules did that.`);
        const comments = [`# Found in this page: ${search.what}. The first of ${runs} random schedules that did it, shrunk.`];
        await this.bench.openText([...comments, ...head, "%", ...script, ""].join("\n"));
        say(this.found, `${count(script.length, "event")}, after ${runs} schedules.`);
    }
}

/**
 * What makes a surprise begin with something to see: a message from one host to another, or a contact of their programs.
 *
 * @param {import("../topology.js").Network} network
 * @param {(below: number) => number} draw
 */
function greeting({ hosts, raw, plain, strangers }, draw) {
    const own = hosts.filter((it) => !strangers.includes(it));
    if (own.length < 2) return [];
    const from = own[draw(own.length)];
    const others = own.filter((it) => it !== from);
    const to = others[draw(others.length)];
    const settles = plain ? [] : ["calm 2"];
    return raw ? [...settles, `out ${from} ${to} 5 16 4849`, "calm 3"] : [...settles, `contact ${from} ${to}`, "calm 4"];
}
