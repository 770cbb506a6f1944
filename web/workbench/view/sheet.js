/** Draws the sheet: the script's rows, and the chart over the same rows. */

import { rowsOf, shownRows } from "../sheet.js";
import { hostName, impOf } from "../topology.js";
import { wordOf } from "../glossary.js";
import { keep, s, say, set, h } from "./dom.js";

/** @typedef {import("../fold.js").History} History */
/** @typedef {import("../stops.js").Stop} Stop */
/** @typedef {import("../sheet.js").Row} Row */
/** @typedef {import("../chart.js").Chart} Chart */

/**
 * @typedef {object} Sheet what is drawn
 * @property {History} history
 * @property {Stop[]} stops
 * @property {Chart} chart
 * @property {Set<number>} added lines of the script that were added
 */

const EMPTY = "The script has no event yet. Tap a part of the map, or an event in the table Possible, and it is added here. "
    + "Or type it: press Edit.";

const [MOST_HEADS, FEW_HEADS] = [3, 2]; // lanes with their names in one row, on a large page and on a small one

/** The sheet of a replay. */
export class SheetView {
    /**
     * @param {HTMLElement} element
     * @param {(position: number) => void} go
     */
    constructor(element, go) {
        this.go = go;
        this.heads = h("div", { class: "heads" });
        this.rows = h("div", { class: "rows", role: "list", "aria-label": "script" });
        this.svg = s("svg", { class: "chart", "aria-hidden": "true" });
        this.body = h("div", { class: "sheet-body" }, this.rows, this.svg);
        this.empty = h("p", { class: "soft empty", hidden: true }, EMPTY);
        this.scroller = h(
            "div",
            { class: "sheet-scroll", tabindex: 0, role: "region", "aria-label": "script and chart" },
            this.heads,
            this.empty,
            this.body,
        );
        element.replaceChildren(this.scroller);
        /** @type {Sheet | null} */
        this.sheet = null;
        /** @type {Row[]} */
        this.list = [];
        /** @type {import("../sheet.js").Shown[]} what has an element, in order */
        this.shown = [];
        this.unfolded = "";
        this.isNew = true;
        this.drawn = "";
        /** @type {string[]} what each of them looks like */
        this.looks = [];
        /** @type {Set<number>} */
        this.marked = new Set();
        this.range = { from: 0, to: 0 };
        new ResizeObserver(() => this.sheet && this.drawChart()).observe(this.body);
        this.scroller.addEventListener("scroll", () => this.sheet && this.isOutside() && this.drawChart());
    }

    /**
     * Shows another replay, or other stops.
     *
     * @param {Sheet} sheet
     */
    show(sheet) {
        this.sheet = sheet;
        this.list = rowsOf(sheet.history, sheet.stops);
        this.empty.hidden = sheet.history.replay.input.events.length > 0;
        this.isNew = true;
        this.rows.classList.toggle("many", this.list.length > 400);
        const { network } = sheet.history;
        const { layout, low } = document.documentElement.dataset;
        const isSmall = layout === "narrow" || low !== undefined;
        this.heads.classList.toggle("many", sheet.chart.lanes.length > (isSmall ? FEW_HEADS : MOST_HEADS));
        keep(
            this.heads,
            ["", ...sheet.chart.lanes],
            (host) => `head ${host}`,
            (host) => (host ? h("span", { class: "head" }) : h("span", { class: "head script" }, "script")),
            (element, host) => {
                set(element, { style: `grid-column: ${sheet.chart.lanes.indexOf(host) + 2}` });
                if (!host) return;
                const name = hostName(network, host);
                element.replaceChildren(
                    ...(
                        name === `host ${host}`
                            ? [h("b", {}, host)]
                            : [
                                h("b", {}, network.sites.find((it) => it.number === impOf(host))?.name ?? ""),
                                " ",
                                h("small", {}, host),
                            ]
                    ),
                );
            },
        );
        set(this.scroller, { style: `--lanes: ${sheet.chart.lanes.length}` });
    }

    /**
     * Makes the elements of the rows that are shown, where these are others than before.
     *
     * @param {number} current the place of the present row
     */
    unfold(current) {
        const shown = shownRows(this.list, current);
        const unfolded = shown.map(({ place, count }) => `${place} ${count}`).join();
        if (!this.isNew && unfolded === this.unfolded) return;
        this.shown = shown;
        this.unfolded = unfolded;
        this.looks = [];
        keep(
            this.rows,
            shown,
            ({ row, place }) => `${place} ${row.kind} ${row.number} ${row.text}`,
            ({ row }) => this.makeRow(row),
            (element, { row }) => {
                element.className = `row ${row.kind} ${row.stop >= 0 || row.steps || row.kind === "more" ? "goal" : ""}`;
                element.classList.toggle("refused", row.refused);
                element.classList.toggle("added", row.kind === "event" && this.sheet?.added.has(row.line));
                element.classList.toggle("of-flow", this.marked.has(row.stop));
                const head = element.querySelector(".steps");
                if (head) say(head, ` ▸ ${row.steps} ${row.steps === 1 ? "step" : "steps"}`);
            },
        );
    }

    /**
     * @param {Row} row
     * @returns {HTMLElement}
     */
    makeRow(row) {
        const isGoal = row.kind === "event" || row.kind === "stop" || row.kind === "more";
        const meant = isGoal ? wordOf(row.text) : "";
        const text = isGoal
            ? h("button", { class: "text", type: "button", tabindex: -1, title: meant || null }, row.text)
            : h("span", { class: "text" }, row.text);
        if (row.steps) text.append(h("small", { class: "steps" }));
        const number = h("span", { class: "number" }, row.number);
        const element = h("div", { class: "row", role: "listitem" }, number, text);
        if (row.refused) element.append(h("span", { class: "heard" }, "refused"));
        if (isGoal) {
            element.addEventListener("click", () => {
                const it = this.shown[[...this.rows.children].indexOf(element)].row;
                this.go(it.steps ? (this.sheet?.stops.find((stop) => stop.event === it.event)?.to ?? it.at) : it.at);
            });
        }
        return element;
    }

    /**
     * Shows where one is.
     *
     * @param {number} position
     * @param {boolean} hidden whether what is to come is hidden
     */
    draw(position, hidden) {
        if (!this.sheet) return;
        const { stops } = this.sheet;
        const current = this.list.findIndex(
            (row) => row.stop >= 0 && stops[row.stop].from < position && position <= stops[row.stop].to,
        );
        this.unfold(current);
        const elements = /** @type {HTMLElement[]} */ ([...this.rows.children]);
        const present = this.shown.findIndex(({ row, place }) => place === current && row.kind !== "more");
        this.shown.forEach(({ row }, at) => {
            const isPast = row.kind === "comment" || row.kind === "question"
                ? row.at < position || row.at === 0
                : row.at <= position && position > 0;
            const isHidden = hidden && !isPast;
            const looks = `${isHidden} ${isPast} ${at === present}`;
            if (looks === this.looks[at]) return;
            this.looks[at] = looks;
            elements[at].hidden = isHidden;
            elements[at].classList.toggle("future", !isPast);
            elements[at].classList.toggle("current", at === present);
            elements[at].setAttribute("aria-current", at === present ? "step" : "false");
        });
        this.position = position;
        this.hidden = hidden;
        this.current = current >= 0 ? stops[this.list[current].stop] : null;
        if (present >= 0) this.keep(elements[present]);
        else this.scroller.scrollTop = 0;
        const drawn = `${this.unfolded} ${hidden ? position : ""} ${this.body.clientWidth}`;
        if (drawn !== this.drawn || this.isNew || this.isOutside()) this.drawChart();
        this.isNew = false;
        this.drawn = drawn;
        this.markPast();
    }

    /**
     * Keeps the present row in view: of many rows the heights between are known only once they were near, so it is looked
     * at again.
     *
     * @param {HTMLElement} element
     * @param {number} [times]
     */
    keep(element, times = this.rows.classList.contains("many") ? 3 : 0) {
        keepInView(this.scroller, element, this.heads.offsetHeight);
        if (times === 0) return;
        requestAnimationFrame(() => {
            if (element.classList.contains("current")) this.keep(element, times - 1);
        });
    }

    /**
     * Marks the rows of stops.
     *
     * @param {Set<number>} stops
     */
    mark(stops) {
        this.marked = stops;
        [...this.rows.children].forEach(
            (element, at) => element.classList.toggle("of-flow", stops.has(this.shown[at].row.stop)),
        );
    }

    /** Whether rows are seen for which nothing is drawn. */
    isOutside() {
        const { scrollTop, clientHeight } = this.scroller;
        return scrollTop < this.range.from || scrollTop + clientHeight > this.range.to;
    }

    /**
     * Where the middle of the row of each moment is: that of its stop, or of the head of its calm.
     *
     * @param {Stop[]} stops
     */
    heights(stops) {
        /** @type {number[]} */
        const middles = Array(stops.length).fill(-1);
        /** @type {Map<number, number>} */
        const ofEvent = new Map();
        [...this.rows.children].forEach((child, at) => {
            const element = /** @type {HTMLElement} */ (child);
            if (element.hidden) return;
            const { row, place, count } = this.shown[at];
            const middle = element.offsetTop + element.offsetHeight / 2;
            if (row.kind === "more") for (const it of this.list.slice(place, place + count)) middles[it.stop] = middle;
            else if (row.stop >= 0) middles[row.stop] = middle;
            else if (row.kind === "event") ofEvent.set(row.event, middle);
        });
        return stops.flatMap(
            (stop, place) => Array(stop.to - stop.from).fill(
                middles[place] >= 0 ? middles[place] : (ofEvent.get(stop.event) ?? -1),
            ),
        );
    }

    /** Draws lanes, arrows and words near the rows that are seen. */
    drawChart() {
        if (!this.sheet) return;
        const { chart } = this.sheet;
        const heights = this.heights(this.sheet.stops);
        /** @type {(at: number) => number} */
        const y = (at) => heights[at] ?? -1;
        const height = this.rows.offsetHeight;
        const { scrollTop, clientHeight } = this.scroller;
        const from = Math.max(0, scrollTop - 1500);
        const to = scrollTop + clientHeight + 1500;
        this.range = { from: from ? scrollTop - 900 : -1, to: to < height ? scrollTop + clientHeight + 900 : Infinity };
        this.isNear = (/** @type {number} */ one, /** @type {number} */ other) => Math.max(one, other) >= from
            && Math.min(one, other) <= to;
        const width = this.svg.getBoundingClientRect().width;
        if (!width) return;
        set(this.svg, { viewBox: `0 0 ${width} ${Math.max(height, 1)}`, height });
        const x = (/** @type {number} */ lane) => ((lane + 0.18) * width) / Math.max(chart.lanes.length, 1);
        const room = width / Math.max(chart.lanes.length, 1);
        this.svg.replaceChildren(
            ...chart.lanes.map((_, lane) => s("line", { class: "lane", x1: x(lane), x2: x(lane), y1: 0, y2: height })),
            ...chart.down.flatMap(
                ({ lane, from, to }) => (
                    y(from) < 0
                        ? []
                        : [
                            s(
                                "line",
                                {
                                    class: "isdown",
                                    "data-at": from,
                                    x1: x(lane),
                                    x2: x(lane),
                                    y1: y(from),
                                    y2: to >= 0 && y(to) >= 0 ? y(to) : height,
                                },
                            ),
                        ]
                ),
            ),
            ...this.arrows(y, x, height),
            ...this.marks(y, x, room),
        );
        this.markPast();
    }

    /**
     * @param {(at: number) => number} y
     * @param {(lane: number) => number} x
     * @param {number} height
     */
    arrows(y, x, height) {
        return (this.sheet?.chart.arrows ?? []).flatMap((arrow) => {
            const { kind, from, lane, to, end } = arrow;
            const start = y(from);
            if (start < 0 || lane < 0) return [];
            const stop = y(to);
            if (!this.isNear?.(start, stop < 0 ? start + 30 : stop)) return [];
            if (kind === "message") return this.message(arrow, y, x, height);
            if (stop < 0) return [];
            if (lane !== end) {
                return [
                    s(
                        "g",
                        { class: `arrow ${kind}`, "data-at": to },
                        s("line", { x1: x(lane), y1: start, x2: x(end), y2: stop }),
                    ),
                ];
            }
            // an answer without a taking: a bow at the source's own lane, or only its end where it is long
            const [at, top] = [x(lane), Math.max(start, stop - 120)];
            return [
                s(
                    "g",
                    { class: `arrow ${kind}`, "data-at": to },
                    s("path", { d: `M${at} ${top} C${at - 13} ${top + 6} ${at - 13} ${stop - 6} ${at} ${stop}` }),
                ),
            ];
        });
    }

    /**
     * A message: to where it is taken; while it isn't, to a ring, and where it never will be, to a cross.
     *
     * @param {import("../chart.js").Arrow} arrow
     * @param {(at: number) => number} y
     * @param {(lane: number) => number} x
     * @param {number} height
     */
    message({ from, lane, to, end, failed }, y, x, height) {
        const [start, stop] = [y(from), y(to)];
        if (end < 0) return [];
        const ended = to >= 0 ? to : failed;
        const far = end === lane ? x(lane) + 18 : x(lane) + 0.72 * (x(end) - x(lane));
        const low = start + Math.min(22, Math.max(height - start - 5, 0));
        const line = () => s("line", { x1: x(lane), y1: start, x2: far, y2: low });
        const ring = s(
            "g",
            { class: "arrow message open", "data-at": from, "data-until": ended < 0 ? null : ended },
            line(),
            s("circle", { cx: far, cy: low, r: 3.5 }),
        );
        if (to >= 0 && stop >= 0) {
            return [
                ring,
                s(
                    "g",
                    { class: "arrow message", "data-at": to },
                    s("line", { x1: x(lane), y1: start, x2: x(end), y2: stop }),
                ),
            ];
        }
        if (failed < 0) return [ring];
        return [
            ring,
            s(
                "g",
                { class: "arrow message", "data-at": failed },
                line(),
                s(
                    "path",
                    {
                        class: "end",
                        d: `M${far - 4} ${low - 4} L${far + 4} ${low + 4} `
                            + `M${far + 4} ${low - 4} L${far - 4} ${low + 4}`,
                    },
                ),
            ),
        ];
    }

    /**
     * Words at lanes, on a plate so that no arrow crosses them.
     *
     * @param {(at: number) => number} y
     * @param {(lane: number) => number} x
     * @param {number} room
     */
    marks(y, x, room) {
        const last = (this.sheet?.chart.lanes.length ?? 1) - 1;
        const letters = (/** @type {number} */ lane) => Math.max(
            4,
            Math.floor(((lane === last ? 0.82 : 1) * room - 14) / 6.9),
        );
        return (this.sheet?.chart.marks ?? []).flatMap(({ at, lane, kind, words }) => {
            const middle = y(at);
            if (middle < 0 || !this.isNear?.(middle, middle)) return [];
            const text = shortened(words, letters(lane));
            return [
                s(
                    "g",
                    { class: `mark ${kind}`, "data-at": at },
                    s("title", {}, words),
                    s("circle", { cx: x(lane), cy: middle, r: 3.5 }),
                    s("text", { class: "plate", x: x(lane) + 8, y: middle + 4 }, text),
                    s("text", { x: x(lane) + 8, y: middle + 4 }, text),
                ),
            ];
        });
    }

    markPast() {
        for (const element of this.svg.children) {
            const at = element.getAttribute("data-at");
            if (at === null) continue;
            const isFuture = Number(at) >= (this.position ?? 0);
            element.classList.toggle(
                "here",
                Number(at) >= (this.current?.from ?? 0) && Number(at) < (this.current?.to ?? 0),
            );
            element.classList.toggle("future", isFuture);
            element.classList.toggle("gone", isFuture && (this.hidden ?? false));
            const until = element.getAttribute("data-until");
            const isOver = until !== null && (this.hidden ? Number(until) < (this.position ?? 0) : true);
            element.classList.toggle("over", isOver);
        }
    }
}

/**
 * Words in at most `letters` letters: the parts after the first are left out before any is cut.
 *
 * @param {string} words
 * @param {number} letters
 */
function shortened(words, letters) {
    if (words.length <= letters) return words;
    const [first] = words.split(" · ");
    return first.length <= letters ? first : `${first.slice(0, letters - 1)}…`;
}

/**
 * Scrolls so that an element is seen, with some rows around it.
 *
 * @param {HTMLElement} scroller
 * @param {HTMLElement} element
 * @param {number} head
 */
function keepInView(scroller, element, head) {
    const top = element.offsetTop;
    const room = scroller.clientHeight - head;
    if (room <= 0) return;
    const margin = Math.min(room / 3, 4 * element.offsetHeight);
    if (top < scroller.scrollTop + margin) scroller.scrollTop = Math.max(0, top - room / 3);
    else if (top + element.offsetHeight > scroller.scrollTop + room - margin) {
        scroller.scrollTop = top - Math.min(room / 2, Math.max(0, room - element.offsetHeight));
    }
}
