/**
 * Faults that are planted in the page of the workbench, each with the trial that has to find it.
 */

import { gunzipSync } from "node:zlib";

import { octetsOf } from "../run/base85.js";

/**
 * A fault for the page.
 *
 * @typedef {object} Planted
 * @property {string} what
 * @property {string} from what it changes in the page
 * @property {string} to
 * @property {string} by the trial that has to find it, or "spoken"
 * @property {[number, number]} [size]
 * @property {string} [only] the browser that shows it, where others do not
 * @property {string} words what has to be found
 */

const STYLE = "</style>";

export const PLANTED = /** @type {Planted[]} */ ([
    {
        what: "what a clause says of a life is not shown",
        from: "told.hidden = !isOpen;",
        to: "told.replaceChildren(); return;",
        by: "booked",
        words: "promise",
    },
    {
        what: "the sheet has no height where the page is low",
        from: STYLE,
        to: `@media (max-height: 500px) { main { grid-template-rows: 10rem 0 0 !important; height: 0 } }${STYLE}`,
        by: "measured",
        size: [720, 450],
        words: "has room",
    },
    {
        what: "a low page whose step buttons are at its end",
        from: STYLE,
        to: `:root[data-low] body { display: block !important; height: auto !important }${STYLE}`,
        by: "reached",
        size: [740, 360],
        words: "high at 360",
    },
    {
        what: "an address that is cut off is opened as none",
        from: 'if (place === "cut") return this.unopened(CUT);',
        to: 'if (place === "cut") return false;',
        by: "unopened",
        words: "why nothing is opened",
    },
    {
        what: "a sentence with another host's name",
        from: 'hostName(network, words[place] ?? "")',
        to: 'hostName(network, words[name === "source" ? 1 : place] ?? "")',
        by: "named",
        words: "who sends and takes",
    },
    {
        what: "a step that is skipped",
        from: "next: () => this.step(1),",
        to: "next: () => this.step(2),",
        by: "stepped",
        words: "next goes one step",
    },
    {
        what: "a refused event among those that are possible",
        from: 'if (!printed.some((line) => line.startsWith("refused ")))',
        to: "if (true)",
        by: "happening",
        words: "refused: ",
    },
    {
        what: "a goal that is judged by its first part",
        from: "readPattern(goal.pattern)",
        to: 'readPattern(goal.pattern.split(" then ")[0])',
        by: "judged",
        words: "too early",
    },
    {
        what: "a zoom that loses labels",
        from: 'element.classList.toggle("folded", !put);',
        to: 'element.classList.toggle("folded", !put || this.port.scale > 1.5);',
        by: "large",
        words: "labels are left out from near",
    },
    {
        what: "a row that is looked for once, where heights are not known yet",
        from: 'classList.contains("many") ? 3 : 0',
        to: 'classList.contains("many") ? 0 : 0',
        by: "followed",
        size: [360, 740],
        only: "Chromium",
        words: "the present row is not seen",
    },
    {
        what: "a replay that is cut off early",
        from: "octets: 36_000_000",
        to: "octets: 400_000",
        by: "linked",
        words: "does not come to its end",
    },
    {
        what: "lines side by side that are not folded",
        from: "const NEAR = 14;",
        to: "const NEAR = 0;",
        by: "bundles",
        words: "lines are folded",
    },
    {
        what: "names that are put on others",
        from: "put.every((it) => !meet(rect, it, GAP))",
        to: "true",
        by: "legible",
        words: "lies on",
    },
    {
        what: "doors that stay over a lesson",
        from: "if (this.history) this.doors.show(false);",
        to: "",
        by: "entered",
        words: "the doors stay",
    },
    {
        what: "packets that are put on names",
        from: "const SHIFTS = [0, ",
        to: "const SHIFTS = [0]; const NONE = [",
        by: "uncovered",
        size: [390, 844],
        words: "lies on a name",
    },
    {
        what: "letters that shrink with the map",
        from: "const unit = frame.unit * grown(",
        to: "const unit = 0.8 * frame.unit * grown(",
        by: "legible",
        size: [1280, 800],
        words: "letters of",
    },
    {
        what: "sites of the lesson that have no weight on the map",
        from: "this.named.has(number) ? 16 : 0",
        to: "this.named.has(number) ? -16 : 0",
        by: "legible",
        size: [390, 844],
        words: "has no name on the map",
    },
    {
        what: "sites of the lesson that have no weight on paper",
        from: "map.name(impsNamed(history.replay.input.events",
        to: "void (impsNamed(history.replay.input.events",
        by: "namedOnPaper",
        words: "has no name on the map",
    },
    {
        what: "buttons that do not fit",
        from: STYLE,
        to: `@media (max-width: 560px) { #foot .group button { min-width: 14rem } }${STYLE}`,
        by: "measured",
        size: [390, 844],
        words: "wide at",
    },
    {
        what: "a step takes the focus",
        from: "next: () => this.step(1),",
        to: 'next: () => { this.step(1); byId("next").blur(); },',
        by: "keys",
        words: "takes the focus",
    },
    {
        what: "space plays on a button, too",
        from: 'isButton ? {} : { " ": () => bench.player.toggle() }',
        to: '{ " ": () => bench.player.toggle() }',
        by: "keys",
        words: "space on a button plays",
    },
    {
        what: "pale rows",
        from: STYLE,
        to: `.row.future { opacity: 0.34 !important }${STYLE}`,
        by: "contrast",
        words: "contrast",
    },
    {
        what: "a comment that shows while the future is hidden",
        from: "const isHidden = hidden && !isPast;",
        to: 'const isHidden = hidden && !isPast && row.kind !== "comment";',
        by: "hidden",
        words: "a row of the future",
    },
    {
        what: "cells that a step changed are not framed",
        from: 'were !== null && old.get(name) !== text',
        to: "false",
        by: "holding",
        words: "is not framed",
    },
    {
        what: "distances that a step changed are not framed",
        from: "changed.has(`${imp} ${column}`)",
        to: "false",
        by: "distances",
        words: "is not framed",
    },
    {
        what: "counters as they are in the end",
        from: "const talk = this.talk.goTo(position);",
        to: "const talk = this.talk.goTo(history.length);",
        by: "holding",
        words: "sent: ",
    },
    {
        what: "the index opens at a button of its head",
        from: 'this.list.querySelector("button")?.focus();',
        to: "",
        by: "compared",
        words: "doesn't begin at its first lesson",
    },
    {
        what: "the map as it was shows what is now",
        from: "const place = placeBeside(was.replay, history.replay, position);",
        to: "const place = was.length;",
        by: "compared",
        words: "alike",
    },
    {
        what: "a part of the map that is said twice",
        from: "say(element.children[0], text);",
        to: 'say(element.children[0], text); set(element, { "aria-label": text });',
        by: "keys",
        words: "hears it, or with two",
    },
    {
        what: "a button whose name is a sign",
        from: 'aria-label="Next step"',
        to: 'aria-label="▶"',
        by: "spoken",
        words: "no name in words",
    },
    {
        what: "text that runs over its cell on paper",
        from: STYLE,
        to: `@media print { #handout td { white-space: nowrap } }${STYLE}`,
        by: "paper",
        size: [794, 1123],
        words: "on paper",
    },
]);

/**
 * A page with its code in it as it is written, and with a policy that allows other scripts and styles, so that faults can
 * be planted.
 *
 * @param {string} page
 */
export function opened(page) {
    const [block, packed] = /<script [^>]* id="code">([^<]*)<\/script>/.exec(page) ?? ["", ""];
    const code = new TextDecoder().decode(gunzipSync(octetsOf(packed)));
    return page
        .replace(block, "")
        .replace(/(<script type="module">)[^]*?(?=<\/script>)/, (_, start) => start + code)
        .replace(/'sha256-[^']*'/g, "'unsafe-inline'");
}
