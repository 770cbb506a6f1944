/** Draws what is around the map and the script: the sentence of the step, the step buttons, and the tabs. */

import { headComment } from "../script.js";
import { quietSentence, sentenceOf } from "../sentences.js";
import { answerTo } from "../walk.js";
import { byId, h, say, sayWithCode, set } from "./dom.js";
import { withTerms } from "./terms.js";

/** @typedef {import("../fold.js").History} History */
/** @typedef {import("../stops.js").Stop} Stop */
/** @typedef {import("../script.js").Note} Note */
/** @typedef {import("../app.js").Example} Example */

/**
 * @typedef {object} Step where one is
 * @property {History} history
 * @property {Stop[]} stops
 * @property {number} at how many stops are done
 * @property {Note[]} notes
 * @property {Note | null} asking the question that is asked in place of the next step
 * @property {Set<Note>} asked
 * @property {boolean} hidden whether what is to come is hidden
 * @property {string} title
 * @property {string} first what a first visit reads in place of what the input says of itself
 * @property {() => void} next shows what happens
 */

export const TABS = /** @type {[string, string][]} */ ([
    ["script", "Script"],
    ["waits", "Waits"],
    ["next", "Possible"],
    ["distances", "Distances"],
    ["inside", "Inside"],
    ["hosts", "Hosts"],
    ["book", "Book"],
    ["printed", "Printed"],
    ["compare", "Compare"],
]);
const MOST_OF_INTRO = 320; // letters
const MOST_OF_EVENT = 90;

/**
 * Fills the lists that stay as they are: lessons and tabs.
 *
 * @param {Example[]} examples
 * @param {(tab: string) => void} openTab
 */
export function fillLists(examples, openTab) {
    const groups = [...new Set(examples.map((it) => it.group))];
    const options = (/** @type {string} */ group) =>
        examples.filter((it) => it.group === group).map((it) => h("option", { value: it.name }, it.title));
    byId("lesson").replaceChildren(...groups.map((group) => h("optgroup", { label: group }, ...options(group))));
    byId("tabs").replaceChildren(
        ...TABS.map(([name, title]) => {
            const more = { type: "button", role: "tab", "aria-controls": "pane", onclick: () => openTab(name) };
            const badge = name === "waits" ? h("span", { class: "count", hidden: true }) : null;
            return h("button", { ...more, id: `tab-${name}`, class: `${name}-tab` }, title, badge && " ", badge);
        }),
    );
}

/**
 * Draws the sentence of the step, or the question in its place.
 *
 * @param {Step} step
 */
export function drawSentence(step) {
    const { history, stops, at, asking, asked } = step;
    const stop = at ? stops[at - 1] : null;
    const sentence = byId("sentence");
    const question = asking ?? [...asked].reverse().find((it) => stop && it.before === stop.event);
    byId("question").hidden = !question;
    if (question) drawQuestion(step, question);
    if (!stop) {
        say(byId("label"), step.title);
        return sayWithTerms(sentence, asking ? "" : step.first || introOf(history));
    }
    const event = history.replay.input.events[stop.event];
    const words = event.words.join(" ").slice(0, MOST_OF_EVENT);
    say(byId("label"), asking ? "Before the next step" : `${words}${roundsOf(stop)}`);
    const text = asking ? "" : stop.main < 0 ? quietSentence(history, stop) : sentenceOf(history, stop.main);
    const isCut = at === stops.length && !step.hidden && history.replay.cut !== "";
    sayWithTerms(sentence, isCut ? `${text} ${history.replay.cut}` : text);
    sentence.classList.toggle("refused", text.startsWith("Refused"));
}

/**
 * @param {Element} sentence
 * @param {string} text
 */
function sayWithTerms(sentence, text) {
    const seen = new Set();
    sayWithCode(sentence, text, (part) => withTerms(part, seen));
}

/**
 * What an input says of itself, before its first step.
 *
 * @param {History} history
 */
function introOf(history) {
    const { network, replay } = history;
    const intro = headComment(replay.input);
    if (!intro) return `${network.sites.length} IMPs, ${network.hosts.length} hosts. Go forward with → or ▶.`;
    if (intro.length <= MOST_OF_INTRO) return intro;
    const start = intro.slice(0, MOST_OF_INTRO);
    return start.replace(/[^.]*$/, "") || start;
}

/** @param {Stop} stop */
function roundsOf({ round, last }) {
    if (!round) return "";
    return round === last ? ` · round ${round}` : ` · rounds ${round} to ${last}`;
}

/**
 * @param {Step} step
 * @param {Note} question
 */
function drawQuestion({ stops, at, notes, asking, next }, question) {
    const answer = asking ? null : answerTo(notes, stops, at, question);
    byId("question").replaceChildren(
        h("span", {}, question.text),
        asking ? h("button", { type: "button", onclick: next }, "Show what happens") : "",
        answer ? h("span", { class: "answer" }, answer.text) : "",
    );
}

/**
 * Draws the step buttons, the slider and the count.
 *
 * @param {Stop[]} stops
 * @param {number} at how many stops are done
 * @param {boolean} hidden whether what is to come is hidden
 * @param {{undo: boolean, redo: boolean}} can
 * @param {number} rounds how many have passed
 */
export function drawFoot(stops, at, hidden, can, rounds) {
    const slider = /** @type {HTMLInputElement} */ (byId("slider"));
    const count = `step ${at}${hidden ? "" : ` of ${stops.length}`}`;
    set(slider, { max: hidden ? Math.max(at, 1) : stops.length, "aria-valuetext": count });
    slider.value = String(at);
    slider.style.setProperty("--done", `${(100 * at) / Math.max(1, Number(slider.max))}%`);
    say(byId("clock"), `round ${rounds}`);
    say(byId("count"), count);
    set(byId("first"), { disabled: at === 0 });
    set(byId("last"), { disabled: hidden });
    set(byId("hide"), { "aria-pressed": String(hidden) });
    set(byId("undo"), { disabled: !can.undo });
    set(byId("redo"), { disabled: !can.redo });
}

/**
 * Marks the chosen tab and brings it into sight, and says at the tab of what waits how much does.
 *
 * @param {string} chosen
 * @param {number} waits
 * @param {boolean} isBad whether anything waits for ever
 */
export function drawTabs(chosen, waits, isBad) {
    for (const [name] of TABS) {
        const tab = byId(`tab-${name}`);
        const isNew = name === chosen && tab.getAttribute("aria-selected") !== "true";
        set(tab, { "aria-selected": String(name === chosen), tabindex: name === chosen ? 0 : -1 });
        if (isNew) tab.scrollIntoView({ block: "nearest", inline: "center" });
    }
    const count = byId("tab-waits").querySelector(".count");
    if (!(count instanceof HTMLElement)) return;
    say(count, String(waits));
    count.hidden = waits === 0;
    count.classList.toggle("bad", isBad);
}
