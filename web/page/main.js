/** The plain page: a script, its options, Run and Stop, what was printed, and a chart of what crossed. */

import { embedded, examplesInPage } from "../run/embedded.js";
import { drawn } from "./chart.js";
import { chartOf } from "./crossings.js";
import { lineOfFault, rangeOf, summary } from "./faults.js";

/** @typedef {import("../run/embedded.js").Note} Note */
/** @typedef {import("../run/runner.js").Outcome} Outcome */
/** @typedef {import("../run/runner.js").Runner} Runner */
/** @typedef {{name: string, title: string, text: string}} Example */

const MOST_SHOWN = 400_000; // letters of output that the page shows; all can be saved
const MOST_ROWS = 1_000; // rows that the chart draws
const MOST_OCTETS = 16 * 2 ** 20; // of output

/**
 * An element of the page.
 *
 * @template {HTMLElement} T
 * @param {string} id
 * @param {new () => T} kind
 * @returns {T}
 */
function part(id, kind) {
    const found = document.getElementById(id);
    if (!(found instanceof kind)) throw new Error(`the page lacks ${id}`);
    return found;
}

const box = part("script", HTMLTextAreaElement);
const [list, task] = ["example", "task"].map((id) => part(id, HTMLSelectElement));
const [texts, book, seconds] = ["texts", "book", "seconds"].map((id) => part(id, HTMLInputElement));
const [runButton, stopButton] = ["run", "stop"].map((id) => part(id, HTMLButtonElement));
const printed = part("printed", HTMLPreElement);
const [said, chart, drawing, rest] = ["said", "chart", "drawing", "rest"].map((id) => part(id, HTMLElement));

/** @type {Uint8Array} */
let output = new Uint8Array();

/** The words of the command line that the page asks for. */
function words() {
    if (task.value) return [task.value];
    return [texts, book].filter((it) => it.checked).map((it) => it.value);
}

/** Shows what a run printed, and draws it if it is a replay. */
function show(/** @type {Outcome} */ outcome) {
    output = outcome.stdout;
    const whole = new TextDecoder().decode(output);
    printed.textContent = whole.slice(0, MOST_SHOWN);
    rest.textContent = whole.length > MOST_SHOWN
        ? `The first ${MOST_SHOWN} of ${whole.length} letters are shown. Save output has them all.`
        : "";
    const lines = task.value ? [] : whole.split("\n");
    const made = chartOf(lines.slice(0, MOST_ROWS));
    chart.hidden = made.arrows.length === 0;
    drawing.replaceChildren(...(chart.hidden ? [] : [drawn(made)]));
    if (!chart.hidden && lines.length > MOST_ROWS) drawing.append(`The first ${MOST_ROWS} lines are drawn.`);
}

/** Marks the line of the box that a fault names. */
function mark(/** @type {Outcome} */ outcome) {
    const line = lineOfFault(outcome.stderr, box.value);
    if (line === undefined) return;
    const { from, to } = rangeOf(box.value, line);
    box.focus();
    box.setSelectionRange(from, to);
    box.scrollTop = ((line - 4) / box.value.split("\n").length) * box.scrollHeight;
}

/** Runs what is in the box. */
async function run(/** @type {Runner} */ runner) {
    const given = { text: box.value, seconds: Number(seconds.value) || 10, octets: MOST_OCTETS };
    runButton.disabled = true;
    stopButton.disabled = false;
    said.textContent = "Running …";
    try {
        const outcome = await runner.run(words(), new TextEncoder().encode(given.text), given);
        said.textContent = summary(outcome, given);
        said.classList.toggle("fault", outcome.ended !== "exit" || outcome.status !== 0);
        show(outcome);
        mark(outcome);
    } catch (why) {
        said.textContent = String(why);
        said.classList.add("fault");
    }
    runButton.disabled = false;
    stopButton.disabled = true;
}

/** Offers octets as a file to be saved. */
function save(/** @type {string} */ name, /** @type {BlobPart} */ octets) {
    const link = document.createElement("a");
    link.href = URL.createObjectURL(new Blob([octets], { type: "text/plain" }));
    link.download = name;
    link.click();
    setTimeout(() => URL.revokeObjectURL(link.href), 1000);
}

/** Says what the page's program is. */
function tell(/** @type {Note} */ note) {
    const proved = part("proved", HTMLElement);
    proved.textContent = note.proved
        ? "This is the proved program."
        : "NOT PROVED: this page holds a program that was built without proofs.";
    proved.classList.toggle("fault", !note.proved);
    const { sources, toolchain, mark } = note;
    part("note", HTMLElement).textContent = `Sources ${sources}, ${toolchain}; mark of the compiler: ${mark}.`;
}

/** Puts an example into the box. */
function take(/** @type {Example} */ example) {
    box.value = example.text;
    list.value = example.name;
}

async function start() {
    /** @type {Example[]} */
    const examples = await examplesInPage();
    list.append(...examples.map((it) => new Option(it.title, it.name)));
    const named = (/** @type {string} */ name) => examples.find((it) => it.name === name);
    take(named(location.hash.slice(1)) ?? named("first-message") ?? examples[0]);
    const { runner, note } = await embedded();
    tell(note);
    const go = () => {
        if (!runButton.disabled) run(runner);
    };
    list.addEventListener("change", () => {
        const chosen = examples.find((it) => it.name === list.value);
        const kept = box.value;
        if (chosen) take(chosen);
        if (!examples.some((it) => it.text === kept)) lost = kept;
        undo.hidden = lost === undefined;
        go();
    });
    runButton.addEventListener("click", go);
    stopButton.addEventListener("click", runner.stop);
    document.addEventListener("keydown", (event) => {
        if (event.key === "Enter" && (event.ctrlKey || event.metaKey)) go();
    });
    part("save-script", HTMLButtonElement).addEventListener("click", () => save(`${list.value}.txt`, box.value));
    part("save-output", HTMLButtonElement).addEventListener("click", () => save(`${list.value}.output.txt`, output));
    runButton.disabled = false;
    await run(runner);
}

/**
 * What stood in the box, changed, before another example took its place.
 *
 * @type {string | undefined}
 */
let lost;
const undo = part("undo", HTMLButtonElement);
undo.addEventListener("click", () => {
    if (lost !== undefined) box.value = lost;
    lost = undefined;
    undo.hidden = true;
});
task.addEventListener("change", () => {
    for (const it of [texts, book]) it.disabled = task.value !== "";
});
part("open", HTMLInputElement).addEventListener("change", async (event) => {
    const file = /** @type {HTMLInputElement} */ (event.target).files?.[0];
    if (file) box.value = await file.text();
});
start().catch((why) => {
    said.textContent = `The page does not work in this browser: ${why}`;
    said.classList.add("fault");
});
