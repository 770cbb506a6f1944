/** The table of a class: each line of codes that was pasted as which exercises are solved. */

import { TABLE } from "../../../python/dorydate/sentences/table.mjs";
import { classIn } from "../codes.js";
import { EXERCISES } from "../exercises.js";
import { byId, h } from "./dom.js";
import { saveText } from "./files.js";

const WORDS = TABLE.exercises;

/** Opens the dialog in which codes are read. */
export function openMarks() {
    const dialog = /** @type {HTMLDialogElement} */ (byId("marks"));
    const area = /** @type {HTMLTextAreaElement} */ (h("textarea", { "rows": 6, "aria-label": WORDS.paste, "placeholder": WORDS.paste }));
    const table = h("div", { class: "marks-table" });
    const draw = () => table.replaceChildren(tableOf(classIn(area.value)));
    area.addEventListener("input", draw);
    const close = h("button", { type: "button", onclick: () => dialog.close() }, "Close");
    const save = h("button", { type: "button", onclick: () => saveText(sheetOf(classIn(area.value)), "exercises.csv") }, WORDS.save);
    dialog.replaceChildren(
        h("header", {}, h("h2", { id: "marks-title" }, WORDS.title), save, close),
        h("div", { class: "marks-body" }, h("p", { class: "soft" }, WORDS.how), area, table),
    );
    dialog.showModal();
    area.focus();
}

/** @param {ReturnType<typeof classIn>} lines */
function tableOf(lines) {
    const heads = EXERCISES.map(({ title }) => h("th", { scope: "col", title }, title.split(".")[0]));
    const rows = lines.map(({ who, solved }) => h(
        "tr",
        {},
        h("th", { scope: "row" }, who),
        ...(solved
            ? solved.map((events, at) => h("td", { class: events && events <= EXERCISES[at].shortest ? "best" : "" }, events ? String(events) : "·"))
            : [h("td", { colspan: EXERCISES.length, class: "bad" }, WORDS["no code"])]),
    ));
    return lines.length ? h("table", {}, h("thead", {}, h("tr", {}, h("th", {}, ""), ...heads)), h("tbody", {}, ...rows)) : "";
}

/**
 * The same for a spreadsheet. A cell that a spreadsheet would take for a formula begins with a quote.
 *
 * @param {ReturnType<typeof classIn>} lines
 */
function sheetOf(lines) {
    const cell = (/** @type {string} */ text) => `"${(/^[=+@-]/.test(text) ? `'${text}` : text).replace(/"/g, '""')}"`;
    const head = ["", ...EXERCISES.map((it) => it.title)];
    const rows = lines.map(({ who, solved }) => [who, ...(solved ?? []).map((it) => (it ? String(it) : ""))]);
    return [head, ...rows].map((row) => `${row.map(cell).join(",")}\r\n`).join("");
}
