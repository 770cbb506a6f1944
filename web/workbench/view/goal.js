/** Says whether a script reaches its goal: with a hint for who is stuck, and a code for who is done. */

import { TABLE } from "../../../python/dorydate/sentences/table.mjs";
import { codeOf, solve } from "../codes.js";
import { EXERCISES } from "../exercises.js";
import { goalOf } from "../goals.js";
import { filled } from "../words.js";
import { byId, h, say, sayWithCode } from "./dom.js";

const WORDS = TABLE.exercises;

/**
 * Shows how far a script is.
 *
 * @param {{isReached: boolean, text: string}} judged
 * @param {import("../script.js").Input} input
 * @param {string} name of the exercise, "" for none of the ten
 */
export function drawGoal({ isReached, text }, input, name) {
    const goal = byId("goal");
    goal.hidden = text === "";
    goal.classList.toggle("reached", isReached);
    const hint = goalOf(input)?.hint ?? "";
    const parts = [h("span", {}, text)];
    if (isReached && EXERCISES.some((it) => it.name === name)) {
        const solved = solve(name, input.events.length);
        const count = EXERCISES.filter((it) => solved[it.name]).length;
        parts.push(h("span", { class: "code" }, filled(WORDS.code, { count, all: EXERCISES.length }), " ", h("code", {}, codeOf(solved))));
    } else if (!isReached && hint) {
        const told = h("span", { class: "hint", hidden: true });
        sayWithCode(told, hint);
        const show = h("button", { type: "button", id: "hint", onclick: () => {
            told.hidden = !told.hidden;
            say(show, told.hidden ? WORDS.hint : WORDS["no hint"]);
        } }, WORDS.hint);
        parts.push(show, told);
    }
    goal.replaceChildren(...parts);
}
