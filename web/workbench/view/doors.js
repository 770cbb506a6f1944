/** What a first visit sees above the map: three ways to begin. */

import { TABLE } from "../../../python/dorydate/sentences/table.mjs";
import { byId, h, s } from "./dom.js";

const WORDS = TABLE.doors;
const SIGNS = {
    watch: "M3 4h18v13H3z M8 21h8 M10.5 8v5l4-2.5z",
    break: "M2 12h6 M16 12h6 M9 8l-1.5-3 M15 16l1.5 3 M12.5 6l1-3 M11.5 18l-1 3",
    solve: "M12 3a6 6 0 0 1 3.5 10.9V17h-7v-3.1A6 6 0 0 1 12 3z M9.5 20.5h5",
};

/** @typedef {"watch" | "break" | "solve"} Door */

/** The doors. */
export class Doors {
    /** @param {(door: Door) => void} open */
    constructor(open) {
        this.element = byId("doors");
        this.element.replaceChildren(
            ...(/** @type {Door[]} */ (["watch", "break", "solve"])).map((door) => h(
                "button",
                { type: "button", id: `door-${door}`, onclick: () => open(door) },
                s("svg", { viewBox: "0 0 24 24", "aria-hidden": "true" }, s("path", { d: SIGNS[door] })),
                h("b", {}, WORDS[door]),
                h("small", {}, WORDS[`${door} more`]),
            )),
        );
    }

    /** @param {boolean} isShown */
    show(isShown) {
        this.element.hidden = !isShown;
    }

    isShown() {
        return !this.element.hidden;
    }
}
