/** Borders between panels that can be drawn, by a pointer or by keys. */

import { byId, set } from "./dom.js";

const LEAST = 15;
const MOST = 85;
const BY_KEY = 3;

/**
 * Lets a border be drawn: its place is a share of the room, in a property of the style.
 *
 * @param {string} id of the border
 * @param {"x" | "y"} way along which it is drawn
 * @param {() => void} drawn
 */
export function makeBorder(id, way, drawn) {
    const border = byId(id);
    const main = /** @type {HTMLElement} */ (border.parentElement);
    const put = (/** @type {number} */ share) => {
        const value = Math.round(Math.min(MOST, Math.max(LEAST, share)));
        main.style.setProperty(`--${id}`, `${value}%`);
        set(border, { "aria-valuenow": value });
        drawn();
    };
    const shareAt = (/** @type {PointerEvent} */ event) => {
        const box = main.getBoundingClientRect();
        return way === "x" ? (100 * (event.clientX - box.left)) / box.width : (100 * (event.clientY - box.top)) / box.height;
    };
    border.addEventListener("pointerdown", (event) => {
        border.setPointerCapture(event.pointerId);
        event.preventDefault();
        border.focus();
    });
    border.addEventListener("pointermove", (event) => {
        if (border.hasPointerCapture(event.pointerId)) put(shareAt(event));
    });
    border.addEventListener("dblclick", () => {
        main.style.removeProperty(`--${id}`);
        drawn();
    });
    border.addEventListener("keydown", (event) => {
        const by = { ArrowLeft: -BY_KEY, ArrowUp: -BY_KEY, ArrowRight: BY_KEY, ArrowDown: BY_KEY }[event.key];
        if (!by) return;
        event.preventDefault();
        event.stopPropagation();
        put(shareOf(border, main, way) + by);
    });
}

/**
 * Where a border is, as a share of the room.
 *
 * @param {HTMLElement} border
 * @param {HTMLElement} main
 * @param {"x" | "y"} way
 */
function shareOf(border, main, way) {
    const [box, room] = [border.getBoundingClientRect(), main.getBoundingClientRect()];
    return way === "x"
        ? (100 * (box.x + box.width / 2 - room.x)) / room.width
        : (100 * (box.y + box.height / 2 - room.y)) / room.height;
}
