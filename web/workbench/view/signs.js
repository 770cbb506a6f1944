/** The signs of a map: frames by what they carry, badges, crosses, and small reckoning about points. */

import { s, say } from "./dom.js";

/** @typedef {import("../layout.js").Point} Point */

/** Shapes that differ without colour, drawn around the origin. */
export const SIGNS = /** @type {{[kind: string]: string}} */ ({
    data: "M-7 -5.5 H2 L8 0 L2 5.5 H-7 Z",
    rfnm: "M-6.5 0 A6.5 6.5 0 1 1 6.5 0 A6.5 6.5 0 1 1 -6.5 0 Z",
    dead: "M-6 -6 H6 V6 H-6 Z",
    ask: "M0 -8 L8 0 L0 8 L-8 0 Z",
    never: "M-3.5 -7 H3.5 L7 -3.5 V3.5 L3.5 7 H-3.5 L-7 3.5 V-3.5 Z",
    routes: "M-4 -4.5 L5 0 L-4 4.5 Z",
    ack: "M-2.5 0 A2.5 2.5 0 1 1 2.5 0 A2.5 2.5 0 1 1 -2.5 0 Z",
});

export const STROKES = /** @type {{[kind: string]: string}} */ ({
    rfnm: "M-3 0.2 L-0.8 2.6 L3.2 -2.4",
    dead: "M-3 -3 L3 3 M3 -3 L-3 3",
    ask: "M-1.8 -2 A1.9 1.9 0 1 1 0 0.4 V1.6 M0 3.6 V4.2",
    never: "M0 -4 V1 M0 3.4 V4",
});

/**
 * A sign for a legend.
 *
 * @param {string} kind
 */
export function legendSign(kind) {
    return s(
        "svg",
        { viewBox: "-10 -10 20 20", class: `frame ${kind} key`, "aria-hidden": "true" },
        s("path", { class: "sign", d: SIGNS[kind] }),
        s("path", { class: "stroke", d: STROKES[kind] ?? "" }),
    );
}

/** @param {Point} point */
export function spelled({ x, y }) {
    return `${x.toFixed(1)} ${y.toFixed(1)}`;
}

/**
 * @param {Point} a
 * @param {Point} b
 * @param {number} part
 */
export function between(a, b, part) {
    return { x: a.x + (b.x - a.x) * part, y: a.y + (b.y - a.y) * part };
}

/**
 * @param {number} x
 * @param {number} y
 * @param {number} r
 */
export function crossPath(x, y, r) {
    return `M${x - r} ${y - r} L${x + r} ${y + r} M${x + r} ${y - r} L${x - r} ${y + r}`;
}

/**
 * @param {Point} at
 * @param {number} r
 */
export function cross(at, r) {
    return s("path", { class: "cut", d: crossPath(at.x, at.y, r) });
}

/**
 * @param {number} x
 * @param {number} y
 * @param {number} r
 */
export function badge(x, y, r) {
    return s("g", { class: "badge" }, s("circle", { cx: x, cy: y, r }), s("text", { x, y: y + 0.45 * r }));
}

/**
 * @param {Element} element
 * @param {number} count
 */
export function updateBadge(element, count) {
    const it = element.querySelector(".badge");
    if (!it) return;
    it.classList.toggle("shown", count > 0);
    say(it.children[1], count ? String(count) : "");
}

export function hatch() {
    return s(
        "defs",
        {},
        s(
            "pattern",
            { id: "hatched", width: 6, height: 6, patternUnits: "userSpaceOnUse", patternTransform: "rotate(45)" },
            s("line", { x1: 0, y1: 0, x2: 0, y2: 6, class: "hatching" }),
        ),
    );
}

/**
 * Names a part, for who hears and for who points, by its title.
 *
 * @param {Element} element
 * @param {string} text
 */
export function label(element, text) {
    say(element.children[0], text);
}
