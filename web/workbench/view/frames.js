/** Frames on the lines of a map, and those that travel for the eye. */

import { partTitle } from "../choices.js";
import { firstFree } from "../labels.js";
import { wayOf } from "../topology.js";
import { s, say, set } from "./dom.js";
import { label, SIGNS, STROKES } from "./signs.js";

/** @typedef {import("./map.js").MapView} MapView */
/** @typedef {import("../state.js").State} State */
/** @typedef {import("../trace.js").Frame} Frame */

// shares of a line by which a frame keeps off names
const SHIFTS = [0, 0.06, -0.06, 0.12, -0.12, 0.18, -0.18, 0.24, -0.24, 0.3, -0.3, 0.36, -0.36, 0.42, -0.42];
const SIGN = 11; // pixels of a frame's sign on a map of dots

/**
 * A frame that is drawn.
 *
 * @typedef {object} FrameOnLine
 * @property {number} line
 * @property {"+" | "-"} way
 * @property {number} place its place among the frames that way
 * @property {Frame} frame
 * @property {number} count how many are drawn that way
 * @property {number} more how many are not, of the last one that is
 */

/**
 * Draws a frame on its line.
 *
 * @param {MapView} map
 * @param {State} state
 * @param {SVGElement} element
 * @param {FrameOnLine} it
 */
export function drawFrame(map, state, element, { line, way, place, frame, count, more }) {
    const [a, b] = map.ends(line);
    const [from, to] = way === "+" ? [a, b] : [b, a];
    const length = Math.hypot(to.x - from.x, to.y - from.y) || 1;
    const factor = map.factor * map.layout.unit;
    const gap = Math.min(factor * (map.layout.small ? 12 : 17), (0.9 * length) / Math.max(count, 1));
    const along = Math.max(0.06 * length, length / 2 + gap * ((count - 1) / 2 - place));
    const side = factor * (map.layout.small ? 7 : 13);
    const [wayX, wayY] = [(to.x - from.x) / length, (to.y - from.y) / length];
    const at = (/** @type {number} */ share, /** @type {number} */ aside) => {
        const far = Math.min(0.96 * length, Math.max(0.04 * length, along + share * length));
        return { x: from.x + wayX * far - aside * wayY, y: from.y + wayY * far + aside * wayX };
    };
    // beside its line, or else on it, or on the other side
    const places = map.layout.small
        ? [side, 0, -side].flatMap((it) => SHIFTS.map((share) => at(share, it)))
        : [at(0, side)];
    const seen = places.map((it) => map.onScreen(it));
    const sign = map.layout.unit * SIGN;
    const free = firstFree(seen, sign, sign, [...map.names, ...map.counts]) ?? firstFree(seen, sign, sign, map.names);
    const { x, y } = places[free ? seen.indexOf(free) : 0];
    const angle = (Math.atan2(to.y - from.y, to.x - from.x) * 180) / Math.PI;
    const kind = frame.packet ? frame.packet.kind : frame.routes ? "routes" : "ack";
    const scale = factor * (map.layout.small ? 0.7 : 1);
    set(
        element,
        {
            class: `part frame ${kind}`,
            style: `transform: translate(${x.toFixed(1)}px, ${y.toFixed(1)}px)`,
            "data-way": wayOf(map.network, line, way).join(" "),
        },
    );
    label(element, partTitle(state, { kind: "frame", line, way, place }));
    const turn = kind === "data" || kind === "routes"
        ? `rotate(${angle.toFixed(1)}) scale(${scale})`
        : `scale(${scale})`;
    set(element.children[2], { d: SIGNS[kind], transform: turn });
    set(element.children[3], { d: STROKES[kind] ?? "", transform: `scale(${scale})` });
    say(element.children[4], more ? `+${more}` : "");
    const back = (-14 * factor) / length;
    set(element.children[4], { x: back * (to.x - from.x), y: back * (to.y - from.y) + 3 * factor });
    set(element.children[1], { r: 12 * factor });
}

/**
 * Lets a frame travel from one IMP to another, for the eye.
 *
 * @param {MapView} map
 * @param {number} line
 * @param {number} from
 * @param {Frame} frame
 * @param {number} [duration] in milliseconds
 * @param {number} [delay]
 */
export function travel(map, line, from, frame, duration = 420, delay = 0) {
    const [a, b] = map.ends(line);
    const [start, end] = map.network.lines[line][0] === from ? [a, b] : [b, a];
    const kind = frame.packet ? frame.packet.kind : frame.routes ? "routes" : "ack";
    const angle = (Math.atan2(end.y - start.y, end.x - start.x) * 180) / Math.PI;
    const size = (1.25 * map.factor * map.layout.unit * (map.layout.small ? 0.7 : 1)).toFixed(2);
    const turn = kind === "data" || kind === "routes" ? `rotate(${angle}) scale(${size})` : `scale(${size})`;
    const ghost = s(
        "g",
        { class: `ghost frame ${kind}`, "aria-hidden": "true" },
        s("path", { class: "sign", d: SIGNS[kind], transform: turn }),
        s("path", { class: "stroke", d: STROKES[kind] ?? "", transform: `scale(${size})` }),
    );
    map.svg.append(ghost);
    const moved = ghost.animate(
        [
            { transform: `translate(${start.x}px, ${start.y}px)` },
            { transform: `translate(${end.x}px, ${end.y}px)` },
        ],
        { duration, delay, easing: "ease-in-out", fill: "backwards" },
    );
    moved.onfinish = () => ghost.remove();
    moved.oncancel = () => ghost.remove();
}
