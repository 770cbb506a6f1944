/** Lines that run side by side at a distance, and are drawn as one there. */

/** @typedef {import("./layout.js").Point} Point */
/** @typedef {{ends: [Point, Point], isBusy: boolean}} Course a line's two ends, and whether it has to be seen by itself */

/** How far apart, in pixels, the ends of two lines may be that are drawn as one. */
const NEAR = 14;

/**
 * For each line the one as which it is drawn: itself, or an earlier one that runs beside it.
 *
 * @param {Course[]} lines
 * @param {number} scale pixels of a unit
 * @returns {number[]}
 */
export function bundled(lines, scale) {
    /** @type {number[]} */
    const first = [];
    return lines.map((line, place) => {
        const beside = line.isBusy ? undefined : first.find((it) => runBeside(lines[it].ends, line.ends, NEAR / scale));
        if (beside === undefined && !line.isBusy) first.push(place);
        return beside ?? place;
    });
}

/**
 * Whether two lines have their ends near to one another's.
 *
 * @param {[Point, Point]} one
 * @param {[Point, Point]} other
 * @param {number} most
 */
function runBeside([a, b], [c, d], most) {
    const isNear = (/** @type {Point} */ p, /** @type {Point} */ q) => Math.hypot(p.x - q.x, p.y - q.y) < most;
    return (isNear(a, c) && isNear(b, d)) || (isNear(a, d) && isNear(b, c));
}
