/** Where the names of a map are put, so that none lies on another or on a mark: pure reckoning, in pixels. */

/** @typedef {import("./layout.js").Point} Point */
/** @typedef {{x: number, y: number, width: number, height: number}} Rect its corner on the left and above */

/**
 * @typedef {object} Label
 * @property {Point} at what it names
 * @property {number} radius of the mark there
 * @property {number} width
 * @property {number} height
 * @property {number} weight the weightier ones are put first
 */

/** @typedef {Point & {isFar: boolean}} Put the middle of a label, and whether a line has to lead from it to its mark */

/** Pixels between a mark and its label, the first beside it; and between two labels. */
const DISTANCES = [3, 12, 24, 38, 56];
const GAP = 2;

/** Directions in which a label may stand, the best first. */
const WAYS = /** @type {[number, number][]} */ ([
    [1, 0], [-1, 0], [0, -1], [0, 1], [0.8, -0.8], [-0.8, -0.8], [0.8, 0.8], [-0.8, 0.8],
    [0.4, -1], [-0.4, -1], [0.4, 1], [-0.4, 1], [1, -0.4], [-1, -0.4], [1, 0.4], [-1, 0.4],
]);

/**
 * Whether two rectangles have less than a gap between them.
 *
 * @param {Rect} a
 * @param {Rect} b
 * @param {number} gap
 */
function meet(a, b, gap) {
    return a.x < b.x + b.width + gap
        && b.x < a.x + a.width + gap
        && a.y < b.y + b.height + gap
        && b.y < a.y + a.height + gap;
}

/**
 * @param {Point} middle
 * @param {number} width
 * @param {number} height
 * @returns {Rect}
 */
export function around({ x, y }, width, height) {
    return { x: x - width / 2, y: y - height / 2, width, height };
}

/**
 * Whether a line from one point to another comes through a rectangle.
 *
 * @param {Point} from
 * @param {Point} to
 * @param {Rect} rect
 */
export function crosses(from, to, rect) {
    let [start, end] = [0, 1];
    const sides = /** @type {[number, number, number, number][]} */ ([
        [from.x, to.x - from.x, rect.x, rect.x + rect.width],
        [from.y, to.y - from.y, rect.y, rect.y + rect.height],
    ]);
    for (const [at, by, least, most] of sides) {
        if (Math.abs(by) < 1e-9) {
            if (at < least || at > most) return false;
            continue;
        }
        const [one, other] = [(least - at) / by, (most - at) / by];
        start = Math.max(start, Math.min(one, other));
        end = Math.min(end, Math.max(one, other));
    }
    return start < end;
}

/**
 * Where each label is put: the weightier first, each at the first place beside its mark, or further away, that is free
 * and within the frame. Null for one that has no room.
 *
 * @param {Label[]} labels
 * @param {Rect} frame
 * @param {Rect[]} taken what no label may lie on, beside the marks of all labels
 * @returns {(Put | null)[]}
 */
export function putLabels(labels, frame, taken) {
    const marks = labels.map(({ at, radius }) => around(at, 2 * radius, 2 * radius));
    const order = labels.map((_, place) => place).sort((a, b) => labels[b].weight - labels[a].weight || a - b);
    /** @type {(Put | null)[]} */
    const found = labels.map(() => null);
    /** @type {Rect[]} */
    const put = [];
    /** @type {[Point, Point][]} */
    const leads = [];
    const isFree = (/** @type {Rect} */ rect, /** @type {number} */ own) => (
        rect.x >= frame.x && rect.y >= frame.y
        && rect.x + rect.width <= frame.x + frame.width && rect.y + rect.height <= frame.y + frame.height
        && put.every((it) => !meet(rect, it, GAP))
        && marks.every((it, place) => place === own || !meet(rect, it, 1))
        && taken.every((it) => !meet(rect, it, 1))
        && leads.every(([a, b]) => !crosses(a, b, rect))
    );
    for (const place of order) {
        const label = labels[place];
        const { at, width, height } = label;
        if (!isNear(at, frame)) continue;
        for (const middle of candidates(label)) {
            const rect = around(middle, width, height);
            const isFar = middle.isFar;
            if (!isFree(rect, place)) continue;
            if (isFar && put.some((it) => crosses(at, middle, it))) continue;
            found[place] = middle;
            put.push(rect);
            if (isFar) leads.push([at, middle]);
            break;
        }
    }
    return found;
}

/**
 * Whether a mark is seen.
 *
 * @param {Point} at
 * @param {Rect} frame
 */
function isNear({ x, y }, frame) {
    return x >= frame.x && y >= frame.y && x <= frame.x + frame.width && y <= frame.y + frame.height;
}

/**
 * The places at which a label may stand, the best first.
 *
 * @param {Label} label
 * @returns {Iterable<Put>}
 */
function* candidates({ at, radius, width, height }) {
    for (const distance of DISTANCES) {
        for (const [x, y] of WAYS) {
            const reach = radius + distance;
            const isSide = Math.abs(x) === 1 && y === 0;
            const isAbove = Math.abs(y) === 1 && x === 0;
            yield {
                x: at.x + (isAbove ? 0 : x * (width / 2 + (isSide ? reach : 0.8 * reach))),
                y: at.y + (isSide ? 0 : y * (height / 2 + (isAbove ? reach : 0.8 * reach))),
                isFar: distance > DISTANCES[0],
            };
        }
    }
}

/**
 * The first of some places at which a rectangle is free, null where it is at none.
 *
 * @param {Point[]} places
 * @param {number} width
 * @param {number} height
 * @param {Rect[]} taken
 * @returns {Point | null}
 */
export function firstFree(places, width, height, taken) {
    return places.find((it) => taken.every((other) => !meet(around(it, width, height), other, 1))) ?? null;
}
