/**
 * Places the IMPs and hosts of a network on a map, by stress majorisation: the distance of two IMPs on the map follows
 * the number of lines between them. The same network is always placed alike.
 */

import { around } from "./labels.js";
import { isInStates, OUTLINE, placeOn } from "./states.js";
import { farEnd, linesOf } from "./topology.js";

/** @typedef {import("./topology.js").Network} Network */
/** @typedef {{x: number, y: number}} Point */

/**
 * The room for a map, in pixels, and how many times larger than plain the letters are.
 *
 * @typedef {{width: number, height: number, unit: number, taken?: import("./labels.js").Rect[]}} Frame
 */

/**
 * How much is written on a map: the sizes of letters, boxes and hosts, in pixels of plain letters.
 *
 * @typedef {object} Detail
 * @property {string} name
 * @property {number} title letters of the names of IMPs
 * @property {number} text letters of all else that is written
 * @property {number} half of the height of a box
 * @property {number} pad beside the letters in a box, on each side
 * @property {number} radius of a host's circle
 * @property {boolean} hosts whether hosts have their names
 */

/** @type {Detail[]} the richest first; none has letters below 9 pixels */
export const DETAILS = [
    { name: "full", title: 13, text: 10.5, half: 20, pad: 10, radius: 15, hosts: true },
    { name: "brief", title: 12.4, text: 10, half: 12, pad: 9, radius: 12, hosts: true },
    { name: "bare", title: 11.5, text: 9.6, half: 11, pad: 8, radius: 5.5, hosts: false },
];

/** @type {Detail} of a map of many IMPs, which are dots there with a name beside each for which there is room */
export const DOTS = { name: "dots", title: 10.5, text: 9.6, half: 8, pad: 3, radius: 5, hosts: false };

/**
 * @typedef {object} Layout in pixels of its frame
 * @property {number} width
 * @property {number} height
 * @property {boolean} small whether IMPs are dots
 * @property {Detail} detail
 * @property {number} unit by how much all of that is larger than plain
 * @property {Map<number, Point>} imps
 * @property {Map<string, Point>} hosts
 * @property {Map<number, {w: number, h: number}>} boxes half the size of each IMP's box, or of its dot
 * @property {number} radius of a host's circle
 * @property {Point[]} outline of the land on which the sites are; empty where it isn't known where they are
 */

const PLAIN = { width: 640, height: 360, unit: 1 };
const MOST_BOXES = 12; // IMPs of a map with boxes
/** The widths of bold letters, as shares of their height: of narrow ones, of wide ones, and of others. */
const WIDTHS = /** @type {[RegExp, number][]} */ (
    [[/[IJ ]/, 0.42], [/[MW]/, 1.05], [/[EFLPTXYZ0-9a-z]/, 0.7], [/./, 0.8]]
);
const EDGE = 8; // pixels around a map
const ROOMY = { width: 640, height: 300, most: 1.2 }; // a frame that is larger has larger letters
/** How much larger all is in the map of a few IMPs, where it has room at the largest text too. Each is below 5/4 of the next. */
const GROWTHS = [1.9, 1.65, 1.4, 1.2];
const EACH = { width: 400, height: 170 }; // pixels of a frame for each of these
const LARGEST = 1.5625; // the largest text, in plain ones
const LINE = 60; // pixels of a line at least, where there is room for larger boxes
const DOT = 4; // the radius of an IMP that is a dot
const LONGEST = 330; // pixels of a line at most, where the frame leaves more

/**
 * Places a network so that it fills a frame: with as much detail as has room there, and not with smaller letters.
 *
 * @param {Network} network
 * @param {Frame} [frame]
 * @returns {Layout}
 */
export function placed(network, frame = PLAIN) {
    const shape = shapeOf(network);
    const roomy = Math.min(ROOMY.most, Math.max(1, Math.min(frame.width / ROOMY.width, frame.height / ROOMY.height)));
    const unit = frame.unit * grown(network, shape, frame, roomy);
    if (network.sites.length <= MOST_BOXES) {
        for (const detail of DETAILS) {
            const found = withBoxes(network, shape, frame, detail, unit);
            if (found) return found;
        }
    }
    return withDots(network, shape, frame, unit);
}

/**
 * How many times larger than its text the map of a few IMPs is.
 *
 * @param {Network} network
 * @param {Shape} shape
 * @param {Frame} frame
 * @param {number} least
 */
function grown(network, shape, frame, least) {
    if (network.sites.length > MOST_BOXES) return least;
    const most = Math.min(frame.width / EACH.width, frame.height / EACH.height);
    const hasRoom = (/** @type {number} */ growth) => {
        const found = withBoxes(network, shape, frame, DETAILS[0], growth * LARGEST);
        return found !== null && network.lines.every((imps) => seenLength(found, imps) >= LINE * found.unit);
    };
    return GROWTHS.find((it) => it > least && it <= most && hasRoom(it)) ?? least;
}

/**
 * How much of a line is seen between the boxes of its IMPs.
 *
 * @param {Layout} layout
 * @param {[number, number]} imps
 */
function seenLength({ imps: places, boxes }, imps) {
    const none = { x: 0, y: 0, w: 0, h: 0 };
    const [a, b] = imps.map((imp) => ({ ...none, ...places.get(imp), ...boxes.get(imp) }));
    const [from, to] = [leaving(a, b, a), leaving(b, a, b)];
    return Math.hypot(to.x - from.x, to.y - from.y);
}

/**
 * Half the size of each IMP's box.
 *
 * @param {Network} network
 * @param {Detail} detail
 * @param {number} unit
 */
export function boxesOf(network, { title, half, pad }, unit) {
    const words = (/** @type {import("./topology.js").Site} */ { name, number }) => (
        name || (half > 10 ? `IMP ${number}` : String(number))
    );
    return new Map(network.sites.map((site) => [
        site.number,
        { w: unit * Math.max(half, (title * widthOf(words(site))) / 2 + pad), h: unit * half },
    ]));
}

/**
 * How wide a name is in bold letters, as a share of their height.
 *
 * @param {string} name
 */
export function widthOf(name) {
    return [...name].reduce((sum, letter) => sum + (WIDTHS.find(([kind]) => kind.test(letter))?.[1] ?? 0), 0);
}

/**
 * A map with boxes, null where something would lie on something else, or beyond the frame.
 *
 * @param {Network} network
 * @param {Shape} shape
 * @param {Frame} frame
 * @param {Detail} detail
 * @param {number} unit
 * @returns {Layout | null}
 */
function withBoxes(network, shape, frame, detail, unit) {
    const numbers = network.sites.map((site) => site.number);
    const boxes = boxesOf(network, detail, unit);
    const widths = numbers.map((number) => boxes.get(number)?.w ?? 0);
    const radius = detail.radius * unit;
    const edge = EDGE * unit;
    let over = { left: 50, right: 50, top: 40, bottom: 40 };
    for (let turn = 0; turn < 4; turn += 1) {
        const inner = {
            x: edge + over.left,
            y: edge + over.top,
            width: frame.width - 2 * edge - over.left - over.right,
            height: frame.height - 2 * edge - over.top - over.bottom,
        };
        if (inner.width < 0 || inner.height < 0) return null;
        const filled = filling(shape.points, inner, shape.isKnown ? 1.45 : 2.6, LONGEST * unit, isTall(frame));
        const points = apart(filled, widths, 14 * unit, (2 * detail.half + 14) * unit);
        const imps = new Map(numbers.map((number, place) => [number, points[place]]));
        const hosts = hostsAround(network, imps, boxes, radius, (detail.hosts ? 13 : 8) * unit);
        const rects = rectsOf(network, imps, hosts, boxes, radius, detail.text * unit);
        const isFree = areApart(rects) && rects.every((it) => isWithin(it, frame, edge / 2) && isOffTaken(it, frame));
        if (isFree) {
            const { width, height } = frame;
            return { width, height, small: false, detail, unit, imps, hosts, boxes, radius, outline: shape.outline };
        }
        over = beyond(rects, points);
    }
    return null;
}

/**
 * A map with dots.
 *
 * @param {Network} network
 * @param {Shape} shape
 * @param {Frame} frame
 * @param {number} unit
 * @returns {Layout}
 */
function withDots(network, shape, frame, unit) {
    const [x, y] = [24 * unit, 20 * unit];
    const inner = { x, y, width: Math.max(1, frame.width - 2 * x), height: Math.max(1, frame.height - 2 * y) };
    const count = shape.points.length;
    const all = filling([...shape.points, ...shape.outline], inner, shape.isKnown ? 1.45 : 2.6, LONGEST * unit, isTall(frame));
    const radius = DOTS.radius * unit;
    const points = pushed(all.slice(0, count), (2 * DOT + 3) * unit);
    const imps = new Map(network.sites.map(({ number }, place) => [number, points[place]]));
    const boxes = new Map(network.sites.map(({ number }) => [number, { w: DOT * unit, h: DOT * unit }]));
    return {
        width: frame.width,
        height: frame.height,
        small: true,
        detail: DOTS,
        unit,
        imps,
        hosts: hostsAround(network, imps, boxes, radius, 5 * unit),
        boxes,
        radius,
        outline: all.slice(count),
    };
}

/**
 * The rectangles on which nothing else may lie: boxes, hosts, and the numbers of lines.
 *
 * @param {Network} network
 * @param {Map<number, Point>} imps
 * @param {Map<string, Point>} hosts
 * @param {Map<number, {w: number, h: number}>} boxes
 * @param {number} radius
 * @param {number} letters
 * @returns {import("./labels.js").Rect[]}
 */
function rectsOf(network, imps, hosts, boxes, radius, letters) {
    const none = { x: 0, y: 0 };
    const middle = (/** @type {number} */ line) => {
        const [a, b] = network.lines[line].map((imp) => imps.get(imp) ?? none);
        return { x: (a.x + b.x) / 2, y: (a.y + b.y) / 2 };
    };
    return [
        ...[...imps].map(([number, at]) => {
            const { w, h } = boxes.get(number) ?? { w: 0, h: 0 };
            return around(at, 2 * w, 2 * h);
        }),
        ...[...hosts.values()].map((at) => around(at, 2 * radius, 2 * radius)),
        ...(network.plain ? [] : network.lines.map((_, line) => around(middle(line), 1.5 * letters, 1.5 * letters))),
    ];
}

/** @param {import("./labels.js").Rect[]} rects */
function areApart(rects) {
    return rects.every((a, at) => rects.slice(at + 1).every(
        (b) => a.x >= b.x + b.width || b.x >= a.x + a.width || a.y >= b.y + b.height || b.y >= a.y + a.height,
    ));
}

/**
 * @param {import("./labels.js").Rect} rect
 * @param {Frame} frame
 * @param {number} edge
 */
function isWithin({ x, y, width, height }, frame, edge) {
    return x >= edge && y >= edge && x + width <= frame.width - edge && y + height <= frame.height - edge;
}

/**
 * @param {import("./labels.js").Rect} rect
 * @param {Frame} frame
 */
function isOffTaken(rect, { taken = [] }) {
    return taken.every((it) => areApart([rect, it]));
}

/**
 * By how much rectangles reach beyond the points around which they are.
 *
 * @param {import("./labels.js").Rect[]} rects
 * @param {Point[]} points
 */
function beyond(rects, points) {
    return {
        left: Math.min(...points.map((it) => it.x)) - Math.min(...rects.map((it) => it.x)),
        right: Math.max(...rects.map((it) => it.x + it.width)) - Math.max(...points.map((it) => it.x)),
        top: Math.min(...points.map((it) => it.y)) - Math.min(...rects.map((it) => it.y)),
        bottom: Math.max(...rects.map((it) => it.y + it.height)) - Math.max(...points.map((it) => it.y)),
    };
}

/**
 * @typedef {object} Shape where the IMPs of a network are to each other: in lines, or on the map of the country
 * @property {Point[]} points
 * @property {Point[]} outline
 * @property {boolean} isKnown whether it is known where the sites are
 */

/** @type {WeakMap<Network, Shape>} */
const shapes = new WeakMap();

/**
 * @param {Network} network
 * @returns {Shape}
 */
function shapeOf(network) {
    const known = shapes.get(network);
    if (known) return known;
    const numbers = network.sites.map((site) => site.number);
    const places = network.sites.map((site) => site.place);
    const isKnown = areFarApart(places);
    const shape = {
        points: isKnown
            ? places.map((it) => placeOn(it ?? { north: 0, east: 0 }, 1000))
            : turned(spread(numbers.length, hopCounts(network, numbers), 1)),
        outline: isKnown ? OUTLINE.map(([north, east]) => placeOn({ north, east }, 1000)) : [],
        isKnown,
    };
    shapes.set(network, shape);
    return shape;
}

/** @param {Frame} frame */
function isTall({ width, height }) {
    return height > 1.15 * width;
}

/**
 * Points scaled so that they fill a rectangle, each way by its own factor up to a ratio, and in its middle where that
 * leaves room. Points that may be turned are, where the frame is higher than wide.
 *
 * @param {Point[]} given
 * @param {import("./labels.js").Rect} inner
 * @param {number} ratio
 * @param {number} longest pixels of a line
 * @param {boolean} isHigh whether the frame is higher than wide
 * @returns {Point[]}
 */
function filling(given, inner, ratio, longest, isHigh) {
    const isFree = ratio > 2;
    const points = isFree && isHigh ? given.map(({ x, y }) => ({ x: y, y: x })) : given;
    const [left, top] = [Math.min(...points.map((it) => it.x)), Math.min(...points.map((it) => it.y))];
    const width = Math.max(...points.map((it) => it.x)) - left;
    const height = Math.max(...points.map((it) => it.y)) - top;
    const most = isFree ? longest : Infinity;
    let [x, y] = [Math.min(most, inner.width / Math.max(width, 1e-6)), Math.min(most, inner.height / Math.max(height, 1e-6))];
    if (width < 1e-3) x = y;
    if (height < 1e-3) y = x;
    [x, y] = [Math.min(x, ratio * y), Math.min(y, ratio * x)];
    const [restX, restY] = [(inner.width - x * width) / 2, (inner.height - y * height) / 2];
    return points.map((it) => ({ x: inner.x + restX + (it.x - left) * x, y: inner.y + restY + (it.y - top) * y }));
}

/**
 * Dots pushed apart until each has a distance from each other.
 *
 * @param {Point[]} points
 * @param {number} distance
 */
function pushed(points, distance) {
    for (let turn = 0; turn < 120; turn += 1) {
        let moved = false;
        for (let a = 0; a < points.length; a += 1) {
            for (let b = a + 1; b < points.length; b += 1) {
                const [dx, dy] = [points[b].x - points[a].x || 0.01 * (b - a), points[b].y - points[a].y || 0.01];
                const far = Math.hypot(dx, dy);
                if (far >= distance) continue;
                moved = true;
                const by = (distance - far) / 2 + 0.05;
                points[a] = { x: points[a].x - (by * dx) / far, y: points[a].y - (by * dy) / far };
                points[b] = { x: points[b].x + (by * dx) / far, y: points[b].y + (by * dy) / far };
            }
        }
        if (!moved) break;
    }
    return points;
}

/**
 * Whether it is known where all sites are, and those on the map of the United States are from coast to coast: on it a
 * few of one coast would be a heap. Sites abroad are at its edge.
 *
 * @param {(import("./states.js").Place | null)[]} places
 */
function areFarApart(places) {
    const known = places.flatMap((it) => (it && isInStates(it) ? [it.east] : []));
    return places.every((it) => it) && Math.max(...known) - Math.min(...known) > COAST_TO_COAST;
}

const COAST_TO_COAST = 30; // degrees

/**
 * Over how many lines each IMP is from each other, by their places; those that no route joins are far.
 *
 * @param {Network} network
 * @param {number[]} numbers
 */
function hopCounts(network, numbers) {
    const place = new Map(numbers.map((number, at) => [number, at]));
    const far = Math.max(2, Math.ceil(Math.sqrt(numbers.length)));
    return numbers.map((from) => {
        const counts = numbers.map(() => far);
        counts[place.get(from) ?? 0] = 0;
        const seen = new Set([from]);
        let edge = [from];
        for (let hops = 1; edge.length; hops += 1) {
            const next = edge.flatMap((imp) => linesOf(network, imp).map((line) => farEnd(network, line, imp))).filter(
                (imp) => !seen.has(imp) && seen.add(imp),
            );
            for (const imp of next) counts[place.get(imp) ?? 0] = hops;
            edge = next;
        }
        return counts;
    });
}

/**
 * Points whose distances follow counts as well as they can.
 *
 * @param {number} count
 * @param {number[][]} hops
 * @param {number} step
 * @returns {Point[]}
 */
function spread(count, hops, step) {
    const ring = step * Math.sqrt(count) * 0.4;
    const angles = Array.from({ length: count }, (_, at) => (2 * Math.PI * at) / Math.max(count, 1) + 0.3);
    let xs = Float64Array.from(angles, (angle) => ring * Math.cos(angle));
    let ys = Float64Array.from(angles, (angle) => ring * Math.sin(angle));
    for (let turn = 0; turn < (count > 20 ? 150 : 300); turn += 1) [xs, ys] = pulled(xs, ys, hops, step);
    return Array.from(xs, (x, at) => ({ x, y: ys[at] }));
}

/**
 * Where points go by what all others want: each to be as far from it as lines are between them. These are loops over
 * numbers, since of a large network this is half a million steps.
 *
 * @param {Float64Array} xs
 * @param {Float64Array} ys
 * @param {number[][]} hops
 * @param {number} step
 * @returns {[Float64Array, Float64Array]}
 */
function pulled(xs, ys, hops, step) {
    const [newX, newY] = [Float64Array.from(xs), Float64Array.from(ys)];
    for (let at = 0; at < xs.length; at += 1) {
        let x = 0;
        let y = 0;
        let weights = 0;
        for (let place = 0; place < xs.length; place += 1) {
            if (place === at) continue;
            const dx = xs[at] - xs[place];
            const dy = ys[at] - ys[place];
            const count = hops[at][place];
            const weight = 1 / (count * count);
            const share = (count * step) / (Math.sqrt(dx * dx + dy * dy) || 0.01); // hypot is many times slower
            x += weight * (xs[place] + share * dx);
            y += weight * (ys[place] + share * dy);
            weights += weight;
        }
        if (weights) {
            newX[at] = x / weights;
            newY[at] = y / weights;
        }
    }
    return [newX, newY];
}

/** How much longer than wide points have to be, as a share, so that their direction is one and no chance of rounding. */
const LONG = 0.05;

/**
 * Points turned so that they are wider than high, with the first one on the left and above; where they are as wide as
 * high in every direction, the first one is on the left.
 *
 * @param {Point[]} points
 */
function turned(points) {
    if (points.length < 2) return points;
    const middle = { x: sum(points, (it) => it.x) / points.length, y: sum(points, (it) => it.y) / points.length };
    const xx = sum(points, (it) => (it.x - middle.x) ** 2);
    const yy = sum(points, (it) => (it.y - middle.y) ** 2);
    const xy = sum(points, (it) => (it.x - middle.x) * (it.y - middle.y));
    const isRound = Math.hypot(xx - yy, 2 * xy) < LONG * (xx + yy);
    const first = Math.atan2(points[0].y - middle.y, points[0].x - middle.x);
    const angle = isRound ? Math.PI - first : -0.5 * Math.atan2(2 * xy, xx - yy);
    const flat = points.map((it) => ({
        x: (it.x - middle.x) * Math.cos(angle) - (it.y - middle.y) * Math.sin(angle),
        y: (it.x - middle.x) * Math.sin(angle) + (it.y - middle.y) * Math.cos(angle),
    }));
    const [sx, sy] = [flat[0].x > 1e-6 ? -1 : 1, flat[0].y > 1e-6 ? -1 : 1];
    return flat.map((it) => ({ x: sx * it.x, y: sy * it.y }));
}

/**
 * Points pushed apart until their boxes don't overlap.
 *
 * @param {Point[]} points
 * @param {number[]} widths half the width of each
 * @param {number} gap between two beside each other
 * @param {number} h the distance that two need in height
 */
function apart(points, widths, gap, h) {
    for (let turn = 0; turn < 200; turn += 1) {
        let moved = false;
        for (let a = 0; a < points.length; a += 1) {
            for (let b = a + 1; b < points.length; b += 1) {
                const dx = points[b].x - points[a].x;
                const dy = points[b].y - points[a].y;
                const over = widths[a] + widths[b] + gap - Math.abs(dx);
                const under = h - Math.abs(dy);
                if (over <= 0 || under <= 0) continue;
                moved = true;
                const isBeside = over < under;
                const x = isBeside ? ((dx < 0 ? -1 : 1) * over) / 2 + 0.1 : 0;
                const y = isBeside ? 0 : ((dy < 0 ? -1 : 1) * under) / 2 + 0.1;
                points[a] = { x: points[a].x - x, y: points[a].y - y };
                points[b] = { x: points[b].x + x, y: points[b].y + y };
            }
        }
        if (!moved) break;
    }
    return points;
}

/**
 * @param {Point[]} points
 * @param {(it: Point) => number} value
 */
function sum(points, value) {
    return points.reduce((total, it) => total + value(it), 0);
}

/**
 * The hosts of each IMP around it, where its lines leave most room.
 *
 * @param {Network} network
 * @param {Map<number, Point>} imps
 * @param {Map<number, {w: number, h: number}>} boxes
 * @param {number} radius
 * @param {number} gap
 */
function hostsAround(network, imps, boxes, radius, gap) {
    /** @type {Map<string, Point>} */
    const hosts = new Map();
    for (const { number, hosts: count } of network.sites) {
        const at = imps.get(number) ?? { x: 0, y: 0 };
        const box = boxes.get(number) ?? { w: 0, h: 0 };
        const taken = linesOf(network, number).map((line) => {
            const far = imps.get(farEnd(network, line, number)) ?? at;
            return Math.atan2(far.y - at.y, far.x - at.x);
        });
        for (let host = 0; host < count; host += 1) {
            const angle = widest(taken);
            taken.push(angle);
            hosts.set(`${host}/${number}`, edgePoint(at, angle, box.w + radius + gap, box.h + radius + gap));
        }
    }
    return hosts;
}

/**
 * The direction that is furthest from all that are taken.
 *
 * @param {number[]} taken
 */
function widest(taken) {
    let best = { angle: -Math.PI / 2, room: -1 };
    for (let at = 0; at < 48; at += 1) {
        const angle = -Math.PI / 2 + (at * Math.PI) / 24;
        let room = Math.PI;
        for (const it of taken) room = Math.min(room, Math.abs(((angle - it + 5 * Math.PI) % (2 * Math.PI)) - Math.PI));
        if (room > best.room + 1e-9) best = { angle, room };
    }
    return best.angle;
}

/**
 * Where a ray from a box's middle meets an ellipse around it.
 *
 * @param {Point} at
 * @param {number} angle
 * @param {number} w
 * @param {number} h
 * @returns {Point}
 */
function edgePoint(at, angle, w, h) {
    const reach = 1 / Math.hypot(Math.cos(angle) / w, Math.sin(angle) / h);
    return { x: at.x + reach * Math.cos(angle), y: at.y + reach * Math.sin(angle) };
}

/**
 * Where a line leaves the box of an IMP towards another point.
 *
 * @param {Point} from
 * @param {Point} to
 * @param {{w: number, h: number}} box
 * @returns {Point}
 */
export function leaving(from, to, box) {
    const dx = to.x - from.x;
    const dy = to.y - from.y;
    const scale = 1 / Math.max(Math.abs(dx) / box.w, Math.abs(dy) / box.h, 1e-9);
    return { x: from.x + dx * Math.min(scale, 0.5), y: from.y + dy * Math.min(scale, 0.5) };
}
