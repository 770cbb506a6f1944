/** Draws a chart of crossings as SVG: a line for each host, from above to below, and arrows between them. */

/** @typedef {import("./crossings.js").Chart} Chart */
/** @typedef {import("./crossings.js").Arrow} Arrow */

const SPACE = "http://www.w3.org/2000/svg";
const MARGIN = 130; // before the first line, for notes without a host
const BETWEEN = 170;
const ROW = 26;
const HEAD = 34;

/**
 * @param {string} name
 * @param {Record<string, string | number>} attributes
 * @param {string} [text]
 */
function element(name, attributes, text) {
    const made = document.createElementNS(SPACE, name);
    for (const [key, value] of Object.entries(attributes)) made.setAttribute(key, String(value));
    if (text !== undefined) made.textContent = text;
    return made;
}

/**
 * The head of an arrow that goes from one place to another: closed for a message, open for an answer, a cross where a
 * message ends that was not taken.
 *
 * @param {"message" | "answer" | "lost"} kind
 * @param {{x: number, y: number}} from
 * @param {{x: number, y: number}} to
 */
function head(kind, from, to) {
    const turn = (Math.atan2(to.y - from.y, to.x - from.x) * 180) / Math.PI;
    const shapes = { message: "M0 0L-9 -4L-9 4Z", answer: "M-8 -4L0 0L-8 4", lost: "M-5 -5L5 5M-5 5L5 -5" };
    return element(
        "path",
        { class: `head ${kind}`, d: shapes[kind], transform: `translate(${to.x} ${to.y}) rotate(${turn})` },
    );
}

/**
 * @param {Chart} chart
 * @returns {SVGElement}
 */
export function drawn(chart) {
    const width = MARGIN + Math.max(1, chart.hosts.length) * BETWEEN;
    const height = HEAD + (chart.rows + 1) * ROW;
    const x = (/** @type {string} */ host) => MARGIN + BETWEEN / 2 + chart.hosts.indexOf(host) * BETWEEN;
    const y = (/** @type {number} */ row) => HEAD + (row + 0.8) * ROW;
    const svg = /** @type {SVGElement} */ (
        element("svg", { viewBox: `0 0 ${width} ${height}`, width, height, role: "img" })
    );
    svg.append(element("title", {}, "What crossed between the hosts and the network, from above to below"));

    for (const host of chart.hosts) {
        svg.append(element("line", { class: "host", x1: x(host), x2: x(host), y1: HEAD, y2: height }));
        svg.append(element("text", { class: "name", x: x(host), y: HEAD - 12 }, `host ${host}`));
    }
    for (const arrow of chart.arrows) svg.append(...arrowOf(arrow, x, y));
    for (const note of chart.notes) {
        const at = note.host === undefined ? 4 : x(note.host) + 6;
        svg.append(element("text", { class: "note", x: at, y: y(note.row) + 4 }, note.text));
    }
    return svg;
}

/**
 * @param {Arrow} arrow
 * @param {(host: string) => number} x
 * @param {(row: number) => number} y
 */
function arrowOf(arrow, x, y) {
    const isLost = arrow.toRow === undefined;
    const toSelf = arrow.from === arrow.to;
    const from = { x: x(arrow.from), y: y(arrow.fromRow) };
    const to = { x: toSelf ? from.x + 40 : x(arrow.to), y: y(arrow.toRow ?? arrow.fromRow) };
    if (isLost) to.x = from.x + (to.x - from.x) * 0.6;
    const kind = isLost ? "lost" : arrow.kind;
    const goesRight = to.x > from.x;
    const label = {
        class: "label",
        x: from.x + (goesRight ? 8 : -8),
        y: from.y - 4,
        "text-anchor": goesRight ? "start" : "end",
    };
    return [
        element("line", { class: `arrow ${kind}`, x1: from.x, y1: from.y, x2: to.x, y2: to.y }),
        head(kind, from, to),
        element("text", label, arrow.text),
    ];
}
