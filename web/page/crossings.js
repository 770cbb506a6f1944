/** What a replay printed, as what a chart draws: messages and answers that crossed, and notes. */

/**
 * An arrow of a chart. A message that was taken goes from the row where it was sent to the row where it was taken. One
 * that was not taken has no `toRow`. An answer is drawn in the row where it was taken.
 *
 * @typedef {object} Arrow
 * @property {"message" | "answer"} kind
 * @property {string} from the host that it comes from
 * @property {string} to the host that it goes to
 * @property {number} fromRow
 * @property {number} [toRow]
 * @property {string} text
 */

/**
 * Words beside a host's line, or in the margin where no host is named.
 *
 * @typedef {object} Note
 * @property {number} row
 * @property {string} [host]
 * @property {string} text
 */

/**
 * A chart: the hosts that it shows, by IMP and number, its arrows and notes, and how many rows it has.
 *
 * @typedef {object} Chart
 * @property {string[]} hosts
 * @property {Arrow[]} arrows
 * @property {Note[]} notes
 * @property {number} rows
 */

const ANSWERS = new Map([
    ["rfnm", "RFNM"],
    ["dead", "Dead"],
    ["incomplete", "Incomplete"],
]);
const HOST = /^[0-3]\/[1-9][0-9]?$/;

/**
 * @param {string} host
 * @returns {number}
 */
function place(host) {
    const [number, imp] = host.split("/").map(Number);
    return imp * 4 + number;
}

/**
 * Reads what a replay printed, one row for each line; the line `end` has none.
 *
 * @param {string[]} lines
 * @returns {Chart}
 */
export function chartOf(lines) {
    /** @type {Set<string>} */
    const hosts = new Set();
    /** @type {Arrow[]} */
    const arrows = [];
    /** @type {Note[]} */
    const notes = [];
    /** @type {Map<string, Arrow>} */
    const waiting = new Map(); // the message of each flow that was not taken yet
    const rows = lines.filter((line) => line !== "end" && line !== "");

    rows.forEach((line, row) => {
        const [kind, ...words] = line.split(" ");
        if (kind === "out") {
            const [from, to, link, bits] = words;
            /** @type {Arrow} */
            const arrow = { kind: "message", from, to, fromRow: row, text: `${bits} bits, link ${link}` };
            waiting.set(`${from} ${to} ${link}`, arrow);
            arrows.push(arrow);
            hosts.add(from).add(to);
        } else if (kind === "in") {
            const [from, to, link] = words;
            const arrow = waiting.get(`${from} ${to} ${link}`);
            if (arrow) arrow.toRow = row;
            waiting.delete(`${from} ${to} ${link}`);
        } else if (kind === "answer") {
            const [answer, to, from, link] = words;
            arrows.push({
                kind: "answer",
                from,
                to,
                fromRow: row,
                toRow: row,
                text: `${ANSWERS.get(answer) ?? answer}, link ${link}`,
            });
            hosts.add(from).add(to);
        } else {
            const host = words.find((word) => HOST.test(word));
            if (host) hosts.add(host);
            notes.push({ row, host, text: host ? [kind, ...words.filter((word) => word !== host)].join(" ") : line });
        }
    });
    return { hosts: [...hosts].sort((one, other) => place(one) - place(other)), arrows, notes, rows: rows.length };
}
