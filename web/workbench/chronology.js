/** The years, as docs/chronology.md tells them, which the page holds: rows of what happened, with links to lessons. */

/** @typedef {string | {text: string, lesson: string}} Piece a text, or a link to a lesson */

/**
 * @typedef {object} Chronology
 * @property {{when: Piece[], what: Piece[], here: Piece[], source: Piece[]}[]} rows
 * @property {Piece[][]} notes the paragraphs after the table
 */

const LINK = /\[([^\]]*)\]\(([^)]*)\)/g;
const LESSON = /^\.\.\/examples\/([a-z0-9-]+)$/;

/**
 * The pieces of a text: links to examples are lessons, and of other links and of emphasis the words are left.
 *
 * @param {string} text
 * @returns {Piece[]}
 */
function pieces(text) {
    /** @type {Piece[]} */
    const found = [];
    let at = 0;
    for (const link of text.matchAll(LINK)) {
        const lesson = LESSON.exec(link[2])?.[1] ?? "";
        found.push(text.slice(at, link.index), lesson ? { text: link[1], lesson } : link[1]);
        at = (link.index ?? 0) + link[0].length;
    }
    found.push(text.slice(at));
    const plain = found.map((it) => (typeof it === "string" ? it.replace(/\*\*/g, "") : it));
    return plain.filter((it) => it !== "");
}

/**
 * @param {string} markdown
 * @returns {Chronology}
 */
export function readChronology(markdown) {
    const lines = markdown.split("\n");
    const table = lines.filter((line) => line.startsWith("|")).slice(2);
    const rows = table.map((line) => {
        const [when, what, here, source] = line.slice(1).split("|").map((it) => pieces(it.trim()));
        return { when, what, here, source };
    });
    const last = lines.findIndex((line, at) => line.startsWith("|") && !lines[at + 1]?.startsWith("|"));
    return { rows, notes: lines.slice(last + 1).filter(Boolean).map(pieces) };
}
