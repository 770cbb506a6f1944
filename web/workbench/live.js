/** The page follows a live session (docs/live.md): its script comes in pieces, and what is tapped becomes a line. */

/**
 * What shows a script.
 *
 * @typedef {object} Shows
 * @property {number} position
 * @property {{length: number} | null} history
 * @property {(text: string) => void} open
 * @property {(text: string, position: number) => Promise<boolean>} show
 */

/** Where the page was served by a session; null of any other page. */
export function sessionOf(/** @type {ParentNode} */ page) {
    return page.querySelector('meta[name="live"]')?.getAttribute("content") ?? null;
}

/** Shows a text that grows: what has come while one replay runs is shown by the next. */
export class Following {
    text = "";
    isShowing = false;
    isStale = false;

    /** @param {Shows} shows */
    constructor(shows) {
        this.shows = shows;
    }

    /**
     * The whole script, or a piece that follows.
     *
     * @param {string} piece
     * @param {boolean} isWhole
     */
    async hear(piece, isWhole) {
        this.text = isWhole ? piece : this.text + piece;
        this.isStale = true;
        if (this.isShowing) return;
        this.isShowing = true;
        try {
            while (this.isStale) {
                this.isStale = false;
                await this.draw();
            }
        } finally {
            this.isShowing = false;
        }
    }

    /** Shows what has come. Whoever looks at an earlier step stays there; whoever is at the end sees the new one. */
    async draw() {
        const { shows, text } = this;
        const isAtEnd = !shows.history || shows.position >= shows.history.length;
        shows.open(text);
        await shows.show(text, isAtEnd ? Number.MAX_SAFE_INTEGER : shows.position);
    }
}

/**
 * Asks the session for lines. Answers why they aren't done, "" where they are.
 *
 * @param {string[]} lines
 */
export async function asked(lines) {
    try {
        const headers = { "X-Dorydate": "deed" };
        const answer = await fetch("deed", { method: "POST", headers, body: lines.join("\n") });
        return await answer.text();
    } catch {
        return "the session doesn't answer";
    }
}

/**
 * Follows the session at an address. What is tapped goes there.
 *
 * @param {import("./app.js").Workbench} bench
 * @param {string} address
 */
export function follow(bench, address) {
    const following = new Following(bench);
    const events = new EventSource(address);
    events.addEventListener("script", ({ data }) => void following.hear(JSON.parse(data), true));
    events.addEventListener("lines", ({ data }) => void following.hear(JSON.parse(data), false));
    bench.asks = asked;
}
