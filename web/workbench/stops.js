/**
 * Stops: the moments through which a reader goes in one step, by three grains.
 *
 * - `event`: each moment is a stop.
 * - `arrival`: what printed or is new is a stop. What is left of a round joins the stop before it, and rounds in a row
 *   in which nothing is new are one stop.
 * - `round`: what printed, each event of the script, and the end of each round.
 */

/** @typedef {import("./fold.js").History} History */

/** @typedef {"event" | "arrival" | "round"} Grain */

/**
 * @typedef {object} Stop
 * @property {number} from its first moment
 * @property {number} to the position after its last one
 * @property {number} main the moment that gives it its name, -1 for rounds in which nothing is new
 * @property {number} event the event of the script
 * @property {number} round the round of its calm that it is in, 0 in no calm
 * @property {number} last the last round that it covers
 */

/**
 * The stops of a replay.
 *
 * @param {History} history
 * @param {Grain} grain
 * @returns {Stop[]}
 */
export function stopsOf(history, grain) {
    /** @type {Stop[]} */
    const stops = [];
    const { moments } = history.replay;
    for (let from = 0; from < moments.length; ) {
        const { event, round } = moments[from];
        let to = from + 1;
        while (to < moments.length && moments[to].event === event && moments[to].round === round) to += 1;
        const mains = [];
        for (let at = from; at < to; at += 1) if (isStop(history, at, grain)) mains.push(at);
        const last = stops[stops.length - 1];
        if (mains.length === 0 && grain === "arrival" && last && last.main < 0 && last.event === event) {
            Object.assign(last, { to, last: round });
        } else {
            stops.push(...stopsOfRound(from, to, mains).map((stop) => ({ ...stop, event, round, last: round })));
        }
        from = to;
    }
    return stops;
}

/**
 * Whether a moment is a stop of its own.
 *
 * @param {History} history
 * @param {number} at
 * @param {Grain} grain
 */
function isStop(history, at, grain) {
    const { weight } = history.notes[at];
    return grain === "event"
        || history.replay.moments[at].round === 0
        || (grain === "arrival" ? weight > 0 : weight === 2);
}

/**
 * The stops of one round, or of one event: each ends with a moment of its own, and what is left joins the last.
 *
 * @param {number} from
 * @param {number} to
 * @param {number[]} mains
 */
function stopsOfRound(from, to, mains) {
    if (mains.length === 0) return [{ from, to, main: -1 }];
    return mains.map(
        (main, place) => (
            { from: place ? mains[place - 1] + 1 : from, to: place + 1 < mains.length ? main + 1 : to, main }
        ),
    );
}

/**
 * The stop that ends at a position or holds it: how many stops are done there.
 *
 * @param {Stop[]} stops
 * @param {number} position
 * @returns {number} 0 before all, `stops.length` at the end
 */
export function stopAt(stops, position) {
    let low = 0;
    let high = stops.length;
    while (low < high) {
        const middle = (low + high) >> 1;
        if (stops[middle].to >= position) high = middle;
        else low = middle + 1;
    }
    return position === 0 ? 0 : Math.min(low + 1, stops.length);
}
