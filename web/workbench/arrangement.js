/** How the regions of the page are arranged in the room that there is. All sizes are in pixels of text of 16. */

/**
 * - `wide`: script and chart beside the map, with the tables below the map.
 * - `mid`: map and one table beside each other.
 * - `narrow`: everything below one another, on a telephone or where the page is higher than wide.
 *
 * Where the page is low, `mid` has the sentence above the map, so that the table has the whole height, and `narrow`
 * scrolls below a map and above step buttons that stay.
 *
 * @typedef {"wide" | "mid" | "narrow"} Layout
 */

const WIDE = 960;
const MID = 560;
const LOW = 430; // in height: a telephone held across, or a laptop's page at 200 %
const LOW_MID = 440; // in width
const LOW_NARROW = 560; // in height

/**
 * The arrangement for a width and a height.
 *
 * @param {number} width
 * @param {number} height
 * @returns {{layout: Layout, isLow: boolean}}
 */
export function arrangement(width, height) {
    if (height < LOW) return { layout: width > LOW_MID ? "mid" : "narrow", isLow: true };
    if (width >= WIDE) return { layout: "wide", isLow: false };
    if (width > MID && width > height) return { layout: "mid", isLow: false };
    return { layout: "narrow", isLow: height < LOW_NARROW };
}
