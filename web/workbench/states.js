/** The outline of the United States between Canada and Mexico, for maps whose sites say where they are. It is a sketch. */

/** @typedef {{north: number, east: number}} Place in degrees */

/** @type {[north: number, east: number][]} */
export const OUTLINE = [
    [48.4, -124.7], [46.2, -124.0], [43.3, -124.4], [40.4, -124.4], [38.0, -123.0], [37.1, -122.3], [36.3, -121.9],
    [34.5, -120.5], [34.0, -118.5], [32.5, -117.1], [32.7, -114.7], [31.3, -111.1], [31.3, -108.2], [31.8, -106.5],
    [29.6, -104.4], [29.0, -103.1], [29.8, -101.5], [27.5, -99.5], [25.9, -97.1], [27.8, -97.1], [29.3, -94.8],
    [29.7, -93.8], [29.5, -91.5], [29.0, -89.2], [30.3, -88.3], [30.4, -86.5], [29.7, -85.3], [30.1, -84.0],
    [29.0, -82.8], [27.5, -82.7], [26.0, -81.8], [25.2, -80.9], [25.8, -80.1], [28.4, -80.5], [30.7, -81.4],
    [32.0, -80.9], [33.8, -78.5], [35.2, -75.5], [36.9, -76.0], [38.9, -74.9], [40.5, -74.0], [41.0, -72.0],
    [41.6, -70.0], [42.7, -70.7], [43.8, -69.8], [44.8, -67.0], [47.1, -67.8], [47.3, -69.1], [45.3, -70.9],
    [45.0, -71.5], [45.0, -74.8], [43.6, -76.3], [43.3, -79.0], [42.0, -81.5], [41.7, -83.2], [43.6, -82.6],
    [45.6, -84.5], [46.5, -84.6], [46.7, -87.5], [46.7, -90.8], [48.0, -89.6], [48.5, -92.6], [49.0, -95.2],
    [49.0, -104.0], [49.0, -113.0], [49.0, -123.0],
];

/** How much narrower a degree of longitude is than one of latitude, about the middle of the country. */
const NARROW = Math.cos((38 * Math.PI) / 180);

const [WEST, EAST, SOUTH, NORTH] = [-125, -66.5, 24, 50];

/**
 * Whether a place is on this map.
 *
 * @param {Place} place
 */
export function isInStates({ north, east }) {
    return north > SOUTH && north < NORTH && east > WEST && east < EAST;
}

const [SEA, CORNER] = [4, 7]; // degrees by which places abroad are off the coast, and below the corner

/** @type {(value: number, least: number, most: number) => number} */
const within = (value, least, most) => Math.min(most, Math.max(least, value));

/**
 * Where a place is on a map of a width. One that isn't on this map is at the edge that is nearest to it.
 *
 * @param {Place} place
 * @param {number} width
 */
export function placeOn({ north, east }, width) {
    const degree = width / ((EAST - WEST) * NARROW);
    const isHere = isInStates({ north, east });
    const [x, y] = isHere ? [east, north] : [within(east, WEST, EAST + SEA), within(north, SOUTH, NORTH - CORNER)];
    return { x: (x - WEST) * NARROW * degree, y: (NORTH - y) * degree };
}
