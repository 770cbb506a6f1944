/** Which lines two lists have in common, in order. */

/** Up to this number of lines that differ are compared one by one. Beyond it they are taken for different. */
const MOST = 1_200;

/**
 * Two lists of lines in pairs of places: alike lines together, and each other one by itself, with -1 in place of the
 * other.
 *
 * @param {string[]} before
 * @param {string[]} after
 * @returns {[number, number][]}
 */
export function inPairs(before, after) {
    const least = Math.min(before.length, after.length);
    const [last, final] = [before.length - 1, after.length - 1];
    let start = 0;
    while (start < least && before[start] === after[start]) start += 1;
    let end = 0;
    while (end < least - start && before[last - end] === after[final - end]) end += 1;
    const middle = differing(before.slice(start, before.length - end), after.slice(start, after.length - end));
    const shifted = (/** @type {number} */ place) => (place < 0 ? place : place + start);
    return [
        ...before.slice(0, start).map((_, place) => /** @type {[number, number]} */ ([place, place])),
        ...middle.map(([a, b]) => /** @type {[number, number]} */ ([shifted(a), shifted(b)])),
        ...before
            .slice(before.length - end)
            .map((_, place) => place - end)
            .map((back) => /** @type {[number, number]} */ ([before.length + back, after.length + back])),
    ];
}

/**
 * @param {string[]} before
 * @param {string[]} after
 * @returns {[number, number][]}
 */
function differing(before, after) {
    const isLong = before.length > MOST || after.length > MOST;
    const longest = isLong ? null : longestCommon(before, after);
    /** @type {[number, number][]} */
    const found = [];
    for (let a = 0, b = 0; a < before.length || b < after.length; ) {
        const isOld = a < before.length && (b === after.length || !longest || longest[a + 1][b] >= longest[a][b + 1]);
        if (longest && a < before.length && b < after.length && before[a] === after[b]) found.push([a++, b++]);
        else found.push(isOld ? [a++, -1] : [-1, b++]);
    }
    return found;
}

/**
 * How many lines two lists have in common from each pair of places on.
 *
 * @param {string[]} before
 * @param {string[]} after
 */
function longestCommon(before, after) {
    const longest = Array.from({ length: before.length + 1 }, () => new Uint16Array(after.length + 1));
    for (let a = before.length - 1; a >= 0; a -= 1) {
        for (let b = after.length - 1; b >= 0; b -= 1) {
            const isSame = before[a] === after[b];
            longest[a][b] = isSame ? longest[a + 1][b + 1] + 1 : Math.max(longest[a + 1][b], longest[a][b + 1]);
        }
    }
    return longest;
}
