/** Random numbers that a seed determines, so that what they found can be found again. */

/**
 * Makes a source of numbers: each call gives one from 0 to `below - 1`. (The generator is Marsaglia's xorshift of 32
 * bits.)
 *
 * @param {number} seed any integer
 * @returns {(below: number) => number}
 */
export function chance(seed) {
    let state = (seed * 2654435761 + 88675123) >>> 0 || 1;
    return (below) => {
        state ^= state << 13;
        state ^= state >>> 17;
        state ^= state << 5;
        state >>>= 0;
        return Math.floor((state / 2 ** 32) * below);
    };
}
