/** Small words of English that many sentences need. */

/**
 * A number and its noun, in the plural where it is not 1.
 *
 * @param {number | string} number
 * @param {string} noun
 * @returns {string}
 */
export function count(number, noun) {
    return `${number} ${noun}${String(number) === "1" ? "" : "s"}`;
}

/**
 * Words in a list, its end left out where there are many.
 *
 * @param {string[]} words
 * @param {number} [most]
 * @returns {string}
 */
export function listed(words, most = 4) {
    if (words.length > most) return `${words.slice(0, most).join(", ")} and ${words.length - most} more`;
    if (words.length < 2) return words.join("");
    return `${words.slice(0, -1).join(", ")} and ${words[words.length - 1]}`;
}

/**
 * A sentence's first letter in upper case.
 *
 * @param {string} text
 * @returns {string}
 */
export function capital(text) {
    return text.slice(0, 1).toUpperCase() + text.slice(1);
}

/**
 * The parts that are not empty, as one text.
 *
 * @param {(string | null | undefined)[]} parts
 * @returns {string}
 */
export function joinedWords(parts) {
    return parts.filter(Boolean).join(" ");
}

/**
 * A sentence of the table (python/dorydate/sentences/table.mjs) with its holes filled. `{Name}` begins with a capital,
 * `{name's}` is possessive, `{name bit}` is a number with its noun.
 *
 * @param {string} sentence
 * @param {{[name: string]: string | number | bigint}} holes
 * @returns {string}
 * @throws {RangeError} where a hole has no value
 */
export function filled(sentence, holes) {
    return sentence.replace(/\{(\w+)('s| [a-z]+)?\}/g, (_, name, ending = "") => {
        const key = name.slice(0, 1).toLowerCase() + name.slice(1);
        if (holes[key] === undefined) throw new RangeError(`${key} of: ${sentence}`);
        const text = String(holes[key]);
        const isCounted = ending.startsWith(" ");
        const value = isCounted ? count(text, ending.slice(1)) : ending ? possessive(text) : text;
        return key === name ? value : capital(value);
    });
}

/**
 * A name in the possessive.
 *
 * @param {string} name
 * @returns {string}
 */
export function possessive(name) {
    return /s$/i.test(name) ? `${name}'` : `${name}'s`;
}
