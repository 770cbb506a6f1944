/** What the browser keeps over a reload, where it keeps anything. */

const NAME = "dorydate";

/**
 * The text that was here last, in a page that opens alike: files that are opened in one tab share what is kept there.
 *
 * @param {string} of what the page opens with
 * @returns {{text: string, example: string} | null}
 */
export function storedText(of) {
    try {
        const kept = JSON.parse(window.sessionStorage.getItem(NAME) ?? "null");
        return kept?.of === of ? kept : null;
    } catch {
        return null;
    }
}

/**
 * Keeps a text.
 *
 * @param {string} text
 * @param {string} example the example that it was made of, "" for none
 * @param {string} of what the page opens with
 */
export function keepText(text, example, of) {
    try {
        window.sessionStorage.setItem(NAME, JSON.stringify({ text, example, of }));
    } catch {
        // a browser that keeps nothing
    }
}
