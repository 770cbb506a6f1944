/** The texts and steps before each change, for Undo and Redo. */

/**
 * @typedef {object} Kept a text, the position in it, and what it was made of
 * @property {string} text
 * @property {number} position
 * @property {string} example
 * @property {string} origin the text as it was opened
 */

/** What Undo and Redo bring back. */
export class Past {
    constructor() {
        /** @type {Kept[]} */
        this.done = [];
        /** @type {Kept[]} */
        this.undone = [];
    }

    /**
     * Notes what was before a change. A change of the same text is noted once.
     *
     * @param {Kept} before
     */
    add(before) {
        if (this.done[this.done.length - 1]?.text !== before.text) this.done.push(before);
        this.undone = [];
    }

    /**
     * Another text is opened: what was changed in the one before can be brought back, and nothing else.
     *
     * @param {Kept} before
     */
    leave(before) {
        if (before.text && before.text !== before.origin) this.done.push(before);
        else this.done = [];
        this.undone = [];
    }

    /**
     * @param {Kept} now
     * @returns {Kept | undefined} what was before the last change
     */
    undo(now) {
        const it = this.done.pop();
        if (it) this.undone.push(now);
        return it;
    }

    /**
     * @param {Kept} now
     * @returns {Kept | undefined} what was before the last Undo
     */
    redo(now) {
        const it = this.undone.pop();
        if (it) this.done.push(now);
        return it;
    }
}
