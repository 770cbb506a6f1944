/** Plays a replay by itself, step by step. */

/**
 * @typedef {object} Played
 * @property {() => boolean} isAtEnd
 * @property {() => void} restart goes to the beginning
 * @property {() => boolean} step goes one step, and answers whether to go further
 * @property {() => number} pace milliseconds between two steps
 * @property {(playing: boolean) => void} show
 */

/** A timer of steps. */
export class Player {
    /** @param {Played} it */
    constructor(it) {
        this.it = it;
        this.timer = 0;
    }

    toggle() {
        if (this.timer) return this.pause();
        if (this.it.isAtEnd()) this.it.restart();
        this.it.show(true);
        this.timer = window.setTimeout(() => this.go(), 200);
    }

    go() {
        if (this.it.isAtEnd() || !this.it.step()) return this.pause();
        this.timer = window.setTimeout(() => this.go(), this.it.pace());
    }

    pause() {
        window.clearTimeout(this.timer);
        this.timer = 0;
        this.it.show(false);
    }
}
