/** Wheel, fingers, mouse and keys over a map: what they ask for, as zoom, pan and fit. */

/**
 * @typedef {object} Does
 * @property {(factor: number, x: number, y: number) => void} zoom at a point of the page
 * @property {(dx: number, dy: number) => void} pan by pixels
 * @property {() => void} fit
 */

/** @typedef {{x: number, y: number}} Point */

const DRAG = 6; // pixels after which a press is a drag and no tap
const KEY_PAN = 60;

/** Listens over an element. */
export class Hands {
    /**
     * @param {Element} element
     * @param {Does} does
     */
    constructor(element, does) {
        this.does = does;
        /** @type {Map<number, Point>} */
        this.down = new Map();
        this.isDrag = false;
        this.start = { x: 0, y: 0 };
        const on = (/** @type {string} */ name, /** @type {(event: any) => void} */ act, passive = true) =>
            element.addEventListener(name, act, { passive });
        on("wheel", (event) => this.wheel(event), false);
        on("pointerdown", (event) => this.press(event));
        on("pointermove", (event) => this.move(event));
        for (const name of ["pointerup", "pointercancel", "pointerleave"]) on(name, (event) => this.release(event));
        element.addEventListener("click", (event) => this.click(event), { capture: true });
        on("keydown", (event) => this.key(event), false);
    }

    /** @param {WheelEvent} event */
    wheel(event) {
        event.preventDefault();
        const lines = event.deltaMode === 1 ? 16 : 1;
        this.does.zoom(Math.exp(-Math.max(-240, Math.min(240, event.deltaY * lines)) / 400), event.clientX, event.clientY);
    }

    /** @param {PointerEvent} event */
    press(event) {
        if (event.button) return;
        if (this.down.size === 0) this.isDrag = false;
        this.down.set(event.pointerId, { x: event.clientX, y: event.clientY });
        this.start = { x: event.clientX, y: event.clientY };
    }

    /** @param {PointerEvent} event */
    move(event) {
        const was = this.down.get(event.pointerId);
        if (!was) return;
        const now = { x: event.clientX, y: event.clientY };
        if (Math.hypot(now.x - this.start.x, now.y - this.start.y) > DRAG || this.down.size > 1) this.isDrag = true;
        if (!this.isDrag) return;
        const other = [...this.down].find(([id]) => id !== event.pointerId)?.[1];
        this.down.set(event.pointerId, now);
        if (!other) return this.does.pan(now.x - was.x, now.y - was.y);
        const far = (/** @type {Point} */ it) => Math.max(8, Math.hypot(it.x - other.x, it.y - other.y));
        this.does.zoom(far(now) / far(was), (now.x + other.x) / 2, (now.y + other.y) / 2);
    }

    /** @param {PointerEvent} event */
    release(event) {
        this.down.delete(event.pointerId);
    }

    /**
     * The click at the end of a drag is no tap.
     *
     * @param {Event} event
     */
    click(event) {
        if (!this.isDrag) return;
        this.isDrag = false;
        event.stopPropagation();
        event.preventDefault();
    }

    /** @param {KeyboardEvent} event */
    key(event) {
        if (event.ctrlKey || event.metaKey || event.altKey) return;
        const box = /** @type {Element} */ (event.currentTarget).getBoundingClientRect();
        const at = /** @type {[number, number]} */ ([box.x + box.width / 2, box.y + box.height / 2]);
        /** @type {{[key: string]: () => void}} */
        const acts = {
            "+": () => this.does.zoom(1.3, ...at),
            "=": () => this.does.zoom(1.3, ...at),
            "-": () => this.does.zoom(1 / 1.3, ...at),
            "0": () => this.does.fit(),
            ...(event.shiftKey
                ? {
                    ArrowLeft: () => this.does.pan(KEY_PAN, 0),
                    ArrowRight: () => this.does.pan(-KEY_PAN, 0),
                    ArrowUp: () => this.does.pan(0, KEY_PAN),
                    ArrowDown: () => this.does.pan(0, -KEY_PAN),
                }
                : {}),
        };
        const act = acts[event.key];
        if (!act) return;
        event.preventDefault();
        event.stopImmediatePropagation();
        act();
    }
}
