/**
 * What of a map is seen, and how large: pure reckoning, without an element.
 *
 * A view is the part of the map, in the map's own units, that fills the frame of the page. `scale` is how many pixels
 * of the page a unit has.
 */

/** @typedef {{x: number, y: number, width: number, height: number}} Box */

const MOST = 3.2; // pixels of a unit at the most
const FROM_NEAR = 5; // times larger than the whole map at the most, where that is more

/** A view of a map in a frame. */
export class Viewport {
    /**
     * @param {{width: number, height: number}} size of the map
     * @param {number} [edge] how much room there is around it
     */
    constructor(size, edge = 0) {
        /** @type {Box} */
        this.map = { x: 0 - edge, y: 0 - edge, width: size.width + 2 * edge, height: size.height + 2 * edge };
        this.frame = { width: this.map.width, height: this.map.height };
        this.view = this.map;
        this.isWhole = true;
    }

    /** Pixels of a unit. */
    get scale() {
        return Math.min(this.frame.width / this.view.width, this.frame.height / this.view.height);
    }

    /** Pixels of a unit while the whole map is seen. */
    get least() {
        return Math.min(this.frame.width / this.map.width, this.frame.height / this.map.height);
    }

    /** Pixels of a unit at the most. */
    get most() {
        return Math.max(MOST, FROM_NEAR * this.least);
    }

    /**
     * The frame has another size. What was in its middle stays there.
     *
     * @param {number} width
     * @param {number} height
     */
    resize(width, height) {
        if (!width || !height) return;
        const { scale } = this;
        const middle = { x: this.view.x + this.view.width / 2, y: this.view.y + this.view.height / 2 };
        this.frame = { width, height };
        if (this.isWhole) return this.fit();
        this.look(middle, scale);
    }

    /** Shows the whole map. */
    fit() {
        this.isWhole = true;
        this.view = this.map;
    }

    /**
     * Shows the map around a point at a scale.
     *
     * @param {{x: number, y: number}} middle
     * @param {number} scale
     */
    look(middle, scale) {
        const to = Math.min(this.most, scale);
        if (to <= this.least * 1.01) return this.fit();
        this.isWhole = false;
        const [width, height] = [this.frame.width / to, this.frame.height / to];
        this.view = {
            x: within(middle.x - width / 2, width, this.map.x, this.map.width),
            y: within(middle.y - height / 2, height, this.map.y, this.map.height),
            width,
            height,
        };
    }

    /**
     * Makes everything larger by a factor, or smaller; a point of the map stays where it is in the frame.
     *
     * @param {number} factor
     * @param {{x: number, y: number}} [at] the middle without it
     */
    zoom(factor, at = this.middle()) {
        const before = this.middle();
        const to = Math.min(this.most, this.scale * factor);
        const share = this.scale / to;
        this.look({ x: at.x + (before.x - at.x) * share, y: at.y + (before.y - at.y) * share }, to);
    }

    middle() {
        const { x, y, width, height } = this.view;
        return { x: x + width / 2, y: y + height / 2 };
    }

    /**
     * Moves the map by pixels of the frame.
     *
     * @param {number} dx
     * @param {number} dy
     */
    pan(dx, dy) {
        if (this.isWhole) return;
        const { x, y } = this.middle();
        this.look({ x: x - dx / this.scale, y: y - dy / this.scale }, this.scale);
    }

    /**
     * Moves the map so that a point is seen, if it isn't.
     *
     * @param {{x: number, y: number}} at
     */
    show(at) {
        const { x, y, width, height } = this.view;
        const margin = 0.08;
        const isSeen = at.x > x + margin * width
            && at.x < x + (1 - margin) * width
            && at.y > y + margin * height
            && at.y < y + (1 - margin) * height;
        if (!isSeen && !this.isWhole) this.look(at, this.scale);
    }
}

/**
 * Where a view begins so that it doesn't leave the map; one that is larger has the map in its middle.
 *
 * @param {number} start
 * @param {number} size
 * @param {number} first where the map begins
 * @param {number} whole
 */
function within(start, size, first, whole) {
    return size >= whole ? first + (whole - size) / 2 : Math.min(Math.max(start, first), first + whole - size);
}
