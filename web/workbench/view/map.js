/** Draws the map: IMPs, hosts, lines, the frames on them, arcs of messages. Elements are changed, not drawn anew. */

import { bundled } from "../bundles.js";
import { partTitle } from "../choices.js";
import { around, firstFree, putLabels } from "../labels.js";
import { boxesOf, leaving, placed } from "../layout.js";
import { FAR } from "../state.js";
import { impOf, machineOf, siteName } from "../topology.js";
import { Viewport } from "../viewport.js";
import { keep, s, say, set } from "./dom.js";
import { drawFrame } from "./frames.js";
import { badge, between, cross, crossPath, hatch, label, spelled, updateBadge } from "./signs.js";

/** @typedef {import("../topology.js").Network} Network */
/** @typedef {import("../layout.js").Layout} Layout */
/** @typedef {import("../layout.js").Point} Point */
/** @typedef {import("../state.js").State} State */
/** @typedef {import("../talk.js").Talk} Talk */
/** @typedef {import("../trace.js").Frame} Frame */
/** @typedef {import("../choices.js").Part} Part */
/** @typedef {import("./frames.js").FrameOnLine} FrameOnLine */

const MOST_FRAMES = 7;
const MOST_ARCS = 6;
const NEAR = 2.2; // times larger than the whole map, from where hosts and lines of a map of dots have their names
const GROWS = 0.3; // the power of that by which letters grow there, so that there is more room between them
const MOST_GROWN = 1.4;
const DOT_BADGE = 7.5; // pixels from the middle of a number of packets to its edge
const WORD = "mailboxes";
const EDGE = 4; // pixels between a name and the edge of a map of dots
const MARK = 8; // pixels from the middle of a dot with a number in it to its edge
/** Where the number of lines that are drawn as one may stand, as shares of the way. */
const SHARES = [0.5, 0.42, 0.58, 0.34, 0.66, 0.26, 0.74];

/**
 * @typedef {object} Scene what is drawn
 * @property {State} state
 * @property {Talk} talk
 * @property {number} to the IMP by whose distance the map is coloured, 0 for none
 */

/** The map of one network. */
export class MapView {
    /**
     * @param {SVGElement} svg
     * @param {Network} network
     * @param {((part: Part, element: Element) => void) | null} tap null for a map to look at only
     * @param {{width: number, height: number}} [room] of one that has no place in the page
     */
    constructor(svg, network, tap, room = { width: 640, height: 360 }) {
        this.svg = svg;
        this.room = room;
        this.network = network;
        this.tap = tap;
        /** @type {Set<number>} the IMPs of hosts that the script names */
        this.named = new Set();
        /** @type {Scene | null} */
        this.scene = null;
        this.factor = 1; // how large a pixel of the layout is in units of the map, so that signs and labels can be read
        this.isNear = false;
        this.put = "";
        /** @type {import("../labels.js").Rect[]} where the names of a map of dots are, in pixels of the frame */
        this.names = [];
        /** @type {import("../labels.js").Rect[]} and where its numbers of packets are */
        this.counts = [];
        /** @type {Map<number, {w: number, h: number}> | undefined} */
        this.tags = undefined;
        this.land = s("path", { class: "land" });
        this.arcs = s("g", { class: "arcs" });
        this.spokes = s("g", { class: "spokes" });
        this.lines = s("g", { class: "lines" });
        this.ways = s("g", { class: "ways" });
        this.frames = s("g", { class: "frames" });
        this.imps = s("g", { class: "imps" });
        this.hosts = s("g", { class: "hosts" });
        svg.replaceChildren(hatch(), this.land, this.arcs, this.spokes, this.lines, this.ways, this.hosts, this.imps, this.frames);
        /** @type {import("../layout.js").Frame} */
        this.frame = this.measured();
        this.layout = placed(network, this.frame);
        this.port = new Viewport(this.layout);
        this.make();
        this.see();
    }

    /** The room for the map, in pixels, what lies on it there, and the size of letters. */
    measured() {
        const box = this.svg.getBoundingClientRect();
        const unit = parseFloat(getComputedStyle(document.documentElement).fontSize) / 16;
        const { width, height } = box.width ? box : this.room;
        const tools = this.svg.closest("#map")?.querySelector("#map-tools")?.getBoundingClientRect();
        const corner = tools && { x: tools.x - box.x, y: tools.y - box.y, width: tools.width, height: tools.height };
        const isOver = corner && corner.x < width && corner.y < height && corner.x + corner.width > 0 && corner.y + corner.height > 0;
        return { width, height, unit, taken: isOver && box.width ? [corner] : [] };
    }

    /** Makes all parts where the layout has them. */
    make() {
        const { small, detail, unit, outline } = this.layout;
        set(this.svg, { "data-detail": detail.name });
        this.svg.toggleAttribute("data-small", small);
        this.svg.style.setProperty("--title", `${(detail.title * unit).toFixed(2)}px`);
        this.svg.style.setProperty("--text", `${(detail.text * unit).toFixed(2)}px`);
        this.svg.style.setProperty("--unit", unit.toFixed(3));
        set(this.land, { d: outline.length ? `M${outline.map(spelled).join("L")}Z` : "" });
        for (const group of [this.arcs, this.spokes, this.lines, this.ways, this.imps, this.hosts, this.frames]) group.replaceChildren();
        this.put = "";
        this.tags = boxesOf(this.network, detail, unit);
        this.drawLines();
        this.drawImps();
        this.drawHosts();
    }

    /** Shows the part of the map that is looked at, arranged for the room that there is, with labels that can be read. */
    see() {
        const frame = this.measured();
        const { activeElement: held } = document;
        const key = held && this.svg.contains(held) ? held.getAttribute("data-part") : null;
        if (JSON.stringify(frame) !== JSON.stringify(this.frame)) {
            const { scale, map, isWhole } = this.port;
            const { x, y } = this.port.middle();
            this.frame = frame;
            this.layout = placed(this.network, frame);
            this.port = new Viewport(this.layout);
            if (!isWhole) this.port.look({ x: (x / map.width) * this.layout.width, y: (y / map.height) * this.layout.height }, scale);
            this.make();
            if (this.scene) this.update(this.scene);
        }
        this.port.resize(frame.width, frame.height);
        const { x, y, width: w, height: h } = this.port.view;
        set(this.svg, { viewBox: [x, y, w, h].map((it) => it.toFixed(1)).join(" ") });
        const { small } = this.layout;
        const { scale } = this.port;
        this.isNear = small && scale >= NEAR;
        this.factor = small ? this.grown() / scale : 1;
        this.svg.classList.toggle("far", small && !this.isNear);
        this.svg.classList.toggle("near", this.isNear);
        this.svg.style.setProperty("--k", String(this.factor));
        this.fold();
        if (this.scene) {
            this.updateArcs(this.scene);
            this.updateWays(this.scene);
            this.updateFrames(this.scene);
        }
        if (key && !held?.isConnected) this.find(key)?.focus({ preventScroll: true });
    }

    /**
     * The part with a key.
     *
     * @param {string} key
     */
    find(key) {
        return this.parts().find((it) => it.getAttribute("data-part") === key);
    }

    /** How many times larger the letters of a map of dots are from near. */
    grown() {
        return Math.min(MOST_GROWN, Math.max(1, this.port.scale ** GROWS));
    }

    /**
     * A point of the map in pixels of the frame.
     *
     * @param {Point} point
     */
    onScreen({ x, y }) {
        const { view, scale } = this.port;
        return { x: (x - view.x) * scale, y: (y - view.y) * scale };
    }

    /** In a map of dots, puts names beside them where there is room, and shows hosts of which something is to be seen. */
    fold() {
        if (!this.layout.small) return;
        const grown = this.grown();
        const size = grown * this.layout.unit;
        this.foldHosts();
        const labels = this.network.sites.map(({ number }, place) => {
            const element = this.imps.children[place];
            const { w } = this.tag(number);
            return {
                at: this.onScreen(this.imp(number)),
                radius: element.querySelector(".badge.shown") ? MARK * size : grown * this.box(number).w,
                width: 2 * w * grown,
                height: 2 * this.layout.detail.half * size,
                weight: this.weight(number, element),
            };
        });
        const hosts = this.network.hosts.filter((_, place) => !this.hosts.children[place].classList.contains("folded"));
        const radius = this.hostRadius() * grown;
        const taken = [
            ...(this.frame.taken ?? []),
            ...hosts.map((host) => around(this.onScreen(this.host(host)), 2 * radius + 2, 2 * radius + 2)),
        ];
        const key = JSON.stringify([this.port.view, labels.map((it) => [it.weight, it.radius]), hosts]);
        if (key === this.put) return;
        this.put = key;
        const { width, height } = this.frame;
        const put = putLabels(labels, { x: EDGE, y: EDGE, width: width - 2 * EDGE, height: height - 2 * EDGE }, taken);
        this.network.sites.forEach(({ number }, place) => this.putTag(this.imps.children[place], number, labels[place].at, put[place]));
        const rects = put.flatMap((it, place) => (it ? [around(it, labels[place].width, labels[place].height)] : []));
        this.names = rects;
        this.counts = labels.filter((_, place) => this.imps.children[place].querySelector(".badge.shown")).map(
            (it) => around(it.at, 2 * it.radius, 2 * it.radius),
        );
        this.foldLines([...taken, ...rects, ...labels.map((it) => around(it.at, 2 * it.radius, 2 * it.radius))]);
    }

    /**
     * Puts the name of an IMP where it has room, with a line to the dot if that is further away; or leaves it out.
     *
     * @param {Element} element
     * @param {number} number
     * @param {Point} at its dot, in pixels of the frame
     * @param {import("../labels.js").Put | null} put
     */
    putTag(element, number, at, put) {
        const { x, y } = this.imp(number);
        const grown = this.grown();
        const [dx, dy] = put ? [(put.x - at.x) / grown, (put.y - at.y) / grown] : [0, 0];
        set(element, { transform: `translate(${x} ${y}) scale(${this.factor.toFixed(4)})` });
        element.classList.toggle("folded", !put);
        const tag = element.querySelector(".tag");
        const lead = element.querySelector(".lead");
        if (tag) set(tag, { transform: `translate(${dx.toFixed(1)} ${dy.toFixed(1)})` });
        if (lead) set(lead, { x2: dx.toFixed(1), y2: dy.toFixed(1) }).classList.toggle("shown", Boolean(put?.isFar));
    }

    /** From afar, hides the hosts of which nothing is to be seen. */
    foldHosts() {
        this.network.hosts.forEach((host, place) => {
            const element = this.hosts.children[place];
            const isQuiet = !element.classList.contains("down") && !element.querySelector(".badge.shown");
            const isFolded = !this.isNear && isQuiet && !this.isBusy(host);
            const { x, y } = this.host(host);
            const { x: fromX, y: fromY } = this.imp(impOf(host));
            element.classList.toggle("folded", isFolded);
            set(element, { transform: `translate(${x.toFixed(2)} ${y.toFixed(2)}) scale(${this.factor.toFixed(4)})` });
            const spoke = this.spokes.children[place];
            spoke.classList.toggle("folded", isFolded);
            set(spoke, { x1: fromX, y1: fromY, x2: x.toFixed(2), y2: y.toFixed(2) });
            const disc = element.querySelector(".disc");
            if (disc) set(disc, { r: this.hostRadius().toFixed(1) });
        });
    }

    /** The radius of a host's circle, in pixels of the layout. */
    hostRadius() {
        return this.layout.radius * (this.isNear ? 2.1 : 1);
    }

    /**
     * From afar, draws lines that run side by side as one, with their number where that has room; one that is down or has
     * a packet by itself.
     *
     * @param {import("../labels.js").Rect[]} taken
     */
    foldLines(taken) {
        const courses = this.network.lines.map((imps, line) => ({
            ends: /** @type {[Point, Point]} */ (imps.map((imp) => this.imp(imp))),
            isBusy: this.isNear || this.isBusyLine(line),
        }));
        const drawn = bundled(courses, this.port.scale);
        const letters = this.layout.detail.text * this.layout.unit * this.grown();
        [...this.lines.children].forEach((element, line) => {
            const count = drawn.filter((it) => it === line).length;
            element.classList.toggle("folded", drawn[line] !== line);
            element.classList.toggle("bundle", count > 1);
            const [a, b] = courses[line].ends;
            const words = this.isNear ? String(line) : count > 1 ? `×${count}` : "";
            const width = letters * (0.75 * words.length + 0.8);
            const places = SHARES.map((share) => this.onScreen(between(a, b, share)));
            const at = words ? firstFree(places, width, 1.6 * letters, taken) : null;
            if (at) taken.push(around(at, width, 1.6 * letters));
            const label = element.querySelector(".many");
            if (!label) return;
            const { x, y } = at ? between(a, b, SHARES[places.indexOf(at)]) : a;
            set(label, { transform: `translate(${x} ${y}) scale(${this.factor.toFixed(4)})` });
            say(label, at ? words : "");
        });
    }

    /**
     * Whether a line is down at an end, or has a packet.
     *
     * @param {number} line
     */
    isBusyLine(line) {
        const state = this.scene?.state;
        if (!state) return false;
        const frames = state.line(line);
        return this.network.lines[line].some((imp) => !state.isEndUp(imp, line))
            || [...frames["+"], ...frames["-"]].some((it) => it.packet);
    }

    /**
     * How much the name of an IMP matters where there is no room for all.
     *
     * @param {number} number
     * @param {Element} element
     */
    weight(number, element) {
        const has = (/** @type {string} */ it) => element.classList.contains(it);
        const ofBusy = this.scene ? this.busyImps().has(number) : false;
        return (has("chosen") ? 32 : 0) + (this.named.has(number) ? 16 : 0) + (has("down") ? 8 : 0) + (ofBusy ? 4 : 0)
            + (this.network.sites.find((it) => it.number === number)?.name ? 2 : 0)
            + (element.querySelector(".badge.shown") ? 1 : 0);
    }

    /**
     * The names of these IMPs come first.
     *
     * @param {Set<number>} imps
     */
    name(imps) {
        this.named = imps;
        this.fold();
    }

    /** The IMPs of hosts that have a message without an answer. */
    busyImps() {
        const flows = [...(this.scene?.talk.messages.keys() ?? [])];
        return new Set(flows.flatMap((flow) => flow.split(" ").slice(0, 2).map(impOf)));
    }

    /**
     * Whether a host has sent a message that has no answer, or one is for it.
     *
     * @param {string} host
     */
    isBusy(host) {
        return [...(this.scene?.talk.messages.keys() ?? [])].some((flow) => flow.split(" ").slice(0, 2).includes(host));
    }

    /**
     * Zooms at a point of the page.
     *
     * @param {number} factor
     * @param {number} [x]
     * @param {number} [y]
     */
    zoom(factor, x, y) {
        this.port.zoom(factor, x === undefined || y === undefined ? undefined : this.pointAt(x, y));
        this.see();
    }

    /**
     * @param {number} dx
     * @param {number} dy
     */
    pan(dx, dy) {
        this.port.pan(dx, dy);
        this.see();
    }

    fit() {
        this.port.fit();
        this.see();
    }

    /**
     * Brings a part into sight.
     *
     * @param {SVGElement} part
     */
    bring(part) {
        const box = part.getBoundingClientRect();
        this.port.show(this.pointAt(box.x + box.width / 2, box.y + box.height / 2));
        this.see();
    }

    /**
     * A point of the page as one of the map.
     *
     * @param {number} x
     * @param {number} y
     */
    pointAt(x, y) {
        const box = this.svg.getBoundingClientRect();
        const { view, scale } = this.port;
        return {
            x: view.x + view.width / 2 + (x - box.x - box.width / 2) / scale,
            y: view.y + view.height / 2 + (y - box.y - box.height / 2) / scale,
        };
    }

    /**
     * @param {number} imp
     * @returns {Point}
     */
    imp(imp) {
        return this.layout.imps.get(imp) ?? { x: 0, y: 0 };
    }

    /**
     * @param {string} host
     * @returns {Point}
     */
    host(host) {
        const imp = this.imp(impOf(host));
        const at = this.layout.hosts.get(host) ?? imp;
        if (!this.layout.small) return at;
        const far = Math.hypot(at.x - imp.x, at.y - imp.y) || 1;
        const reach = (this.factor * (this.box(impOf(host)).w + this.hostRadius() + 5 * this.layout.unit)) / far;
        return { x: imp.x + (at.x - imp.x) * reach, y: imp.y + (at.y - imp.y) * reach };
    }

    /**
     * The two ends of a line, where it leaves the boxes.
     *
     * @param {number} line
     */
    ends(line) {
        const [a, b] = this.network.lines[line].map((imp) => this.imp(imp));
        const [one, other] = this.network.lines[line].map((imp) => this.box(imp));
        return [leaving(a, b, one), leaving(b, a, other)];
    }

    /**
     * Half the size of an IMP's box.
     *
     * @param {number} imp
     */
    box(imp) {
        return this.layout.boxes.get(imp) ?? { w: 0, h: 0 };
    }

    /**
     * Half the size of the name of an IMP that is a dot.
     *
     * @param {number} imp
     */
    tag(imp) {
        this.tags ??= boxesOf(this.network, this.layout.detail, this.layout.unit);
        return this.tags.get(imp) ?? { w: 0, h: 0 };
    }

    /**
     * Where a line has its number: in the middle, or beside that where the count of an IMP would lie on it.
     *
     * @param {number[]} imps
     * @param {Point} a
     * @param {Point} b
     * @param {number} half of the number's size
     */
    numbered(imps, a, b, half) {
        const counts = imps.map((imp) => {
            const [at, { w, h }] = [this.imp(imp), this.box(imp)];
            return { x: at.x + w, y: at.y - h };
        });
        const apart = half + DOT_BADGE * this.layout.unit;
        const isFree = (/** @type {Point} */ it) => counts.every(({ x, y }) => Math.hypot(it.x - x, it.y - y) > apart);
        return [0.5, 0.6, 0.4, 0.7, 0.3].map((it) => between(a, b, it)).find(isFree) ?? between(a, b, 0.5);
    }

    drawLines() {
        if (this.network.plain) return this.drawCloud();
        const { detail, unit } = this.layout;
        this.network.lines.forEach((imps, line) => {
            const [a, b] = this.ends(line);
            const middle = between(a, b, 0.5);
            const halves = [a, b].map(
                (end, place) => s(
                    "line",
                    { class: "half", "data-imp": imps[place], x1: end.x, y1: end.y, x2: middle.x, y2: middle.y },
                ),
            );
            const half = 0.75 * detail.text * unit;
            const mark = this.layout.small ? middle : this.numbered(imps, a, b, half);
            const radius = (this.layout.small ? 3.5 : 5) * unit;
            // a cross is beside the number, where there is room
            const share = (/** @type {Point} */ end) => {
                const room = 1 - (half + radius) / Math.hypot(mark.x - end.x, mark.y - end.y);
                return Math.max(0.3, Math.min(0.55, room));
            };
            const crosses = [a, b].map((end) => cross(between(end, mark, share(end)), radius));
            const hit = s("line", { class: "hit", x1: a.x, y1: a.y, x2: b.x, y2: b.y });
            const plate = { x: mark.x - half, y: mark.y - half, width: 2 * half, height: 2 * half, rx: 3 };
            const label = this.layout.small
                ? [s("text", { class: "many", y: 0.35 * detail.text * unit })]
                : [
                    s("rect", { class: "plate", ...plate }),
                    s("text", { class: "number", x: mark.x, y: mark.y + 0.35 * detail.text * unit }, String(line)),
                ];
            this.lines.append(
                this.part({ kind: "line", line }, `line ${line}`, [...halves, ...crosses, hit, ...label]),
            );
        });
    }

    /** Between IMPs without lines, the mailboxes that carry what they send: a line to a middle from each. */
    drawCloud() {
        const points = this.network.sites.map(({ number }) => this.imp(number));
        const middle = { x: points.reduce((sum, it) => sum + it.x, 0) / points.length, y: points.reduce((sum, it) => sum + it.y, 0) / points.length };
        if (points.length < 2) return;
        const { detail, unit } = this.layout;
        const [w, h] = [0.31 * detail.text * unit * WORD.length + 8 * unit, detail.text * unit];
        const isFree = points.every((it) => Math.abs(it.x - middle.x) > w + 20 || Math.abs(it.y - middle.y) > h + 20);
        this.lines.append(
            ...points.map((it) => s("line", { class: "mail", x1: it.x, y1: it.y, x2: middle.x, y2: middle.y })),
            ...(isFree
                ? [
                    s("rect", { class: "plate cloud", x: middle.x - w, y: middle.y - h, width: 2 * w, height: 2 * h, rx: h }),
                    s("text", { class: "number", x: middle.x, y: middle.y + 0.35 * detail.text * unit }, WORD),
                ]
                : []),
        );
    }

    drawImps() {
        const { small, detail, unit } = this.layout;
        for (const { number, name } of this.network.sites) {
            const at = small ? { x: 0, y: 0 } : this.imp(number);
            const { w, h } = small ? this.tag(number) : this.box(number);
            const corner = { x: at.x - w, y: at.y - h, width: 2 * w, height: 2 * h, rx: (small ? 3 : 7) * unit };
            const drop = 0.35 * detail.title * unit;
            const words = name || (detail.half > 10 ? `IMP ${number}` : String(number));
            const isDouble = detail.name === "full";
            const title = s("text", { class: "title", x: at.x, y: at.y + drop - (isDouble && name ? 0.55 * detail.title * unit : 0) }, words);
            const below = s("text", { class: "below", x: at.x, y: isDouble ? at.y + drop + 0.72 * detail.title * unit : at.y + h + detail.text * unit });
            const box = [s("rect", { class: "box", ...corner }), s("rect", { class: "hatch", ...corner }), title];
            const radius = DOT_BADGE * unit;
            const parts = small
                ? [
                    s("circle", { class: "hit", r: 12 * unit }),
                    s("line", { class: "lead" }),
                    s("circle", { class: "spot", r: this.box(number).w }),
                    badge(0, 0, radius),
                    s("g", { class: "tag" }, ...box, below),
                ]
                : [...box, below, badge(at.x + w - 2, at.y - h + 1, radius)];
            this.imps.append(this.part({ kind: "imp", imp: number }, `imp ${number}`, parts));
        }
    }

    drawHosts() {
        const { radius, small, detail, unit } = this.layout;
        for (const host of this.network.hosts) {
            const { x, y } = small ? { x: 0, y: 0 } : this.host(host);
            const imp = this.imp(impOf(host));
            const edge = leaving(
                imp,
                { x: imp.x + 9 * (x - imp.x), y: imp.y + 9 * (y - imp.y) },
                this.box(impOf(host)),
            );
            this.spokes.append(s("line", { class: "spoke", x1: edge.x, y1: edge.y, x2: x, y2: y }));
            const drop = 0.35 * detail.text * unit;
            const parts = [
                s("circle", { class: "disc", cx: x, cy: y, r: radius }),
                s("path", { class: "crossed", d: crossPath(x, y, radius * 0.6) }),
            ];
            if (small) parts.push(s("text", { class: "detail", x, y: y + drop }, host));
            else if (detail.hosts) parts.push(s("text", { class: "name", x, y: y + drop }, host));
            const isApart = radius > 8 * unit;
            parts.push(badge(x + (isApart ? radius * 0.86 : 0), y - (isApart ? radius * 0.98 : 0), 7 * unit));
            const element = this.part({ kind: "host", host }, `host ${host}`, parts);
            element.classList.toggle("stranger", this.network.strangers.includes(host));
            this.hosts.append(element);
        }
    }

    /**
     * A part that can be tapped.
     *
     * @param {Part} part
     * @param {string} key
     * @param {SVGElement[]} children
     */
    part(part, key, children) {
        const { tap } = this;
        const button = tap ? { role: "button", tabindex: -1 } : {};
        const attributes = { class: `part ${part.kind}`, "data-part": key, ...button };
        const element = s("g", attributes, s("title"), ...children);
        element.addEventListener("click", (event) => {
            event.stopPropagation();
            tap?.(JSON.parse(element.dataset.what ?? JSON.stringify(part)), element);
        });
        element.dataset.what = JSON.stringify(part);
        return element;
    }

    /**
     * Draws what holds.
     *
     * @param {Scene} scene
     */
    draw(scene) {
        this.scene = scene;
        this.update(scene);
        this.fold();
        this.updateArcs(scene);
        this.updateWays(scene);
        this.updateFrames(scene);
    }

    /** @param {Scene} scene */
    update(scene) {
        this.updateLines(scene);
        this.updateImps(scene);
        this.updateHosts(scene);
    }

    /** @param {Scene} scene */
    updateLines({ state }) {
        if (this.network.plain) return;
        [...this.lines.children].forEach((element, line) => {
            const imps = this.network.lines[line];
            const up = imps.map((imp) => state.isEndUp(imp, line));
            imps.forEach((_, place) => {
                element.children[place + 1].classList.toggle("down", !up[place]);
                element.children[place + 3].classList.toggle("shown", !up[place]);
            });
            const downAt = imps.filter((_, place) => !up[place]).map((imp) => siteName(this.network, imp));
            const told = downAt.length ? `, down at ${downAt.join(" and ")}` : "";
            label(element, `${partTitle(state, { kind: "line", line })}${told}`);
        });
    }

    /** @param {Scene} scene */
    updateImps({ state, to }) {
        this.network.sites.forEach(({ number }, place) => {
            const element = this.imps.children[place];
            const isUp = this.network.plain || state.imp(number) !== null;
            const distance = to && isUp ? state.way(number, to).distance : -1;
            element.classList.toggle("down", !isUp);
            element.classList.toggle("chosen", to === number);
            element.classList.toggle("nowhere", distance === FAR);
            const claims = !this.network.plain && state.claims(number);
            element.classList.toggle("claims", claims);
            const title = element.querySelector(".title");
            set(element, { "data-shade": distance < 0 || distance === FAR ? null : Math.min(8, distance) });
            const held = !this.network.plain ? state.heldBy(number).length : 0;
            updateBadge(element, held);
            const below = element.querySelector(".below");
            if (below) {
                const { title: letters } = this.layout.detail;
                const isDouble = this.layout.detail.name === "full";
                const isNamed = !siteName(this.network, number).startsWith("IMP ");
                const plain = !isUp ? "down" : isNamed ? `IMP ${number}` : "";
                say(below, distance < 0 ? (isDouble ? plain : "") : distance === FAR ? "no route" : String(distance));
                below.classList.toggle("distance", distance >= 0);
                const up = below.textContent ? 0.55 * letters * this.layout.unit : 0;
                if (title && isDouble) set(title, { y: this.imp(number).y + 0.35 * letters * this.layout.unit - up });
            }
            const way = distance < 0 ? "" : distance === FAR ? ", no route" : `, distance ${distance}`;
            const told = `${way}${claims ? ", says that it is at distance 0 from all" : ""}`;
            label(
                element,
                `${siteName(this.network, number)}${isUp ? "" : ", down"}${told}${held ? `, holds ${held}` : ""}`,
            );
        });
    }

    /** @param {Scene} scene */
    updateHosts({ state }) {
        this.network.hosts.forEach((host, place) => {
            const element = this.hosts.children[place];
            const isUp = state.isUp(host);
            element.classList.toggle("down", !isUp);
            const box = state.box(host);
            const waits = box ? box.messages.length + box.answers.length : 0;
            updateBadge(element, waits);
            const words = [
                `Host ${host}`,
                machineOf(this.network, host),
                this.network.strangers.includes(host) ? "a stranger" : "",
                isUp ? "" : "down",
                waits ? `${waits} wait for it` : "",
            ];
            label(element, words.filter(Boolean).join(", "));
        });
    }

    /** @param {Scene} scene */
    updateArcs({ talk }) {
        const open = [...talk.messages.values()];
        keep(
            this.arcs,
            open.length > MOST_ARCS ? [] : open,
            (it) => it.flow,
            (it) => {
                const [source, destination] = it.flow.split(" ").map((host) => this.host(host));
                const middle = between(source, destination, 0.5);
                const length = Math.hypot(destination.x - source.x, destination.y - source.y) || 1;
                const bend = Math.min(46, 0.18 * length) + 5 * (Number(it.flow.split(" ")[2]) % 4);
                const over = {
                    x: middle.x + (bend * (destination.y - source.y)) / length,
                    y: middle.y - (bend * (destination.x - source.x)) / length,
                };
                const x = Math.min(Math.max(over.x, 6), this.layout.width - 6);
                const y = Math.min(Math.max(over.y, 6), this.layout.height - 6);
                const d = `M${source.x} ${source.y} Q${x} ${y} ${destination.x} ${destination.y}`;
                return s("path", { class: "arc", d });
            },
            (element, it) => element.classList.toggle("taken", it.taken),
        );
    }

    /**
     * The line that each IMP takes towards the chosen one.
     *
     * @param {Scene} scene
     */
    updateWays({ state, to }) {
        const chosen = to && !this.network.plain
            ? this.network.sites.flatMap(
                ({ number }) => (
                    state.imp(number) && state.way(number, to).line >= 0
                        ? [{ imp: number, line: state.way(number, to).line }]
                        : []
                ),
            )
            : [];
        keep(
            this.ways,
            chosen,
            (it) => `${it.imp} ${it.line}`,
            ({ imp, line }) => {
                const [a, b] = this.ends(line);
                const [from, other] = this.network.lines[line][0] === imp ? [a, b] : [b, a];
                const at = between(from, other, 0.3);
                const angle = (Math.atan2(other.y - from.y, other.x - from.x) * 180) / Math.PI;
                const d = this.layout.small ? "M-4 -4 L3 0 L-4 4" : "M-6 -6 L5 0 L-6 6";
                return s("path", { class: "way", d, "data-at": `translate(${at.x} ${at.y}) rotate(${angle})` });
            },
            (element, _) => set(element, { transform: `${element.getAttribute("data-at")} scale(${this.size()})` }),
        );
    }

    /** How much larger than drawn a sign is. */
    size() {
        return (this.factor * this.layout.unit).toFixed(3);
    }

    /** @param {Scene} scene */
    updateFrames({ state }) {
        /** @type {(FrameOnLine & {key: string})[]} */
        const shown = [];
        if (!this.network.plain) {
            this.network.lines.forEach((_, line) => {
                for (const way of /** @type {const} */ (["+", "-"])) {
                    const frames = state.line(line)[way];
                    const count = Math.min(frames.length, this.layout.small ? 2 : MOST_FRAMES);
                    for (let place = 0; place < count; place += 1) {
                        shown.push({
                            key: `${line} ${way} ${place}`,
                            line,
                            way,
                            place,
                            frame: frames[place],
                            count,
                            more: place === count - 1 ? frames.length - count : 0,
                        });
                    }
                }
            });
        }
        keep(
            this.frames,
            shown,
            (it) => it.key,
            ({ line, way, place }) => this.part(
                { kind: "frame", line, way, place },
                `frame ${line} ${way} ${place}`,
                [
                    s("circle", { class: "hit", r: 12 }),
                    s("path", { class: "sign" }),
                    s("path", { class: "stroke" }),
                    s("text", { class: "more" }),
                ],
            ),
            (element, it) => drawFrame(this, state, element, it),
        );
    }

    /**
     * Marks IMPs, lines and hosts by the names of their parts in the state.
     *
     * @param {Set<string>} names
     */
    mark(names) {
        for (const element of [...this.imps.children, ...this.lines.children, ...this.hosts.children]) {
            element.classList.toggle("marked", names.has(element.getAttribute("data-part") ?? ""));
        }
    }

    /**
     * All parts in the order in which keys go through them.
     *
     * @returns {SVGElement[]}
     */
    parts() {
        return /** @type {SVGElement[]} */ (
            [...this.imps.children, ...this.hosts.children, ...this.lines.children, ...this.frames.children]
        );
    }
}
