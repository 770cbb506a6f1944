/** Keys: what each does in the page, within the tabs and within the map. */

import { byId } from "./dom.js";

/** @typedef {import("../app.js").Workbench} Workbench */

const FORTH = /** @type {{[key: string]: number}} */ ({ ArrowRight: 1, ArrowDown: 1, ArrowLeft: -1, ArrowUp: -1 });

/**
 * Listens to keys.
 *
 * @param {Workbench} bench
 */
export function listenToKeys(bench) {
    document.addEventListener("keydown", (event) => pageKey(bench, event));
    byId("tabs").addEventListener("keydown", (event) => tabKey(event));
    const map = new MapKeys(bench);
    byId("network").addEventListener("keydown", (event) => map.key(event));
    byId("find").addEventListener("keydown", (event) => {
        event.stopPropagation();
        if (event.key === "Enter") bench.find(event.shiftKey ? -1 : 1);
        if (event.key === "Escape") byId("next").focus();
    });
}

/**
 * What keys do in the page. On a button Space presses it.
 *
 * @param {Workbench} bench
 * @param {boolean} isButton
 * @returns {{[key: string]: () => void}}
 */
function deeds(bench, isButton) {
    return {
        ArrowRight: () => bench.step(1),
        ArrowLeft: () => bench.step(-1),
        ArrowDown: () => bench.stepLine(1),
        ArrowUp: () => bench.stepLine(-1),
        Home: () => bench.go(0),
        End: () => bench.go(bench.history?.length ?? 0),
        h: () => bench.hide(),
        c: () => void bench.change(["calm 1"], "A round passes"),
        r: () => bench.goToRefusal(),
        m: () => bench.wholeMap(),
        "/": () => byId("find").focus(),
        ...(isButton ? {} : { " ": () => bench.player.toggle() }),
    };
}

/**
 * What keys do in the slider: up and right go forward, as in any slider.
 *
 * @param {Workbench} bench
 * @returns {{[key: string]: () => void}}
 */
function alongSlider(bench) {
    return {
        ...deeds(bench, true),
        ArrowDown: () => bench.stepLine(-1),
        ArrowUp: () => bench.stepLine(1),
    };
}

/**
 * @param {Workbench} bench
 * @param {KeyboardEvent} event
 */
function pageKey(bench, event) {
    const target = /** @type {HTMLElement} */ (event.target);
    const isField = target.tagName === "INPUT" && target.id !== "slider";
    if (isField || target.closest("textarea, select, summary, #menu, #index")) return;
    if ((event.ctrlKey || event.metaKey) && event.key.toLowerCase() === "z") {
        event.preventDefault();
        return void (event.shiftKey ? bench.redo() : bench.undo());
    }
    if (event.ctrlKey || event.metaKey || event.altKey) return;
    const isButton = target.tagName === "BUTTON" || target.getAttribute("role") === "button";
    const act = (target.id === "slider" ? alongSlider(bench) : deeds(bench, isButton))[event.key];
    if (!act || (target.getAttribute("role") === "tab" && event.key.startsWith("Arrow"))) return;
    event.preventDefault();
    act();
}

/**
 * Within the tabs arrows go to the next one, or the one before.
 *
 * @param {KeyboardEvent} event
 */
function tabKey(event) {
    const by = { ArrowRight: 1, ArrowLeft: -1 }[event.key];
    const tabs = /** @type {HTMLElement[]} */ ([...byId("tabs").children]).filter((tab) => tab.offsetParent);
    const at = tabs.indexOf(/** @type {HTMLElement} */ (event.target));
    if (!by || at < 0) return;
    event.preventDefault();
    event.stopPropagation();
    const tab = tabs[(at + by + tabs.length) % tabs.length];
    tab.click();
    tab.focus();
}

/** Within the map arrows go from part to part, and Enter opens a part's menu. */
class MapKeys {
    /** @param {Workbench} bench */
    constructor(bench) {
        this.bench = bench;
        this.focused = 0;
    }

    /** @param {KeyboardEvent} event */
    key(event) {
        const parts = this.bench.map?.parts() ?? [];
        const at = parts.indexOf(/** @type {SVGElement} */ (document.activeElement));
        const by = FORTH[event.key];
        const opens = at >= 0 && (event.key === "Enter" || event.key === " ");
        if (event.shiftKey || !parts.length || (!by && !opens && event.key !== "Enter")) return;
        event.preventDefault();
        event.stopPropagation();
        if (opens) return this.bench.taps.openMenu(JSON.parse(parts[at].dataset.what ?? "{}"), parts[at]);
        const last = Math.min(this.focused, parts.length - 1);
        this.focused = by && at >= 0 ? (at + by + parts.length) % parts.length : last;
        parts[this.focused]?.focus();
        if (parts[this.focused]) this.bench.map?.bring(parts[this.focused]);
    }
}
