/** The workbench: one script, its replay, and the step at which one is. */

import { TABLE } from "../../python/dorydate/sentences/table.mjs";
import { chartOf } from "./chart.js";
import { arrangement } from "./arrangement.js";
import { addedLines, goOn } from "./edits.js";
import { faultOf } from "./faults.js";
import { History } from "./fold.js";
import { judged } from "./goals.js";
import { stopsOfFlow, stopsWith } from "./follow.js";
import { keepText, storedText } from "./kept.js";
import { Past } from "./past.js";
import { isReplay, limitsBy, replay } from "./runs.js";
import { impsNamed, notesOf, readInput } from "./script.js";
import { CUT, LONG, noLesson, placeIn } from "./share.js";
import { stopAt, stopsOf } from "./stops.js";
import { Talk } from "./talk.js";
import { messageName, waitsOf } from "./waits.js";
import { tripsOf } from "./trips.js";
import { nextFollowed, nextFound, nextLine, nextRefusal, questionAt } from "./walk.js";
import { Compare } from "./view/compare.js";
import { Doors } from "./view/doors.js";
import { makeBorder } from "./view/borders.js";
import { byId, h, say, set } from "./view/dom.js";
import { Editor } from "./view/editor.js";
import { textOfFile } from "./view/files.js";
import { drawFoot, drawSentence, drawTabs, fillLists, TABS } from "./view/frame.js";
import { travel } from "./view/frames.js";
import { Hands } from "./view/hands.js";
import { Index } from "./view/index.js";
import { drawGoal } from "./view/goal.js";
import { drawLegend } from "./view/legend.js";
import { listenToKeys } from "./view/keys.js";
import { MapView } from "./view/map.js";
import { Toast } from "./view/menu.js";
import { Next } from "./view/next.js";
import { Pack } from "./view/pack.js";
import { Panes } from "./view/panes.js";
import { Player } from "./view/player.js";
import { BookView } from "./view/book.js";
import { Printed } from "./view/printed.js";
import { SheetView } from "./view/sheet.js";
import { Taps } from "./view/taps.js";
import { Terms } from "./view/terms.js";

/** @typedef {import("../run/runner.js").Runner} Runner */
/** @typedef {import("./stops.js").Grain} Grain */
/** @typedef {import("./stops.js").Stop} Stop */
/** @typedef {import("./choices.js").Part} Part */
/** @typedef {import("./script.js").Note} Note */
/** @typedef {import("./past.js").Kept} Kept */
/** @typedef {{name: string, title: string, group: string, text: string, at?: number}} Example */

const FIRST = "lo-of-login"; // what a first visit sees
const ROOMY = 1560; // pixels of plain letters from which what can happen next has a place beside the map
const SLOW = 300; // milliseconds of a run after which the page says that it runs
const TYPED = 350; // milliseconds after the last key until what was typed is run

/** The page. */
export class Workbench {
    /** @type {History | null} */
    history = null;
    /** @type {Talk | null} */
    talk = null;
    /** @type {Talk | null} what the lines say before the last step */
    earlier = null;
    /** @type {import("./chart.js").Chart | null} */
    chart = null;
    /** @type {Stop[]} */
    stops = [];
    /** @type {Note[]} */
    notes = [];
    text = "";
    origin = "";
    example = "";
    position = 0;
    /** @type {Grain} */
    grain = "arrival";
    to = 0;
    hidden = false;
    tab = "script";
    past = new Past();
    /** @type {Kept | null} what was before the editor was opened */
    before = null;
    /** @type {Note | null} */
    asking = null;
    /** @type {Set<Note>} */
    asked = new Set();
    runs = 0;
    timer = 0;
    topology = "";
    /** @type {string} the flow that is followed, "" for none */
    flow = "";
    /** @type {number[]} the stops of that flow */
    followed = [];
    network = /** @type {SVGElement} */ (/** @type {unknown} */ (byId("network")));
    /** @type {MapView | null} */
    map = null;
    /** @type {string} why an address wasn't opened, "" once that was said */
    why = "";
    /** @type {((lines: string[]) => Promise<string>) | null} asks the live session that is followed for lines */
    asks = null;

    /**
     * @param {Runner} runner
     * @param {Example[]} examples
     * @param {import("./chronology.js").Chronology} years
     * @param {import("./view/saving.js").Source} source
     */
    constructor(runner, examples, years, source) {
        this.runner = runner;
        this.examples = examples;
        this.opens = this.beside().map(({ at, text }) => `${at ?? 0} ${text}`).join("\n"); // which tells pages apart
        const go = (/** @type {number} */ position) => this.go(position);
        this.toast = new Toast(byId("toast"));
        this.taps = new Taps(this, byId("menu"));
        this.sheet = new SheetView(byId("sheet"), go);
        this.limitsOf = limitsBy(examples);
        this.book = new BookView(runner, this.limitsOf, (line) => this.goToLine(line));
        this.printed = new Printed(runner, this.limitsOf);
        this.compare = new Compare(runner, this.limitsOf, go, () => this.draw());
        this.next = new Next(this);
        this.index = new Index(byId("index"), examples, years, (name) => void this.load(name));
        this.panes = new Panes(byId("pane"), {
            choose: (imp) => this.choose(imp),
            add: (lines, words) => this.change(lines, words),
            tap: (part, element) => this.taps.openMenu(part, element),
            follow: (flow) => this.follow(this.flow === flow ? "" : flow),
        });
        this.editor = new Editor(byId("editor"), {
            changed: (text) => this.typed(text),
            run: () => this.runNow(),
            close: () => this.edit(false),
        });
        this.player = new Player({
            isAtEnd: () => this.at() >= this.stops.length,
            restart: () => this.go(0),
            step: () => {
                this.step(1);
                return this.asking === null;
            },
            pace: () => Number(/** @type {HTMLSelectElement} */ (byId("pace")).value),
            show: (playing) => this.showPlaying(playing),
        });
        this.doors = new Doors((door) => void this.enter(door));
        this.terms = new Terms();
        this.pack = new Pack(this, source);
        fillLists(examples, (tab) => this.openTab(tab));
        this.listen();
    }

    // ---- the frame

    /**
     * A door of a first visit is opened.
     *
     * @param {import("./view/doors.js").Door} door
     */
    async enter(door) {
        const lesson = { watch: "lo-of-login", break: "arpanet-of-december-1969", solve: "exercise-an-rfnm" }[door];
        if (this.example !== lesson) await this.load(lesson);
        this.doors.show(false);
        if (door === "watch") this.player.toggle();
        if (door === "solve") this.tab = "next";
        byId("network").classList.toggle("hinted", door === "break");
        this.draw();
        if (door === "break") this.toast.show(TABLE.doors["tap a line"], null, true);
        if (door === "solve") this.toast.show(TABLE.doors.task, null);
        byId(door === "watch" ? "play" : "network").focus();
    }

    /** @param {boolean} playing */
    showPlaying(playing) {
        const [sign, words] = byId("play").children;
        say(words, playing ? "Pause" : "Play");
        set(sign.children[0], { d: playing ? "M4 2.5h3v11H4zM9 2.5h3v11H9z" : "M4 2.5v11l9.5-5.5z" });
        this.draw();
    }

    listen() {
        /** @type {{[id: string]: () => void}} */
        const presses = {
            first: () => this.go(0),
            back: () => this.step(-1),
            next: () => this.step(1),
            last: () => this.go(this.history?.length ?? 0),
            play: () => this.player.toggle(),
            undo: () => void this.undo(),
            redo: () => void this.redo(),
            edit: () => this.edit(byId("editor").hidden),
            hide: () => this.hide(),
            larger: () => this.larger(),
            ...this.pack.presses(),
            open: () => byId("file").click(),
            lessons: () => this.index.open(),
            round: () => void this.change(["calm 1"], "A round passes"),
            rounds: () => void this.change(["calm 3"], "Three rounds pass"),
            stop: () => this.runner.stop(),
            nearer: () => this.map?.zoom(1.4),
            farther: () => this.map?.zoom(1 / 1.4),
            whole: () => this.wholeMap(),
            more: () => set(byId("more"), { "aria-expanded": String(byId("rare").classList.toggle("open")) }),
        };
        for (const [id, act] of Object.entries(presses)) byId(id).addEventListener("click", act);
        const valueOf = (/** @type {Event} */ event) => /** @type {HTMLInputElement} */ (event.target).value;
        byId("file").addEventListener("change", () => void this.openFile());
        byId("lesson").addEventListener("change", (event) => void this.load(valueOf(event)));
        byId("grain").addEventListener("change", (event) => this.setGrain(/** @type {Grain} */ (valueOf(event))));
        byId("slider").addEventListener("input", (event) => this.goStop(Number(valueOf(event))));
        listenToKeys(this);
        new Hands(this.network, {
            zoom: (factor, x, y) => this.map?.zoom(factor, x, y),
            pan: (dx, dy) => this.map?.pan(dx, dy),
            fit: () => this.map?.fit(),
        });
        new ResizeObserver(() => this.map?.see()).observe(this.network);
        makeBorder("split-x", "x", () => this.draw());
        makeBorder("split-y", "y", () => this.draw());
        window.addEventListener("hashchange", () => void this.fromAddress());
        window.addEventListener("beforeprint", () => this.pack.print());
        window.addEventListener("afterprint", () => this.pack.printed());
        window.addEventListener("resize", () => this.arrange());
        this.arrange();
    }

    /** Arranges the regions by the room that there is for text of the chosen size. */
    arrange() {
        const root = document.documentElement;
        const scale = 16 / parseFloat(getComputedStyle(root).fontSize);
        const { layout, isLow } = arrangement(root.clientWidth * scale, root.clientHeight * scale);
        root.dataset.layout = layout;
        root.toggleAttribute("data-slim", layout !== "wide");
        root.toggleAttribute("data-low", isLow);
        root.toggleAttribute("data-tight", root.clientWidth * scale < 1340);
        root.toggleAttribute("data-roomy", layout === "wide" && root.clientWidth * scale >= ROOMY);
        byId("beside").hidden = !root.hasAttribute("data-roomy");
        this.map?.see();
        this.draw();
    }

    /** Gives the map the whole page, or takes it back. */
    wholeMap() {
        const isWhole = document.documentElement.toggleAttribute("data-whole");
        set(byId("whole"), { "aria-pressed": String(isWhole) });
        this.draw();
    }

    /** @param {string} name */
    openTab(name) {
        this.tab = name;
        this.draw();
    }

    isWide() {
        return document.documentElement.dataset.layout === "wide";
    }

    /** The tab that is shown: where the script has a place of its own, there is no tab for it. */
    shownTab() {
        const isBeside = (this.tab === "script" && this.isWide()) || (this.tab === "next" && this.isRoomy());
        return isBeside ? "waits" : this.tab;
    }

    /** Whether what can happen next has a place of its own. */
    isRoomy() {
        return document.documentElement.hasAttribute("data-roomy");
    }

    title() {
        return this.examples.find((it) => it.name === this.example)?.title ?? "A script";
    }

    /** How many stops are done. */
    at() {
        return stopAt(this.stops, this.position);
    }

    // ---- scripts and replays

    /** Opens the page: at what the address says, at the text that was here, or at the first example. */
    async begin() {
        if (await this.fromAddress()) return;
        const kept = storedText(this.opens);
        const beside = this.beside();
        if (kept) {
            this.example = kept.example;
            this.origin = this.examples.find((it) => it.name === kept.example)?.text ?? kept.text;
            this.doors.show(kept.example === FIRST && kept.text === this.origin && !this.why);
            await this.show(kept.text, 0);
        } else if (this.examples.length && !this.examples.some((it) => it.name === FIRST)) await this.load(this.examples[0].name);
        else if (this.examples.length) {
            const opens = beside[0]?.name ?? FIRST;
            this.doors.show(opens === FIRST && !this.why);
            await this.load(opens);
            if (beside[0]?.at) this.goStop(beside[0].at);
        }
        if (!kept && beside.length > 1) this.compareWith(beside[1]);
    }

    /** The inputs with which the page opens. */
    beside() {
        return this.examples.filter((it) => it.name.startsWith("opened-"));
    }

    /**
     * Shows another input beside this one.
     *
     * @param {Example} other
     */
    compareWith(other) {
        this.origin = other.text;
        this.compare.other = other.title;
        this.setStops();
        this.openTab("compare");
    }

    /** Opens what the address says. Answers whether it says anything. */
    async fromAddress() {
        if (window.location.hash === "#lessons") this.index.open();
        const place = await placeIn(window.location.hash);
        if (!place) return false;
        if (place === "cut") return this.unopened(CUT);
        if (place === "long") return this.unopened(LONG);
        const example = this.examples.find((it) => it.name === place.example);
        const text = place.text ?? example?.text;
        if (text === undefined) return this.unopened(noLesson(place.example ?? "", this.examples.map((it) => it.name)));
        this.example = example?.name ?? "";
        this.open(text);
        this.grain = /** @type {Grain} */ (place.grain);
        /** @type {HTMLSelectElement} */ (byId("grain")).value = this.grain;
        this.to = place.to;
        this.hidden = place.hidden;
        await this.show(text, 0);
        this.goStop(place.at);
        return true;
    }

    /**
     * Says why an address isn't opened, until something else is. What was here stays, or what was here last is shown.
     *
     * @param {string} why
     */
    unopened(why) {
        this.why = why;
        if (this.history) this.toast.show(why, null, true);
        return false;
    }

    /** @param {string} name */
    async load(name) {
        this.why = "";
        const example = this.examples.find((it) => it.name === name);
        if (!example) return;
        this.past.leave(this.here());
        this.example = name;
        this.open(example.text);
        this.flow = "";
        this.to = 0;
        await this.show(example.text, 0);
    }

    /**
     * A text is opened: changes are compared with it.
     *
     * @param {string} text
     */
    open(text) {
        if (this.history) this.doors.show(false);
        this.origin = text;
        this.compare.other = "";
    }

    /**
     * What one has here, so that it can be brought back.
     *
     * @returns {Kept}
     */
    here() {
        return { text: this.text, position: this.position, example: this.example, origin: this.origin };
    }

    /**
     * Replays a text and shows it. Answers whether it could.
     *
     * @param {string} text
     * @param {number} position
     */
    async show(text, position) {
        this.player.pause();
        this.runs += 1;
        const run = this.runs;
        const slow = window.setTimeout(() => (byId("wait").hidden = false), SLOW);
        try {
            const opened = (/** @type {import("./runs.js").Replay} */ it) => void (run === this.runs && this.showOpening(text, it));
            const outcome = await replay(this.runner.run, text, this.limitsOf(text), opened);
            if (run !== this.runs) return false;
            keepText(text, this.example, this.opens);
            this.forgetAddress(text);
            if (!isReplay(outcome)) return this.showFault(text, outcome);
            this.editor.showFault(outcome.cut, 0);
            this.text = text;
            this.history = new History(outcome);
            this.fresh();
            void this.judge(run);
            this.go(Math.min(position, this.history.length));
            this.toast.hide();
            if (this.why || outcome.cut) this.toast.show(this.why || outcome.cut, null, true);
            this.why = "";
            return true;
        } finally {
            window.clearTimeout(slow);
            byId("wait").hidden = true;
            if (run === this.runs) document.documentElement.dataset.replays = String(run);
        }
    }

    /**
     * Shows another network before its first event, while the program still runs.
     *
     * @param {string} text
     * @param {import("./runs.js").Replay} opened
     */
    showOpening(text, opened) {
        if (opened.input.head.join("\n") === this.topology) return;
        this.forgetAddress(text);
        this.text = text;
        this.history = new History(opened);
        this.fresh();
        this.go(0);
        say(byId("count"), "");
    }

    /**
     * Says whether the script reaches its goal, if it has one.
     *
     * @param {number} run the number of its replay
     */
    async judge(run) {
        if (!this.history) return;
        const { isReached, text } = await judged(this.runner.batch, this.history.replay.input);
        if (run !== this.runs) return;
        drawGoal({ isReached, text }, this.history.replay.input, this.example);
    }

    /**
     * Takes the script out of the address once another one is shown.
     *
     * @param {string} text
     */
    forgetAddress(text) {
        const { hash, pathname, search } = window.location;
        if (hash && this.text && text !== this.text) history.replaceState(null, "", pathname + search);
    }

    /**
     * Shows why a text is refused, in the editor. The last replay stays.
     *
     * @param {string} text
     * @param {import("./runs.js").Refusal} refusal
     */
    showFault(text, refusal) {
        const fault = faultOf(refusal);
        this.editor.showFault(fault.text, fault.line);
        if (byId("editor").hidden) {
            this.editor.show(text);
            this.edit(true);
        }
        this.text = text;
        return false;
    }

    /** Makes anew what depends on the replay. */
    fresh() {
        if (!this.history) return;
        const { input, network } = this.history.replay;
        this.notes = notesOf(input);
        this.asking = null;
        this.asked = new Set();
        const topology = input.head.join("\n");
        if (topology !== this.topology || !this.map) {
            this.map = new MapView(this.network, network, (part, element) => this.taps.tapped(part, element));
            this.topology = topology;
        }
        drawLegend(network, input);
        this.map.name(impsNamed(input.events.map((it) => it.words)));
        if (!network.sites.some((site) => site.number === this.to)) this.to = 0;
        this.talk = new Talk(this.history.replay);
        this.earlier = new Talk(this.history.replay);
        this.chart = chartOf(this.history);
        this.setStops();
        this.editor.show(this.text);
        /** @type {HTMLSelectElement} */ (byId("lesson")).value = this.example;
    }

    setStops() {
        if (!this.history || !this.chart) return;
        this.stops = stopsOf(this.history, this.grain);
        const texts = (/** @type {import("./script.js").Input} */ input) => input.lines.map((it) => it.text);
        const added = addedLines(texts(readInput(this.origin)), texts(this.history.replay.input));
        this.sheet.show({ history: this.history, stops: this.stops, chart: this.chart, added });
        set(byId("slider"), { max: this.stops.length });
        this.follow(this.flow);
    }

    /** @param {Grain} grain */
    setGrain(grain) {
        this.grain = grain;
        this.setStops();
        this.go(this.position);
    }

    // ---- steps

    /** @param {number} position */
    go(position) {
        this.position = position;
        if (position) this.doors.show(false);
        this.asking = null;
        this.draw();
    }

    /** @param {number} line of the log: the step in which this crosses is gone to */
    goToLine(line) {
        let left = line;
        const moments = this.history?.replay.moments ?? [];
        const at = moments.findIndex((it) => (left -= it.kinds.filter(Boolean).length) <= 0);
        if (at >= 0) this.go(at + 1);
    }

    /** @param {number} stop how many stops are done then */
    goStop(stop) {
        const place = Math.max(0, Math.min(stop, this.stops.length));
        this.go(place ? this.stops[place - 1].to : 0);
    }

    /** @param {number} by */
    step(by) {
        const at = this.at();
        if (by > 0 && this.ask(at)) return;
        this.goStop(this.flow ? nextFollowed(this.followed, at, by, this.stops.length) : at + by);
        if (by === 1) this.travel();
    }

    /**
     * The next line of the script, or the one before.
     *
     * @param {number} by
     */
    stepLine(by) {
        this.goStop(nextLine(this.stops, this.at(), by));
    }

    goToRefusal() {
        const next = this.history ? nextRefusal(this.history, this.stops, this.at()) : -1;
        if (next >= 0) this.goStop(next + 1);
    }

    /**
     * Follows a flow, so that steps go through what happens to it; none for "".
     *
     * @param {string} flow
     */
    follow(flow) {
        if (!this.history) return;
        this.followed = flow ? stopsOfFlow(this.history, this.stops, flow) : [];
        this.flow = this.followed.length ? flow : "";
        this.sheet.mark(new Set(this.followed));
        const shown = byId("following");
        shown.hidden = !this.flow;
        if (!this.flow) return;
        const words = `Steps follow ${messageName(this.history.network, this.flow)}.`;
        const stop = h("button", { type: "button", onclick: () => this.follow("") }, "Stop following");
        shown.replaceChildren(h("span", {}, words), stop);
    }

    /**
     * Goes to the next stop that has what is looked for, or the one before.
     *
     * @param {number} by
     */
    find(by) {
        const { value } = /** @type {HTMLInputElement} */ (byId("find"));
        if (!this.history || !value.trim()) return;
        const at = this.at();
        const found = stopsWith(this.history, this.hidden ? this.stops.slice(0, at) : this.stops, value);
        const next = nextFound(found, at, by);
        if (next === undefined) return this.toast.show(`No step has “${value}”.`, null);
        this.goStop(next + 1);
        const place = found.indexOf(next) + 1;
        this.toast.show(`${place} of ${found.length} steps with “${value}”. Enter goes to the next.`, null);
    }

    /**
     * Asks the question before the next step, once, if what is to come is hidden. Answers whether there is one.
     *
     * @param {number} at
     */
    ask(at) {
        if (!this.hidden) return false;
        if (this.asking) {
            this.asked.add(this.asking);
            return false;
        }
        this.asking = questionAt(this.notes, this.stops, at, this.asked);
        if (this.asking) this.draw();
        return this.asking !== null;
    }

    /** Lets the packets that moved in the last step be seen to move. */
    travel() {
        const stop = this.stops[this.at() - 1];
        const isStill = window.matchMedia("(prefers-reduced-motion: reduce)").matches;
        if (!stop || !this.history || isStill) return;
        const pace = this.player.timer ? this.player.it.pace() : 900;
        const trips = tripsOf(this.history, stop);
        const each = Math.max(160, Math.min(420, (0.8 * pace) / Math.max(1, Math.min(trips.length, 4))));
        const gap = trips.length > 1 ? (0.8 * pace - each) / (trips.length - 1) : 0;
        trips.forEach(({ line, from, frame }, at) => this.map && travel(this.map, line, from, frame, each, Math.max(0, gap * at)));
    }

    // ---- changes

    /**
     * Adds lines after the present step and goes to what they did.
     *
     * @param {string[]} lines
     * @param {string} words
     */
    async change(lines, words) {
        if (!this.history) return;
        if (this.asks) {
            const why = await this.asks(lines);
            return this.toast.show(`${words}: ${lines.join(", ")}.${why ? ` Refused: ${why}.` : ""}`, null, why !== "");
        }
        const before = this.here();
        const refused = this.refusals();
        const edit = goOn(this.history, this.position, lines, this.taps.cutOff);
        if (!(await this.show(edit.text, edit.position))) return;
        this.past.add(before);
        byId("network").classList.remove("hinted");
        const { moments, input } = this.history.replay;
        const isAdded = (/** @type {number} */ event) => input.events[event].line < edit.line + edit.added;
        const last = moments.reduce((end, { event }, at) => (isAdded(event) ? at + 1 : end), edit.position);
        this.go(Math.max(last, edit.position));
        const more = this.refusals() - refused;
        const what = more === 1 ? "line that follows is" : "lines that follow are";
        const later = more > 0 ? ` ${more} ${what} now refused.` : "";
        this.toast.show(`${words}: ${lines.join(", ")}.${later}`, () => void this.undo());
    }

    /** How many events were refused. */
    refusals() {
        const isRefused = (/** @type {string} */ line) => line.startsWith("refused ");
        return this.history?.replay.moments.filter((moment) => moment.printed.some(isRefused)).length ?? 0;
    }

    async undo() {
        this.toast.hide();
        await this.bringBack(this.past.undo(this.here()));
    }

    async redo() {
        await this.bringBack(this.past.redo(this.here()));
    }

    /** @param {Kept | undefined} it */
    async bringBack(it) {
        if (!it) return;
        this.example = it.example;
        if (it.origin !== this.origin) this.open(it.origin);
        await this.show(it.text, it.position);
    }

    /** @param {boolean} on */
    edit(on) {
        if (on && this.hidden) return this.toast.show("The future is hidden. Show it first, to edit.", null);
        byId("editor").hidden = !on;
        set(byId("edit"), { "aria-pressed": String(on) });
        if (on) {
            this.tab = "script";
            this.editor.show(this.text);
            this.before = this.here();
            this.editor.area.focus();
        } else byId("edit").focus();
        this.draw();
    }

    /** @param {string} text */
    typed(text) {
        window.clearTimeout(this.timer);
        keepText(text, this.example, this.opens);
        this.timer = window.setTimeout(() => void this.runTyped(text), TYPED);
    }

    runNow() {
        window.clearTimeout(this.timer);
        void this.runTyped(this.editor.area.value);
    }

    /** @param {string} text */
    async runTyped(text) {
        const before = this.before ?? this.here();
        if (!(await this.show(text, this.position))) return;
        this.past.add(before);
        this.draw();
    }

    hide() {
        this.hidden = !this.hidden;
        if (this.hidden && !byId("editor").hidden) this.edit(false);
        this.draw();
    }

    larger() {
        const size = (Number(document.documentElement.dataset.size ?? 0) + 1) % 3;
        document.documentElement.dataset.size = String(size);
        this.arrange();
    }

    /** @param {number} imp */
    choose(imp) {
        this.to = this.to === imp ? 0 : imp;
        if (this.to && this.tab !== "distances") this.tab = "distances";
        this.draw();
    }

    // ---- to others

    async openFile() {
        const file = /** @type {HTMLInputElement} */ (byId("file")).files?.[0];
        if (!file) return;
        const text = await textOfFile(file);
        if (typeof text !== "string") return this.toast.show(`${file.name} ${text.why}`, null);
        await this.openText(text);
    }

    /**
     * Opens a text that is no example.
     *
     * @param {string} text
     */
    async openText(text) {
        this.past.leave(this.here());
        this.example = "";
        this.open(text);
        await this.show(text, 0);
    }

    // ---- drawing

    draw() {
        if (!this.history || !this.talk) return;
        const { history, position, stops, to, hidden } = this;
        const at = this.at();
        const state = history.at(position);
        const talk = this.talk.goTo(position);
        const waits = waitsOf(state, talk);
        const { notes, asking, asked } = this;
        const next = () => this.step(1);
        const first = this.doors.isShown() ? TABLE.doors.first : "";
        drawSentence({ history, stops, at, notes, asking, asked, hidden, title: this.title(), first, next });
        const can = { undo: this.past.done.length > 0, redo: this.past.undone.length > 0 };
        drawFoot(stops, at, hidden, can, history.rounds[position]);
        this.map?.draw({ state, talk, to });
        const name = this.shownTab();
        drawTabs(name, waits.length, waits.some((it) => it.bad));
        this.showRegions(name);
        this.sheet.draw(position, hidden);
        const from = at ? stops[at - 1].from : 0;
        const before = at ? history.at(from) : null;
        if (name === "printed") this.printed.draw(byId("pane"), this.text, hidden);
        else if (name === "book") this.book.draw(byId("pane"), this.text, history.network, hidden);
        else if (name === "next") this.next.draw(byId("pane"));
        else if (name === "compare") this.compare.draw(byId("pane"), this.origin, { history, position, to, hidden });
        else if (name !== "script") {
            const earlier = before && name === "hosts" ? (this.earlier?.goTo(from) ?? null) : null;
            this.panes.draw(name, { history, position, state, before, talk, earlier, waits, to, hidden });
        }
        if (this.isRoomy() && !this.player.timer) this.next.draw(byId("beside-pane"));
        this.compare.showMap(name === "compare");
        document.title = `${this.title()} – Dorydate`;
    }

    /**
     * Shows the script, the editor and the table for which there is room.
     *
     * @param {string} name the tab that is shown
     */
    showRegions(name) {
        const isOther = !this.isWide() && name !== "script";
        if (isOther) byId("editor").hidden = true;
        byId("sheet").hidden = !byId("editor").hidden || isOther;
        byId("pane").hidden = !this.isWide() && name === "script";
        set(byId("pane"), { "aria-label": TABS.find(([it]) => it === name)?.[1] ?? "" });
    }
}
