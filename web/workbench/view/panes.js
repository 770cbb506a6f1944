/** Draws the tables beside the script: what waits, distances, what is inside, hosts and their connections. */

import { changedWays } from "../fates.js";
import { FAR } from "../state.js";
import { groupsOf } from "../programs.js";
import { packetName } from "../sentences.js";
import { farEnd, hostName, siteName, wayOf } from "../topology.js";
import { ANSWERS, grouped, messageName } from "../waits.js";
import { capital } from "../words.js";
import { h, keep, s, say, sayWithCode, set } from "./dom.js";

/** @typedef {import("../state.js").State} State */
/** @typedef {import("../talk.js").Talk} Talk */
/** @typedef {import("../waits.js").Wait} Wait */
/** @typedef {import("../fold.js").History} History */
/** @typedef {import("../choices.js").Part} Part */

/**
 * @typedef {object} Deeds what is done when something in a table is pressed
 * @property {(imp: number) => void} choose
 * @property {(lines: string[], words: string) => void} add
 * @property {(part: Part, element: Element) => void} tap
 * @property {(flow: string) => void} follow
 */

/**
 * @typedef {object} View what the tables show
 * @property {History} history
 * @property {number} position
 * @property {State} state
 * @property {State | null} before the state before the last step
 * @property {Talk} talk
 * @property {Talk | null} earlier what the lines say as of the state before
 * @property {Wait[]} waits
 * @property {number} to the IMP by whose distance the map is coloured
 * @property {boolean} hidden
 */

/** The tables. */
export class Panes {
    /**
     * @param {HTMLElement} element
     * @param {Deeds} does
     */
    constructor(element, does) {
        this.does = does;
        this.element = element;
        this.intro = h("p", { class: "soft" });
        this.body = h("div", { class: "pane-body" });
        element.replaceChildren(this.intro, this.body);
        this.name = "";
    }

    /**
     * @param {string} name
     * @param {View} view
     */
    draw(name, view) {
        if (this.body.parentElement !== this.element) this.element.replaceChildren(this.intro, this.body);
        if (name !== this.name) this.body.replaceChildren();
        this.name = name;
        if (name === "waits") this.drawWaits(view);
        else if (name === "distances") this.drawDistances(view);
        else if (name === "inside") this.drawInside(view);
        else this.drawHosts(view);
    }

    /** @param {View} view */
    drawWaits({ state, waits }) {
        say(
            this.intro,
            waits.length
                ? "What is not finished, where it is, and what it waits for."
                : "Nothing waits.",
        );
        keep(
            this.body,
            grouped(state.network, waits),
            (it) => `${it.what}`,
            () => h(
                "div",
                { class: "wait" },
                h("h3"),
                h("p", { class: "where" }),
                h("p", { class: "for" }),
                h("div", { class: "cures" }),
            ),
            (element, it) => {
                const [what, where, why, cures] = element.children;
                say(what, capital(it.what));
                say(where, `${it.where} ${it.copies}`.trim());
                where.hidden = !it.where;
                sayWithCode(why, `waits for: ${it.for}`.replace(/^waits for: nothing of it/, "nothing of it"));
                element.classList.toggle("bad", it.bad);
                keep(
                    cures,
                    [
                        ...(it.cures.length && (it.bad || it.cures[0].startsWith("take")) ? it.cures : []),
                        ...(it.flow && it.count === 1 ? [`follow ${it.flow}`] : []),
                    ],
                    (line) => line,
                    (line) => (
                        line.startsWith("follow ")
                            ? h(
                                "button",
                                { type: "button", onclick: () => this.does.follow(line.slice(7)) },
                                "Follow it",
                            )
                            : h(
                                "button",
                                { class: "cure", type: "button", onclick: () => this.does.add([line], line) },
                                h("code", {}, line),
                            )
                    ),
                );
            },
        );
    }

    /** @param {View} view */
    drawDistances({ history, state, before, to, position, hidden }) {
        const { network } = state;
        if (network.plain) return this.nothing("Plain mailboxes have no IMPs, so there are no distances.");
        const columns = network.sites.length <= 9
            ? network.sites.map((site) => site.number)
            : [to || network.sites[0].number];
        say(
            this.intro,
            network.sites.length <= 9
                ? "The distances that each IMP announces. Choose a column to colour the map."
                : "The distances that each IMP announces. Tap an IMP on the map to choose another one.",
        );
        const changed = before ? changedWays(before, state) : new Set();
        let table = this.body.querySelector("table.distances");
        if (!table) {
            table = h("table", { class: "distances" }, h("thead", {}, h("tr")), h("tbody"));
            this.body.replaceChildren(table, h("figure", { class: "staircase" }));
        }
        const [head, rows] = [table.querySelector("tr"), table.querySelector("tbody")];
        if (head && rows) {
            keep(
                head,
                [0, ...columns],
                (imp) => `to ${imp}`,
                (imp) => (
                    imp
                        ? h(
                            "th",
                            { scope: "col" },
                            h(
                                "button",
                                { type: "button", class: "column", onclick: () => this.does.choose(imp) },
                                `→ ${siteName(network, imp)}`,
                            ),
                        )
                        : h("th", { scope: "col" }, "at")
                ),
                (element, imp) => element.firstElementChild
                    && set(element.firstElementChild, { "aria-pressed": imp === to ? "true" : "false" }),
            );
            keep(
                rows,
                network.sites.map((site) => site.number),
                (imp) => `at ${imp}`,
                (imp) => h(
                    "tr",
                    {},
                    h("th", { scope: "row" }, siteName(network, imp)),
                    ...columns.map(() => h("td", {}, h("b"), h("small"))),
                ),
                (element, imp) => columns.forEach(
                    (column, place) => this.distance(
                        element.children[place + 1],
                        state,
                        imp,
                        column,
                        to,
                        changed.has(`${imp} ${column}`),
                    ),
                ),
            );
        }
        const figure = this.body.querySelector(".staircase");
        if (figure) staircase(figure, history, to || columns[0], position, hidden);
    }

    /**
     * @param {Element} cell
     * @param {State} state
     * @param {number} imp
     * @param {number} to
     * @param {number} chosen
     * @param {boolean} isChanged
     */
    distance(cell, state, imp, to, chosen, isChanged) {
        const way = state.way(imp, to);
        const isUp = state.imp(imp) !== null;
        cell.classList.toggle("chosen", to === chosen);
        cell.classList.toggle("changed", isChanged);
        cell.classList.toggle("nowhere", !isUp || way.distance === FAR);
        say(cell.children[0], !isUp ? "down" : way.distance === FAR ? "no route" : String(way.distance));
        say(cell.children[1], isUp && way.line >= 0 && way.distance < FAR ? ` line ${way.line}` : "");
    }

    /** @param {string} why */
    nothing(why) {
        say(this.intro, why);
        this.body.replaceChildren();
    }

    /** @param {View} view */
    drawInside({ state }) {
        const { network } = state;
        if (network.plain) return this.drawBoxes(state);
        say(
            this.intro,
            "What each IMP holds, and what is on the lines. A channel keeps a packet until it is acknowledged.",
        );
        const parts = [
            ...network.sites.map(
                ({ number }) => (
                    {
                        key: `imp ${number}`,
                        title: siteName(network, number),
                        part: /** @type {Part} */ ({ kind: "imp", imp: number }),
                        items: impItems(state, number),
                    }
                ),
            ),
            ...network.lines.flatMap((_, line) =>
                /** @type {const} */ (["+", "-"]).map((way) => ({
                    key: `line ${line} ${way}`,
                    title: wayOf(network, line, way).map((imp) => siteName(network, imp)).join(" → "),
                    part: /** @type {Part} */ ({ kind: "line", line }),
                    items: state.line(line)[way].map(
                        (frame, place) => (
                            {
                                kind: frame.packet ? frame.packet.kind : frame.routes ? "routes" : "ack",
                                text: frame.packet
                                    ? `${packetName(network, frame.packet)}`
                                    : frame.routes
                                    ? "distances"
                                    : "acknowledgement",
                                part: /** @type {Part} */ ({ kind: "frame", line, way, place }),
                            }
                        ),
                    ),
                })),
            ).filter((it) => it.items.length),
        ];
        keep(
            this.body,
            parts,
            (it) => it.key,
            (it) => h(
                "section",
                { class: "held" },
                h(
                    "h3",
                    {},
                    h(
                        "button",
                        {
                            type: "button",
                            class: "plain",
                            onclick: (/** @type {Event} */ event) => this.does.tap(
                                it.part,
                                /** @type {Element} */ (event.currentTarget),
                            ),
                        },
                        it.title,
                    ),
                ),
                h("ul"),
            ),
            (element, it) => this.items(element.querySelector("ul"), it.items),
        );
    }

    /**
     * @param {Element} list
     * @param {{kind: string, text: string, part?: Part}[]} items
     */
    items(list, items) {
        keep(
            list,
            items.map((it, place) => ({ ...it, place })),
            (it) => `${it.place} ${it.kind} ${it.text}`,
            (it) => {
                const { part } = it;
                return h(
                    "li",
                    { class: `kind ${it.kind}` },
                    part
                        ? h(
                            "button",
                            {
                                type: "button",
                                class: "plain",
                                onclick: (/** @type {Event} */ event) => this.does.tap(
                                    part,
                                    /** @type {Element} */ (event.currentTarget),
                                ),
                            },
                            it.text,
                        )
                        : it.text,
                );
            },
        );
        if (items.length === 0) list.replaceChildren(h("li", { class: "none" }, "nothing"));
    }

    /** @param {State} state */
    drawBoxes(state) {
        say(this.intro, "What waits in each host's mailbox, the oldest first.");
        const { network } = state;
        keep(
            this.body,
            network.hosts,
            (host) => host,
            (host) => h("section", { class: "held" }, h("h3", {}, capital(hostName(network, host))), h("ul")),
            (element, host) => {
                const box = state.box(host);
                const items = [
                    ...(box?.answers ?? []).map(
                        (it) => ({ kind: it.kind, text: `${ANSWERS[it.kind]} for ${messageName(network, it.flow)}` }),
                    ),
                    ...(box?.messages ?? []).map((it) => ({ kind: "data", text: messageName(network, it.flow) })),
                ];
                this.items(element.querySelector("ul"), items);
            },
        );
    }

    /** @param {View} view */
    drawHosts({ state, before, talk, earlier }) {
        const { network } = state;
        say(
            this.intro,
            network.raw
                ? "Hosts, and messages without an answer."
                : "Hosts, and what their programs and services hold. What this step changed is framed.",
        );
        keep(
            this.body,
            network.hosts,
            (host) => host,
            () => h("section", { class: "host-row" }, h("h3"), h("p", { class: "soft" }), h("div")),
            (element, host) => {
                const [title, told, groups] = element.children;
                const name = hostName(network, host);
                say(title, `${capital(name)}${name === `host ${host}` ? "" : ` (${host})`}`);
                const runs = network.strangers.includes(host) ? ["a stranger, which runs no program"] : [];
                say(told, [state.isUp(host) ? "up" : "down", ...runs, ...openWords(network, talk, host)].join(" · "));
                const were = before && earlier ? groupsOf(before, earlier, host) : null;
                keep(
                    groups,
                    groupsOf(state, talk, host),
                    (it) => it.key,
                    () => h("section", { class: "holds" }, h("h4"), h("dl")),
                    (group, it) => drawGroup(group, it, were),
                );
            },
        );
    }
}

/**
 * A host's messages that have no answer.
 *
 * @param {import("../topology.js").Network} network
 * @param {Talk} talk
 * @param {string} host
 */
function openWords(network, talk, host) {
    const open = [...talk.messages.values()].filter((it) => it.flow.startsWith(`${host} `));
    return open.map(({ flow, taken }) => {
        const [, to, link] = flow.split(" ");
        const state = taken ? "no answer yet, though taken" : "no answer yet";
        return `${state}: to ${hostName(network, to)} on link ${link}`;
    });
}

/**
 * A group of cells; those that are not as they were are marked.
 *
 * @param {Element} element
 * @param {import("../programs.js").Group} group
 * @param {import("../programs.js").Group[] | null} were
 */
function drawGroup(element, { key, title, cells }, were) {
    const [head, list] = element.children;
    say(head, title);
    const old = new Map(were?.find((it) => it.key === key)?.cells ?? []);
    keep(
        list,
        cells,
        ([name]) => name,
        ([name]) => h("div", {}, h("dt", {}, name), h("dd")),
        (cell, [name, text]) => {
            say(cell.children[1], text);
            cell.classList.toggle("changed", were !== null && old.get(name) !== text);
        },
    );
}

/**
 * @param {State} state
 * @param {number} number
 */
function impItems(state, number) {
    const { network } = state;
    if (!state.imp(number)) return [{ kind: "off", text: "down: it holds nothing" }];
    return state.heldBy(number).map(({ packet, flow, number: of, place }) => {
        const what = packet ? packetName(network, packet) : messageName(network, flow, of);
        return { kind: packet?.kind ?? "data", text: `${placeWords(state, number, flow, place)}: ${what}` };
    });
}

/**
 * Where something is in an IMP.
 *
 * @param {State} state
 * @param {number} number
 * @param {string} flow
 * @param {import("../state.js").Place} place
 */
function placeWords({ network }, number, flow, place) {
    switch (place.at) {
        case "store":
            return "in the store";
        case "channel":
            return `channel ${place.channel} to ${siteName(network, farEnd(network, place.line, number))}`;
        case "slot":
            return "in a slot";
        case "host":
            return `waits for ${hostName(network, flow.split(" ")[1])}`;
        case "line":
            return "on a line";
    }
}

/**
 * Distances to an IMP over time, as a staircase: what counts to infinity is seen to count.
 *
 * @param {Element} figure
 * @param {History} history
 * @param {number} to
 * @param {number} position
 * @param {boolean} hidden
 */
function staircase(figure, history, to, position, hidden) {
    const { network } = history;
    const others = network.sites.map((site) => site.number).filter((imp) => imp !== to).slice(0, 6);
    const key = `${to} ${history.length} ${figure.clientWidth}`;
    const [width, height] = [Math.max(figure.clientWidth, 260), 150];
    const [left, right, top, bottom] = [44, width - 10, 24, height - 20];
    const x = (/** @type {number} */ at) => left + ((right - left) * at) / Math.max(history.length, 1);
    if (figure.getAttribute("data-of") !== key) {
        figure.setAttribute("data-of", key);
        const steps = distancesOverTime(history, to, others);
        const most = Math.max(
            3,
            ...steps.flatMap((it) => it.steps.map((step) => step.distance).filter((it) => it < FAR)),
        );
        const y = (/** @type {number} */ distance) => (
            distance >= FAR ? top : bottom - ((bottom - top - 12) * distance) / most
        );
        const ticks = [0, Math.round(most / 2), most];
        const svg = s(
            "svg",
            {
                viewBox: `0 0 ${width} ${height}`,
                role: "img",
                "aria-label": `Distances to ${siteName(network, to)} over time`,
            },
        );
        svg.append(
            ...[...ticks.map((tick) => ({ at: y(tick), text: String(tick) })), { at: top, text: "no route" }].flatMap(
                ({ at, text }) => [
                    s("line", { class: "grid", x1: left, x2: right, y1: at, y2: at }),
                    s("text", { class: "tick", x: left - 6, y: at + 4 }, text),
                ],
            ),
            ...steps.map(
                ({ steps }, place) => s(
                    "path",
                    {
                        class: `stairs s${place}`,
                        d: steps.map((step, at) => stair(at, x(step.at), y(step.distance))).join("") + `H${right}`,
                    },
                ),
            ),
            ...steps.map(
                ({ imp }, place) => s(
                    "text",
                    {
                        class: `stairs-name s${place}`,
                        x: left + ((right - left) * place) / Math.max(steps.length, 1),
                        y: 12,
                    },
                    `${["━", "╍", "┅", "┉", "─", "╌"][place]} ${siteName(network, imp)}`,
                ),
            ),
            s("rect", { class: "veil", x: left, y: top - 6, width: 0, height: bottom - top + 12 }),
            s("line", { class: "now", x1: left, x2: left, y1: top - 6, y2: bottom + 4 }),
            s(
                "text",
                { class: "tick axis", x: right, y: height - 4 },
                `distance to ${siteName(network, to)}, over time`,
            ),
        );
        figure.replaceChildren(svg);
    }
    const now = figure.querySelector(".now");
    const veil = figure.querySelector(".veil");
    if (now) set(now, { x1: x(position), x2: x(position) });
    if (veil) set(veil, { x: x(position), width: hidden ? right - x(position) + 2 : 0 });
}

/**
 * A step of a staircase in a path: to the right, and then up or down. The first one only begins.
 *
 * @param {number} place
 * @param {number} x
 * @param {number} y
 */
function stair(place, x, y) {
    return place ? `H${x.toFixed(1)}V${y.toFixed(1)}` : `M${x.toFixed(1)} ${y.toFixed(1)}`;
}

/**
 * @param {History} history
 * @param {number} to
 * @param {number[]} imps
 */
function distancesOverTime(history, to, imps) {
    const found = imps.map((imp) => ({ imp, steps: [{ at: 0, distance: history.at(0).way(imp, to).distance }] }));
    history.replay.moments.forEach((moment, at) => {
        if (!moment.parts.some(([name]) => name.startsWith("imp "))) return;
        const state = history.at(at + 1);
        for (const it of found) {
            if (!moment.parts.some(([name]) => name === `imp ${it.imp}`)) continue;
            const { distance } = state.way(it.imp, to);
            if (distance !== it.steps[it.steps.length - 1].distance) it.steps.push({ at: at + 1, distance });
        }
    });
    return found;
}

