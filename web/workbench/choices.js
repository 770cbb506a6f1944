/**
 * What can be done to a part of the network that somebody taps: each choice in words, and the script lines that it
 * adds.
 */

import { frameName } from "./sentences.js";
import { farEnd, hostName, impName, impOf, linesOf, machineOf, siteName, wayOf } from "./topology.js";
import { messageName } from "./waits.js";
import { capital } from "./words.js";

/** @typedef {import("./state.js").State} State */
/** @typedef {import("./talk.js").Talk} Talk */

/** The text of a message with RST, by which a stranger makes contact. */
export const RST = "48 00080001000C";

/**
 * @typedef {{kind: "line", line: number}} LinePart
 * @typedef {{kind: "frame", line: number, way: "+" | "-", place: number}} FramePart
 * @typedef {{kind: "imp", imp: number} | {kind: "host", host: string}} SitePart
 * @typedef {LinePart | FramePart | SitePart} Part
 */

/**
 * @typedef {object} Choice
 * @property {string} words
 * @property {string[]} lines what it adds; none where it only colours the map
 * @property {boolean} [asks] whether one is asked first what a stranger sends
 */

/**
 * The name of a part.
 *
 * @param {State} state
 * @param {Part} part
 * @returns {string}
 */
export function partTitle(state, part) {
    const { network } = state;
    switch (part.kind) {
        case "line": {
            const [a, b] = network.lines[part.line];
            return `Line ${part.line}: ${siteName(network, a)} – ${siteName(network, b)}`;
        }
        case "frame": {
            const frame = state.line(part.line)[part.way][part.place];
            if (!frame) return "A frame";
            const where = frame.packet ? ` (channel ${frame.channel}, bit ${frame.bit})` : "";
            if (frame.routes) {
                const told = network.sites.filter(({ number }) => frame.routes?.[number] !== undefined).map(
                    ({ number }) => `${siteName(network, number)} ${frame.routes?.[number]}`,
                );
                const [from] = wayOf(network, part.line, part.way);
                return `Distances of ${siteName(network, from)}: ${told.join(", ") || "none"}`;
            }
            return `${capital(frameName(network, frame))}${where}`;
        }
        case "imp":
            return capital(impName(network, part.imp));
    }
    const machine = machineOf(network, part.host);
    const name = `${capital(hostName(network, part.host))}${machine ? ` (${machine}, host ${part.host})` : ""}`;
    return network.strangers.includes(part.host) ? `${name} (a stranger)` : name;
}

/**
 * What can be done to a part.
 *
 * @param {State} state
 * @param {Talk} talk
 * @param {Part} part
 * @returns {Choice[]}
 */
export function choicesFor(state, talk, part) {
    switch (part.kind) {
        case "line":
            return lineChoices(state, part.line);
        case "frame":
            return frameChoices(part);
        case "imp":
            return impChoices(state, part.imp);
    }
    return hostChoices(state, talk, part.host);
}

/**
 * @param {State} state
 * @param {number} line
 * @returns {Choice[]}
 */
function lineChoices(state, line) {
    const { network } = state;
    const ends = network.lines[line];
    const up = ends.filter((imp) => state.isEndUp(imp, line));
    const down = ends.filter((imp) => state.imp(imp) && !state.isEndUp(imp, line));
    /** @type {Choice[]} */
    const found = [];
    if (up.length === 2) found.push({ words: "Cut the line", lines: ends.map((imp) => `enddown ${imp} ${line}`) });
    if (down.length) {
        found.push({
            words: "Mend the line, both ends reset",
            lines: [
                ...up.map((imp) => `enddown ${imp} ${line}`),
                ...[...up, ...down].sort((a, b) => ends.indexOf(a) - ends.indexOf(b)).map(
                    (imp) => `endup ${imp} ${line}`,
                ),
            ],
        });
    }
    for (const imp of up) {
        found.push({ words: `Only the end at ${siteName(network, imp)} fails`, lines: [`enddown ${imp} ${line}`] });
    }
    if (down.length && up.length) {
        for (const imp of down) {
            found.push({
                words: `Only the end at ${siteName(network, imp)} comes up`,
                lines: [`endup ${imp} ${line}`],
            });
        }
    }
    if (up.length === 2) {
        found.push({
            words: "Reset both ends",
            lines: [...ends.map((imp) => `enddown ${imp} ${line}`), ...ends.map((imp) => `endup ${imp} ${line}`)],
        });
    }
    return found;
}

/**
 * @param {{line: number, way: string, place: number}} frame
 * @returns {Choice[]}
 */
function frameChoices({ line, way, place }) {
    const which = `${line} ${way} ${place}`;
    return [
        { words: "It arrives", lines: [`deliver ${which}`, `drop ${which}`] },
        { words: "It is lost", lines: [`drop ${which}`] },
        { words: "It arrives garbled, and is refused", lines: [`garble ${which}`] },
        { words: "A copy arrives, and it stays on the line", lines: [`deliver ${which}`] },
    ];
}

/**
 * @param {State} state
 * @param {number} imp
 * @returns {Choice[]}
 */
function impChoices(state, imp) {
    const { network } = state;
    const lines = linesOf(network, imp);
    const neighbours = lines.map((line) => ({ line, far: farEnd(network, line, imp) }));
    if (!state.imp(imp)) {
        const resets = neighbours.filter(({ line, far }) => state.isEndUp(far, line)).map(
            ({ line, far }) => `enddown ${far} ${line}`,
        );
        const ups = neighbours.filter(({ far }) => state.imp(far)).map(({ line, far }) => `endup ${far} ${line}`);
        const kept = state.keptFlows().filter(({ flow }) => impOf(flow.split(" ")[0]) === imp);
        const keeping = network.sites
            .filter(({ number }) => kept.some((it) => it.imp === number))
            .map(({ number }) => `forget ${number} ${imp}`);
        const hosts = network.hosts.filter((host) => impOf(host) === imp).map((host) => `hostup ${host}`);
        return [
            {
                words: "It starts, with its hosts and both ends of its lines",
                lines: [...resets, ...keeping, `impup ${imp}`, ...ups, ...hosts],
            },
            { words: "Only the IMP starts", lines: [`impup ${imp}`] },
        ];
    }
    const seen = neighbours.filter(({ line, far }) => state.isEndUp(far, line)).map(
        ({ line, far }) => `enddown ${far} ${line}`,
    );
    return [
        { words: "Colour the map by the distance to it", lines: [] },
        { words: "It stops, and its neighbours see it", lines: [`impdown ${imp}`, ...seen] },
        { words: "It stops, unseen by its neighbours", lines: [`impdown ${imp}`] },
        { words: "It tells its distances", lines: [`route ${imp}`] },
        { words: "It sends again what is not acknowledged", lines: [`resend ${imp}`] },
    ];
}

/**
 * @param {State} state
 * @param {Talk} talk
 * @param {string} host
 * @returns {Choice[]}
 */
function hostChoices(state, talk, host) {
    const { network } = state;
    const isUp = network.raw ? state.isUp(host) : (talk.up.get(host) ?? false);
    if (!isUp) return [{ words: "It starts", lines: [`hostup ${host}`] }];
    /** @type {Choice[]} */
    const found = [{ words: "It takes what waits", lines: [`take ${host}`] }];
    const others = network.hosts.filter((it) => it !== host);
    if (network.raw) {
        for (const other of others.slice(0, 8)) {
            found.push({
                words: `It sends “HI” to ${hostName(network, other)}`,
                lines: [`out ${host} ${other} ${freeLink(talk, host, other)} 16 4849`],
            });
        }
    } else if (network.strangers.includes(host)) {
        found.push({ words: "It sends commands or octets…", lines: [], asks: true });
        for (const other of others.filter((it) => !network.strangers.includes(it)).slice(0, 4)) {
            found.push({ words: `It says RST to ${hostName(network, other)}`, lines: [`out ${host} ${other} 0 ${RST}`] });
        }
    } else {
        found.push({ words: "It offers its next message", lines: [`offer ${host}`] });
        for (const other of others.slice(0, 6)) {
            found.push({ words: `It contacts ${hostName(network, other)}`, lines: [`contact ${host} ${other}`] });
        }
        if (talk.ends.some((end) => end.host === host && end.state === "open")) {
            found.push({ words: "A line is typed at its terminal", lines: [`type ${host} HELLO`] });
        }
    }
    for (const { flow } of talk.messages.values()) {
        if (!flow.startsWith(`${host} `)) continue;
        if (!network.plain) {
            found.push({ words: `It asks what became of ${messageName(network, flow)}`, lines: [`ask ${flow}`] });
        }
        found.push({ words: `${capital(messageName(network, flow))} is given up`, lines: [`giveup ${flow}`] });
    }
    return [...found, { words: "It stops", lines: [`hostdown ${host}`] }];
}

/**
 * A link on which no message is out, 5 if it is free.
 *
 * @param {Talk} talk
 * @param {string} host
 * @param {string} other
 */
function freeLink(talk, host, other) {
    let link = 5;
    while (talk.messages.has(`${host} ${other} ${link}`)) link += 1;
    return link;
}
