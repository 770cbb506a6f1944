/** The legend of a map: the signs that this network can show, each explained by a tap. */

import { TABLE } from "../../../python/dorydate/sentences/table.mjs";
import { byId, h, s } from "./dom.js";
import { legendSign } from "./signs.js";
import { termOf } from "./terms.js";

/** @typedef {import("../topology.js").Network} Network */

const WORDS = /** @type {{[sign: string]: string}} */ (TABLE.legend);
/** Of each sign the word that explains it. */
const TERMS = /** @type {{[sign: string]: string}} */ ({
    "arcs": "message",
    "arcs taken": "message",
    "number": "message",
    "ring": "stranger",
    "data": "packet",
    "rfnm": "RFNM",
    "dead": "Dead",
    "ask": "question",
    "routes": "distance",
    "ack": "acknowledgement",
    "claims": "distance",
});
const OF_PLAIN = ["arcs", "arcs taken", "number"];
const OF_SUBNET = ["data", "rfnm", "dead", "ask", "routes", "ack"];

/**
 * Fills the legend.
 *
 * @param {Network} network
 * @param {import("../script.js").Input} input
 */
export function drawLegend(network, { events }) {
    const further = [
        ...(network.strangers.length ? ["ring"] : []),
        ...(events.some(({ words }) => words[0] === "claim") ? ["claims"] : []),
    ];
    const signs = [...(network.plain ? OF_PLAIN : OF_SUBNET), ...further];
    byId("legend").replaceChildren(...signs.map((it) => termOf(TERMS[it], signOf(it), WORDS[it])), h("span", {}, WORDS.tap));
}

/**
 * @param {string} sign
 * @returns {Element}
 */
function signOf(sign) {
    const box = { viewBox: "-10 -10 20 20", class: `key ${sign}`, "aria-hidden": "true" };
    if (sign.startsWith("arcs")) return s("svg", box, s("path", { class: "sign", d: sign === "arcs" ? "M-9 5 Q0 -9 9 5" : "M-9 6 Q0 -8 9 6" }));
    if (sign === "claims") return s("svg", box, s("rect", { x: -8, y: -5, width: 16, height: 10, rx: 2 }));
    if (sign === "ring") return s("svg", box, s("circle", { r: 7 }));
    if (sign === "number") return s("svg", box, s("circle", { r: 7 }));
    return legendSign(sign);
}
