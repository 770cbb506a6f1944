/** The box for what a stranger sends: to whom, on which link, and what, in commands or octets. */

import { EXAMPLES, textOfWords } from "../spoken.js";
import { saying } from "../texts.js";
import { hostName } from "../topology.js";
import { capital } from "../words.js";
import { h, say, set } from "./dom.js";

/** @typedef {import("../topology.js").Network} Network */

/**
 * The box of a stranger. What is typed is read at each change: below is what it says, or why it is nothing.
 *
 * @param {Network} network
 * @param {string} host
 * @param {(line: string, words: string) => void} send
 * @returns {HTMLElement}
 */
export function sendingBox(network, host, send) {
    const others = network.hosts.filter((it) => it !== host);
    const named = (/** @type {string} */ it) => (
        hostName(network, it) === `host ${it}` ? `host ${it}` : `${hostName(network, it)} (${it})`
    );
    const to = h("select", { id: "send-to" }, ...others.map((it) => h("option", { value: it }, named(it))));
    const link = h("input", { id: "send-link", type: "number", min: 0, max: 255, value: 0, inputmode: "numeric" });
    const words = h("input", {
        ...{ id: "send-words", type: "text", autocomplete: "off", autocapitalize: "none", spellcheck: "false" },
        ...{ placeholder: EXAMPLES[1], list: "send-examples", "aria-describedby": "send-said" },
    });
    const said = h("p", { id: "send-said", role: "status" });
    const button = h("button", { type: "submit" }, "Send");
    const read = () => {
        const found = spoken(value(to), value(link), value(words), host);
        say(said, "why" in found ? found.why : `It says: ${found.said}.`);
        said.classList.toggle("bad", "why" in found);
        set(button, { disabled: "why" in found });
        return found;
    };
    const form = h(
        "form",
        {
            class: "sending",
            oninput: read,
            onsubmit: (/** @type {Event} */ event) => {
                event.preventDefault();
                const found = read();
                if (!("why" in found)) send(found.line, `${capital(hostName(network, host))} says ${found.said}`);
            },
        },
        h("label", { for: "send-to" }, "To"),
        to,
        h("label", { for: "send-link" }, "Link"),
        link,
        h("label", { for: "send-words" }, "Commands, data or octets"),
        words,
        h("datalist", { id: "send-examples" }, ...EXAMPLES.map((it) => h("option", { value: it }))),
        said,
        button,
    );
    read();
    return form;
}

/** @param {HTMLElement} element */
function value(element) {
    return /** @type {HTMLInputElement | HTMLSelectElement} */ (element).value;
}

/**
 * The script's line for what is typed, and what it says; or why it is none.
 *
 * @param {string} to
 * @param {string} link
 * @param {string} words
 * @param {string} host
 * @returns {{line: string, said: string} | {why: string}}
 */
export function spoken(to, link, words, host) {
    if (!/^\d+$/.test(link) || Number(link) > 255) return { why: "A link is a number from 0 to 255." };
    const text = textOfWords(words);
    if ("why" in text) return text;
    const said = saying(false, Number(link), text.bits, text.octets) || "nothing, in an empty message";
    return { line: `out ${host} ${to} ${Number(link)} ${text.bits} ${text.octets}`, said };
}
