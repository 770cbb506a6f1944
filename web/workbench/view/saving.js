/** The page as a file that opens with the script that is here. */

import { saveText } from "./files.js";

const [START, END] = ['<script type="application/json" id="opened">', "<\/script>"];

/** @typedef {{title: string, text: string, at: number}} Opens */

/** The page as it came, before its script changed it. */
export class Source {
    constructor() {
        this.text = `<!doctype html>\n${document.documentElement.outerHTML}\n`;
    }

    /**
     * Saves the page so that it opens with a script at a step.
     *
     * @param {Opens} opens
     * @param {string} name
     */
    save(opens, name) {
        const at = this.text.indexOf(START);
        const end = this.text.indexOf(END, at);
        const spelled = JSON.stringify([opens]).replace(/</g, "\\u003c");
        saveText(this.text.slice(0, at) + START + spelled + this.text.slice(end), name, "text/html");
    }
}
