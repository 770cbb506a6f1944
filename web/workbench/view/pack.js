/** What a teacher takes along: sheets of paper, slides, codes, and the page with its script as an address or as a file. */

import { TABLE } from "../../../python/dorydate/sentences/table.mjs";
import { headComment } from "../script.js";
import { fragment } from "../share.js";
import { byId } from "./dom.js";
import { saveText } from "./files.js";
import { fillHandout } from "./handout.js";
import { openMarks } from "./marks.js";
import { slidesOf } from "./slides.js";

/** @typedef {import("../app.js").Workbench} Workbench */

const WORDS = TABLE.sharing;

/** The pack of one page. */
export class Pack {
    /**
     * @param {Workbench} bench
     * @param {import("./saving.js").Source} source
     */
    constructor(bench, source) {
        this.bench = bench;
        this.source = source;
        /** @type {import("./handout.js").Paper["kind"]} */
        this.kind = "handout";
    }

    /**
     * What each button does, by its id.
     *
     * @returns {{[id: string]: () => void}}
     */
    presses() {
        const { bench } = this;
        const print = (/** @type {import("./handout.js").Paper["kind"]} */ kind) => {
            this.kind = kind;
            window.print();
        };
        return {
            "share": () => void this.share(),
            "save": () => saveText(bench.text, `${bench.example || "script"}.txt`),
            "save-page": () => this.savePage(),
            "print": () => print("handout"),
            "worksheet": () => print("worksheet"),
            "answers": () => print("answers"),
            "slides": () => void this.slides(),
            "codes": () => openMarks(),
        };
    }

    /** Fills the sheets of paper: the list of lessons if it is open, else the script. */
    print() {
        const { history, index, hidden, position } = this.bench;
        const sheet = byId("handout");
        if (index.isOpen()) return sheet.replaceChildren(index.forPaper());
        if (!history) return;
        const until = hidden && this.kind === "handout" ? position : Infinity;
        const intro = headComment(history.replay.input);
        fillHandout(sheet, history, { title: this.bench.title(), intro, kind: this.kind, until });
    }

    printed() {
        this.kind = "handout";
        byId("handout").replaceChildren();
    }

    async slides() {
        const { runner, examples } = this.bench;
        saveText(await slidesOf(runner, examples), "dorydate-hour.html", "text/html");
    }

    savePage() {
        const { bench } = this;
        this.source.save({ title: bench.title(), text: bench.text, at: bench.at() }, `${bench.example || "dorydate"}.html`);
        bench.toast.show(WORDS.saved, null);
    }

    /** Puts the script and the step into the address, and copies it; of a page that is a file it says what works instead. */
    async share() {
        const { bench } = this;
        const isExample = bench.text === bench.examples.find((it) => it.name === bench.example)?.text;
        const { grain, hidden, to } = bench;
        const what = isExample ? { example: bench.example } : { text: bench.text };
        history.replaceState(null, "", await fragment({ ...what, at: bench.at(), grain, hidden, to }));
        if (window.location.protocol === "file:") return bench.toast.show(WORDS.local, () => this.savePage(), true, WORDS.save);
        const address = window.location.href;
        const size = `${address.length} characters`;
        try {
            await navigator.clipboard.writeText(address);
            bench.toast.show(`The address is copied: ${size}. It has the script and this step.`, null);
        } catch {
            bench.toast.show(`The address in the browser's bar has the script and this step: ${size}.`, null);
        }
    }
}
