/** Starts the workbench with the program and the examples in the page. */

import { TABLE } from "../../python/dorydate/sentences/table.mjs";
import { embedded, examplesInPage } from "../run/embedded.js";
import { block, unpackedText } from "../run/packed.js";
import { Workbench } from "./app.js";
import { readChronology } from "./chronology.js";
import { arranged, opened } from "./lessons.js";
import { lacking, wanting } from "./lacking.js";
import { follow, sessionOf } from "./live.js";
import { byId, say } from "./view/dom.js";
import { Source } from "./view/saving.js";

async function start() {
    const source = new Source();
    const lacks = lacking(globalThis);
    if (lacks.length) throw new Error(wanting(lacks));
    const { runner, note } = await embedded();
    byId("unproved").hidden = note.proved;
    const proved = note.proved ? "proved" : "built without proofs";
    byId("unproved").title = TABLE.words["not proved"];
    const sources = note.sources.slice(0, 12);
    const words = `The program in this page is arpasim as WebAssembly, ${proved}. Sources ${sources}.`;
    const session = sessionOf(document);
    say(byId("note"), `${words} ${session ? "It follows a session, and asks only there." : "The page makes no request."}`);
    const examples = await examplesInPage();
    const inputs = [...opened(JSON.parse(block("opened")), examples), ...arranged(examples)];
    const years = readChronology(await unpackedText(block("chronology")));
    const bench = new Workbench(runner, inputs, years, source);
    if (session) follow(bench, session);
    else await bench.begin();
    document.documentElement.dataset.ready = "yes";
}

start().catch((why) => say(byId("sentence"), why instanceof Error ? why.message : String(why)));
