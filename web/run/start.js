/** Unpacks the code of a page and runs it. */

import { block, unpackedText } from "./packed.js";

const TOO_OLD = "This page wants a browser of 2023 or later.";

/** Runs the code, as an element that is gone again at once: the page stays as it came, so that it can be saved. */
async function start() {
    const script = document.createElement("script");
    script.type = "module";
    script.textContent = await unpackedText(block("code"));
    document.body.append(script);
    script.remove();
}

start().catch(() => {
    const said = document.getElementById("sentence") ?? document.getElementById("said");
    if (said) said.textContent = TOO_OLD;
});
