import assert from "node:assert/strict";
import { test } from "node:test";

import { Following, sessionOf } from "../live.js";

/** A bench that keeps what it was shown, each after a turn. */
function bench(position = 0, length = 0) {
    return {
        position,
        history: { length },
        /** @type {[string, number][]} */
        shown: [],
        open() {},
        /** @type {(text: string, position: number) => Promise<boolean>} */
        async show(text, at) {
            await new Promise((resolve) => setTimeout(resolve, 1));
            this.shown.push([text, at]);
            return true;
        },
    };
}

test("pieces that come while one is shown are shown together", async () => {
    const it = bench();
    const following = new Following(it);
    await Promise.all([following.hear("a\n", true), following.hear("b\n", false), following.hear("c\n", false)]);
    assert.deepEqual(it.shown.map(([text]) => text), ["a\n", "a\nb\nc\n"]);
});

test("whoever looks at an earlier step stays there, and a late whole replaces all", async () => {
    const it = bench(3, 9);
    const following = new Following(it);
    await following.hear("a\n", true);
    await following.hear("whole\n", true);
    assert.deepEqual(it.shown, [["a\n", 3], ["whole\n", 3]]);
    const atEnd = bench(9, 9);
    await new Following(atEnd).hear("a\n", true);
    assert.deepEqual(atEnd.shown, [["a\n", Number.MAX_SAFE_INTEGER]]);
});

test("a page says by whom it was served", () => {
    const page = (/** @type {string | null} */ content) => /** @type {ParentNode} */ (/** @type {unknown} */ ({
        querySelector: () => content === null ? null : { getAttribute: () => content },
    }));
    assert.equal(sessionOf(page("events")), "events");
    assert.equal(sessionOf(page(null)), null);
});
