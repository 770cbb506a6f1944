/** Lines that run side by side are drawn as one at a distance. */

import assert from "node:assert/strict";
import { test } from "node:test";

import { bundled } from "../bundles.js";

/** @type {(x: number, y: number) => {x: number, y: number}} */
const at = (x, y) => ({ x, y });
const [left, besideLeft, right, besideRight, above] = [at(0, 0), at(6, 8), at(100, 0), at(95, 3), at(50, 90)];

/** @type {(a: {x: number, y: number}, b: {x: number, y: number}, isBusy?: boolean) => import("../bundles.js").Course} */
const line = (a, b, isBusy = false) => ({ ends: [a, b], isBusy });

test("lines with both ends near to one another's are one, whichever way they are written", () => {
    const lines = [line(left, right), line(besideLeft, besideRight), line(besideRight, left), line(left, above)];
    assert.deepEqual(bundled(lines, 1), [0, 0, 0, 3]);
});

test("from near they are apart, and one that is down or has a packet always is", () => {
    assert.deepEqual(bundled([line(left, right), line(besideLeft, besideRight)], 4), [0, 1]);
    assert.deepEqual(bundled([line(left, right), line(besideLeft, besideRight, true), line(left, besideRight)], 1), [0, 1, 0]);
    assert.deepEqual(bundled([line(left, right, true), line(besideLeft, besideRight)], 1), [0, 1]);
});
