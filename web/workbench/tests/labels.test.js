/** Names of a map are put beside their marks: none on another, on a mark, or beyond the frame; and letters grow with the text. */

import assert from "node:assert/strict";
import { test } from "node:test";

import { chance } from "../../check/chance.js";
import { around, crosses, firstFree, putLabels } from "../labels.js";
import { DETAILS, DOTS, placed, widthOf } from "../layout.js";
import { readTopology } from "../topology.js";
import { exampleNames, exampleText } from "./examples.js";

/** @typedef {import("../labels.js").Rect} Rect */

/**
 * Whether two rectangles share more than an edge.
 *
 * @param {Rect} a
 * @param {Rect} b
 */
const isOn = (a, b) => (
    a.x < b.x + b.width - 1e-6 && b.x < a.x + a.width - 1e-6 && a.y < b.y + b.height - 1e-6 && b.y < a.y + a.height - 1e-6
);

test("no label is on another, on a mark or beyond the frame, and a heavier one is never left out for a lighter one", () => {
    const draw = chance(11);
    for (let turn = 0; turn < 60; turn += 1) {
        const frame = { x: 0, y: 0, width: 300 + draw(600), height: 150 + draw(400) };
        const labels = Array.from({ length: 57 }, () => ({
            at: { x: draw(frame.width), y: draw(frame.height) },
            radius: 4,
            width: 20 + draw(60),
            height: 16,
            weight: draw(4),
        }));
        const taken = [around({ x: draw(frame.width), y: draw(frame.height) }, 60, 30)];
        const put = putLabels(labels, frame, taken);
        const rects = put.map((it, place) => (it ? around(it, labels[place].width, labels[place].height) : null));
        const marks = labels.map(({ at, radius }) => around(at, 2 * radius, 2 * radius));
        rects.forEach((rect, place) => {
            if (!rect) return;
            assert(rects.every((other, at) => at === place || !other || !isOn(rect, other)));
            assert(marks.every((mark, at) => at === place || !isOn(rect, mark)));
            assert(taken.every((it) => !isOn(rect, it)));
            assert(rect.x >= 0 && rect.y >= 0 && rect.x + rect.width <= frame.width && rect.y + rect.height <= frame.height);
        });
        const alone = labels.findIndex((it) => it.weight === 3);
        assert(alone < 0 || put[alone] !== null || labels.some((it, place) => put[place] && it.weight === 3));
    }
});

test("a label that is pushed away says so, and one beside its mark does not", () => {
    const label = { at: { x: 100, y: 100 }, radius: 4, width: 40, height: 16, weight: 1 };
    const frame = { x: 0, y: 0, width: 200, height: 200 };
    assert.equal(putLabels([label], frame, [])[0]?.isFar, false);
    const near = around(label.at, 110, 60);
    const [put] = putLabels([label], frame, [near]);
    assert(put?.isFar && !isOn(around(put, 40, 16), near));
    assert.equal(putLabels([label], frame, [around(label.at, 200, 200)])[0], null);
});

test("a line through a rectangle is seen to cross it, and a count has the first place that is free", () => {
    const rect = { x: 10, y: 10, width: 10, height: 10 };
    assert(crosses({ x: 0, y: 15 }, { x: 30, y: 15 }, rect));
    assert(!crosses({ x: 0, y: 0 }, { x: 30, y: 5 }, rect));
    assert(!crosses({ x: 0, y: 15 }, { x: 5, y: 15 }, rect));
    const places = [{ x: 15, y: 15 }, { x: 40, y: 15 }];
    assert.equal(firstFree(places, 8, 8, [rect]), places[1]);
    assert.equal(firstFree(places.slice(0, 1), 8, 8, [rect]), null);
});

/** The rooms for a map at six sizes of a page, about. */
const ROOMS = [[640, 290], [720, 330], [730, 460], [390, 236], [339, 160], [512, 300]];

test("no letter of a map is below 9 pixels, and a larger text never makes one smaller", () => {
    assert([...DETAILS, DOTS].every((it) => Math.min(it.title, it.text) > 9));
    for (const name of exampleNames()) {
        const head = exampleText(name).split("\n%\n")[0];
        const network = (() => {
            try {
                return readTopology(head);
            } catch {
                return null;
            }
        })();
        if (!network) continue;
        for (const [width, height] of ROOMS) {
            let before = { title: 0, text: 0 };
            for (const unit of [1, 1.25, 1.5625]) {
                const { detail, unit: size } = placed(network, { width, height: height - 40 * (unit - 1), unit });
                const now = { title: detail.title * size, text: detail.text * size };
                assert(now.text >= 9 && now.title > before.title && now.text > before.text, `${name} at ${width}x${height}`);
                before = now;
            }
        }
    }
});

test("a name's box has room for its letters, and not for many more", () => {
    // the widths in DejaVu Sans Bold, which has wide letters
    const rows = { ILLINOIS: 4.8, WSMR: 3.59, GWC: 2.66, UCLA: 2.96, BOULDER: 5.34, STANFORD: 6.15, MIT44: 3.44 };
    for (const [name, width] of Object.entries(rows)) {
        assert(Math.abs(widthOf(name) - width) < 0.06 * width + 0.1, `${name}: ${widthOf(name)}, not ${width}`);
    }
});
