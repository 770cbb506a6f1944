/** What of a map is seen: zoom, pan and labels, by rows and by laws over random views. */

import assert from "node:assert/strict";
import { test } from "node:test";

import { chance } from "../../check/chance.js";
import { Viewport } from "../viewport.js";

test("a zoom keeps the point under the hand where it is, within the map", () => {
    const draw = chance(7);
    for (let turn = 0; turn < 500; turn += 1) {
        const port = new Viewport({ width: 400 + draw(1200), height: 200 + draw(600) }, draw(2) * 18);
        port.resize(200 + draw(1000), 100 + draw(700));
        port.look({ x: draw(400), y: draw(200) }, port.least * (1 + draw(50) / 10));
        const at = { x: port.view.x + port.view.width * 0.4, y: port.view.y + port.view.height * 0.6 };
        const seen = () => ({
            x: (at.x - port.middle().x) * port.scale,
            y: (at.y - port.middle().y) * port.scale,
        });
        const before = seen();
        port.zoom(1.2, at);
        const { map, view } = port;
        const isInside = view.width < map.width - 1 && view.height < map.height - 1
            && view.x > map.x + 1 && view.y > map.y + 1
            && view.x + view.width < map.x + map.width - 1 && view.y + view.height < map.y + map.height - 1;
        if (isInside) {
            assert(Math.abs(seen().x - before.x) < 0.01 && Math.abs(seen().y - before.y) < 0.01);
        }
        assert(port.scale >= port.least - 1e-9);
        if (!port.isWhole && view.width < map.width) {
            assert(view.x >= map.x - 1e-6 && view.x + view.width <= map.x + map.width + 1e-6);
        }
    }
});

test("the whole map comes back, and a pan of it moves nothing", () => {
    const port = new Viewport({ width: 1000, height: 500 });
    port.resize(500, 400);
    port.pan(50, 50);
    assert.deepEqual(port.view, { x: 0, y: 0, width: 1000, height: 500 });
    port.zoom(3);
    const { x } = port.view;
    port.pan(30, 0);
    assert(Math.abs(port.view.x - (x - 30 / port.scale)) < 1e-9);
    port.zoom(1 / 3);
    assert(port.isWhole && port.view.width === 1000);
    port.zoom(4);
    port.show({ x: 990, y: 490 });
    const { view } = port;
    assert(view.x + view.width >= 990 && view.y + view.height >= 490);
});
