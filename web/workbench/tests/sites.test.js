/** Names, machines and places of sites, and the map on which they are drawn. */

import assert from "node:assert/strict";
import { test } from "node:test";

import { placed } from "../layout.js";
import { hostName, machineOf, readSite, readTopology } from "../topology.js";
import { exampleText } from "./examples.js";

/** @param {string} name */
function networkOf(name) {
    return readTopology(exampleText(name).split("\n%\n")[0]);
}

test("the comment after a number names the site, its machines and its place", () => {
    const rows = /** @type {[string, string, string[], [number, number] | null][]} */ ([
        ["UCLA", "UCLA", [], null],
        ["UCLA [Sigma 7] @ 34.07 -118.44", "UCLA", ["Sigma 7"], [34.07, -118.44]],
        ["MIT [GE-645, PDP-10]", "MIT", ["GE-645", "PDP-10"], null],
        ["LONDON @ 51.5 0", "LONDON", [], [51.5, 0]],
        ["mail@home", "mail@home", [], null],
        ["", "", [], null],
    ]);
    for (const [comment, name, machines, place] of rows) {
        const [north, east] = place ?? [];
        assert.deepEqual(readSite(comment), { name, machines, place: place ? { north, east } : null }, comment);
    }
});

test("hosts have the names of their machines where a site has several", () => {
    const head = "[[imp]]\nid = 6 # MIT [GE-645, PDP-10]\nhosts = 3\n[[imp]]\nid = 1 # UCLA [Sigma 7]\nhosts = 1";
    const network = readTopology(head);
    assert.deepEqual(
        network.hosts.map((host) => hostName(network, host)),
        ["UCLA", "MIT's GE-645", "MIT's PDP-10", "MIT's host 2/6"],
    );
    assert.equal(machineOf(network, "0/1"), "Sigma 7");
});

test("sites from coast to coast are on the map of the country, west to the left and north above, none on another", () => {
    const network = networkOf("arpanet-of-december-1970");
    const { imps, outline, boxes, width, height } = placed(network);
    assert(outline.length > 40);
    const at = (/** @type {number} */ imp) => imps.get(imp) ?? { x: 0, y: 0 };
    assert(at(1).x < at(4).x && at(4).x < at(13).x && at(13).x < at(6).x, "UCLA, UTAH, CASE, MIT");
    assert(at(4).y < at(1).y, "UTAH is north of UCLA");
    const all = [...imps];
    for (const [a, one] of all) {
        for (const [b, other] of all) {
            const apart = (boxes.get(a)?.w ?? 0) + (boxes.get(b)?.w ?? 0);
            assert(a === b || Math.hypot(one.x - other.x, one.y - other.y) > apart, `${a} on ${b}`);
        }
        assert(one.x > 0 && one.y > 0 && one.x < width && one.y < height, `${a} is beyond the map`);
    }
    assert.equal(placed(networkOf("arpanet-of-december-1969")).outline.length, 0);
});

test("a network that is alike in every direction is placed by its first IMP, and not by how numbers are rounded", () => {
    const { imps } = placed(networkOf("rerouted-over-a-triangle"));
    const [one, two, three] = [1, 2, 3].map((imp) => imps.get(imp) ?? { x: NaN, y: NaN });
    assert(one.x < two.x && Math.abs(two.x - three.x) < 0.5 && Math.abs(two.y + three.y - 2 * one.y) < 0.5);
});
