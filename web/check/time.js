/**
 * Measures runs of the module: node web/check/time.js MODULE ROUNDS FILE..
 *
 * It prints a line for each file: the least processor time of the rounds in milliseconds, and how many octets were
 * printed. Compiling is part of a first round, and what the engine makes faster meanwhile serves the later ones, as in
 * a page.
 */

import { readFileSync } from "node:fs";

import { runModule } from "../run/program.js";

const [path, rounds, ...files] = process.argv.slice(2);
const module = new WebAssembly.Module(readFileSync(path));
for (const file of files) {
    const input = readFileSync(file);
    let best = Infinity;
    let printed = 0;
    for (let round = 0; round < Number(rounds); round++) {
        printed = 0;
        const began = process.cpuUsage();
        const status = runModule(module, [], input, (_, octets) => void (printed += octets.length));
        const { user, system } = process.cpuUsage(began);
        if (status !== 0) throw new Error(`${file}: status ${status}`);
        best = Math.min(best, (user + system) / 1000);
    }
    console.log(`${best.toFixed(2)} ${printed}`);
}
