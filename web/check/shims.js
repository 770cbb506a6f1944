/**
 * Tries what the program has in place of a C library, against models: node web/check/shims.js SHIMS SMALL
 *
 * SHIMS is a module of tools/wasm/*.c alone, with all their functions exported, and SMALL the same with little memory.
 * The heap is held up to a list of its blocks and of what was written there, products, shifts and quotients to
 * JavaScript's integers of any size, and reads, writes and words to what the page gave.
 */

import assert from "node:assert/strict";
import { readFileSync } from "node:fs";

import { chance } from "./chance.js";

const SCRATCH = 64; // an address in the stack's last part, where nothing is
const SEEDS = 4;
const CALLS = 4_000; // for each seed
const MOST_BLOCKS = 150;

/** @typedef {Record<string, (...values: any[]) => any> & {memory: WebAssembly.Memory}} Shims */
/** @typedef {{at: number, size: number, fill: number}} Block */

/** What the page gives in these tries. */
const page = {
    read: (/** @type {number} */ descriptor, /** @type {bigint} */ address, /** @type {bigint} */ count) => (
        descriptor === 0 ? count - 1n : -1n
    ),
    write: (/** @type {number} */ descriptor, /** @type {bigint} */ address, /** @type {bigint} */ count) => (
        descriptor === 1 ? count - 2n : -1n
    ),
    arg: (/** @type {bigint} */ index) => (index === 0n ? 7n : -1n),
};

/**
 * @param {string} path
 * @returns {Shims}
 */
function opened(path) {
    const instance = new WebAssembly.Instance(new WebAssembly.Module(readFileSync(path)), { env: page });
    return /** @type {Shims} */ (/** @type {unknown} */ (instance.exports));
}

// ---- the heap

/** The octet that stands at a place of a block. */
const octet = (/** @type {Block} */ block, /** @type {number} */ place) => (block.fill + place * 7) & 255;

/** The heap as its callers see it, beside the real one. */
class Heap {
    /** @param {Shims} shims */
    constructor(shims) {
        this.shims = shims;
        /** @type {Block[]} */
        this.blocks = [];
        this.fills = 0;
        this.refused = 0;
    }

    /** The memory from an address on. */
    memory(/** @type {number} */ at, /** @type {number} */ size) {
        return new Uint8Array(this.shims.memory.buffer, at, size);
    }

    /** What a call of the heap answered. */
    answer() {
        const view = new DataView(this.shims.memory.buffer);
        return { ok: view.getBigUint64(SCRATCH, true), at: Number(view.getBigUint64(SCRATCH + 8, true)) };
    }

    /** Writes to a block, so that it can be told from all others. */
    fill(/** @type {Block} */ block, from = 0) {
        const memory = this.memory(block.at, block.size);
        for (let place = from; place < block.size; place++) memory[place] = octet(block, place);
    }

    /** The first `size` octets of a block have to be what was written there. */
    check(/** @type {Block} */ block, size = block.size) {
        const memory = this.memory(block.at, size);
        for (let place = 0; place < size; place++) {
            if (memory[place] !== octet(block, place)) {
                assert.fail(`octet ${place} of a block of ${block.size} at ${block.at} was overwritten`);
            }
        }
    }

    /** A new block has to be aligned and apart from all others. */
    place(/** @type {Block} */ block) {
        assert.equal(block.at % 16, 0, "a block is not aligned");
        assert(block.at + block.size <= this.shims.memory.buffer.byteLength, "a block ends after the memory");
        for (const other of this.blocks) {
            const apart = other === block || block.at + block.size <= other.at || other.at + other.size <= block.at;
            assert(apart, `a block of ${block.size} at ${block.at} overlaps one of ${other.size} at ${other.at}`);
        }
    }

    allocate(/** @type {number} */ size, /** @type {number} */ align) {
        this.shims.rattle_alloc(BigInt(SCRATCH), BigInt(size), BigInt(align));
        const { ok, at } = this.answer();
        if (ok !== 1n) return this.refuse(ok);
        const block = { at, size: size || align, fill: this.fills++ };
        this.place(block);
        this.blocks.push(block);
        this.fill(block);
    }

    resize(/** @type {Block} */ block, /** @type {number} */ size) {
        this.shims.rattle_realloc(BigInt(SCRATCH), BigInt(block.at), BigInt(block.size), BigInt(size), 8n);
        const { ok, at } = this.answer();
        if (ok !== 1n) {
            this.check(block);
            return this.refuse(ok);
        }
        const kept = Math.min(block.size, size || 8);
        block.at = at;
        block.size = size || 8;
        this.place(block);
        this.check(block, kept);
        this.fill(block, kept);
    }

    free(/** @type {number} */ index) {
        const [block] = this.blocks.splice(index, 1);
        this.check(block);
        this.shims.rattle_dealloc(BigInt(block.at));
    }

    refuse(/** @type {bigint} */ ok) {
        assert.equal(ok, 0n, "the heap answers neither yes nor no");
        this.refused += 1;
    }

    checkAll() {
        for (const block of this.blocks) this.check(block);
    }
}

/**
 * A size: mostly a small one, sometimes a large one, and none at all.
 *
 * @param {(below: number) => number} some
 */
function size(some) {
    const kind = some(20);
    if (kind === 0) return 0;
    return kind < 12 ? some(100) : kind < 18 ? some(5_000) : kind < 19 ? some(70_000) : some(700_000);
}

/**
 * Calls the heap in random order, and answers how many calls it refused.
 *
 * @param {string} path
 * @param {number} seed
 */
function tryHeap(path, seed) {
    const heap = new Heap(opened(path));
    const some = chance(seed);
    for (let call = 0; call < CALLS; call++) {
        const index = some(heap.blocks.length);
        const kind = heap.blocks.length === 0 ? 0 : heap.blocks.length === MOST_BLOCKS ? 2 : some(3);
        if (kind === 0) heap.allocate(size(some), 1 << some(5));
        else if (kind === 1) heap.resize(heap.blocks[index], size(some));
        else heap.free(index);
        if (call % 500 === 0) heap.checkAll();
    }
    while (heap.blocks.length > 0) heap.free(heap.blocks.length - 1);
    return heap.refused;
}

/** Sizes that no memory has are refused, and the heap goes on. */
function tryGreatSizes(/** @type {string} */ path) {
    const heap = new Heap(opened(path));
    heap.allocate(100, 8);
    for (const great of [2 ** 32 - 1, 2 ** 32, 2 ** 40, 2 ** 46, 2 ** 46 + 1, 2 ** 53]) {
        heap.allocate(great, 8);
        heap.resize(heap.blocks[0], great);
    }
    heap.shims.rattle_alloc(BigInt(SCRATCH), 2n ** 63n - 1n, 8n);
    assert.equal(heap.answer().ok, 0n);
    assert.equal(heap.refused, 12);
    heap.allocate(100, 8);
    assert.equal(heap.blocks.length, 2);
    heap.checkAll();
}

// ---- products, shifts and quotients

/** A number of 64 bits, often one at an edge. */
function word(/** @type {(below: number) => number} */ some) {
    const edges = [0n, 1n, 2n ** 32n - 1n, 2n ** 32n, 2n ** 63n, 2n ** 64n - 1n];
    if (some(4) === 0) return edges[some(edges.length)];
    return (BigInt(some(2 ** 32)) << 32n) | BigInt(some(2 ** 32));
}

function tryWide(/** @type {Shims} */ shims) {
    const some = chance(1);
    const mask = 2n ** 128n - 1n;
    const view = () => new DataView(shims.memory.buffer);
    const answer = () => (view().getBigUint64(SCRATCH + 8, true) << 64n) | view().getBigUint64(SCRATCH, true);
    for (let round = 0; round < 20_000; round++) {
        const [low, high, otherLow, otherHigh] = [word(some), word(some), word(some), word(some)];
        const value = (high << 64n) | low;
        shims.__multi3(BigInt(SCRATCH), low, high, otherLow, otherHigh);
        assert.equal(answer(), (value * ((otherHigh << 64n) | otherLow)) & mask, "a product");
        const by = round % 128;
        shims.__ashlti3(BigInt(SCRATCH), low, high, by);
        assert.equal(answer(), (value << BigInt(by)) & mask, `a shift to the left by ${by}`);
        shims.__lshrti3(BigInt(SCRATCH), low, high, by);
        assert.equal(answer(), value >> BigInt(by), `a shift to the right by ${by}`);
        const divisor = (otherHigh << 64n) | otherLow || 1n;
        const kept = divisor >> BigInt(some(129)) || divisor;
        shims.__udivti3(BigInt(SCRATCH), low, high, BigInt.asUintN(64, kept), kept >> 64n);
        assert.equal(answer(), value / kept, "a quotient");
    }
}

// ---- the system

function trySystem(/** @type {Shims} */ shims) {
    const at = BigInt(SCRATCH);
    shims.rattle_set_errno(5);
    assert.equal(shims.read(0, at, 10n), 9n);
    assert.equal(shims.write(1, at, 10n), 8n);
    assert.equal(shims.__write(1, at, 3n), 1n);
    assert.equal(shims.rattle_errno(), 5, "a call that succeeds leaves the error as it was");
    assert.equal(shims.read(3, at, 10n), -1n);
    assert.equal(shims.rattle_errno(), 9);
    shims.rattle_set_errno(0);
    assert.equal(shims.write(0, at, 10n), -1n);
    assert.equal(shims.rattle_errno(), 9);
    assert.equal(shims.lseek(0, 0n, 1), -1n);
    assert.equal(shims.rattle_errno(), 29);
    assert.equal(shims.open(at, 0, at), -1);
    assert.equal(shims.rattle_errno(), 2, "no name is that of a file");
    assert.equal(shims.close(3), -1);
    assert.equal(shims.rattle_errno(), 9);
    assert.equal(shims.rattle_arg(0n, at, 8n), 7n);
    assert.equal(shims.rattle_arg(0n, at, 7n), 7n);
    assert.equal(shims.rattle_arg(0n, at, 6n), -2n, "a word that doesn't fit");
    assert.equal(shims.rattle_arg(1n, at, 8n), -1n, "a word that isn't there");
    assert.equal(shims.rattle_env(at, at, 8n), -1n);
    assert.equal(shims.rattle_env_at(0n, at, 8n), -1n);
    assert.equal(shims.__sysv_signal(13, 1n), 0n);
}

const [shims, small] = process.argv.slice(2);
trySystem(opened(shims));
tryWide(opened(shims));
tryGreatSizes(shims);
for (let seed = 1; seed <= SEEDS; seed++) assert(tryHeap(small, seed) > 0, "the heap never ran out of memory");
for (let seed = 1; seed <= SEEDS; seed++) {
    assert.equal(tryHeap(shims, seed), 0, "the heap refused a call though there is memory");
}
const calls = `${2 * SEEDS * CALLS} calls of the heap, 80000 products, shifts and quotients`;
console.log(`shims: ${calls}, reads, writes and words: as the models`);
