/** What the tests, `native.js` and what runs a released module take of Node. Debian's TypeScript brings no types of it. */

interface Emitter {
    on(event: string, heard: (...values: any[]) => void): void;
}

interface Child extends Emitter {
    pid: number;
    stdin: Emitter & { end(octets: Uint8Array): void };
    stdout: Emitter;
    stderr: Emitter;
    stdio: any[];
    kill(signal: string): void;
}

declare module "node:child_process" {
    export function spawn(
        program: string,
        words: string[],
        options?: { stdio: string[]; env?: { [name: string]: string | undefined } },
    ): Child;
    export function spawnSync(program: string, words: string[], options: { input: Uint8Array; maxBuffer: number }): {
        status: number | null;
        stdout: Uint8Array;
        stderr: Uint8Array;
        error?: Error & { code: string };
    };
}

declare module "node:http" {
    interface Answer {
        statusCode: number;
        on(event: "data", heard: (octets: Uint8Array) => void): void;
        on(event: "end", heard: () => void): void;
    }
    export function request(
        asked: { host: string; port: number; method: string; path: string; headers: { [name: string]: number } },
        heard: (answer: Answer) => void,
    ): { on(event: "error", heard: (why: Error) => void): void; end(body: string): void };
}

declare module "node:test" {
    export function test(name: string, body: () => void | Promise<void>): void;
    export function test(name: string, how: { skip: string | false }, body: () => void | Promise<void>): void;
}

declare module "node:assert/strict" {
    interface Assert {
        (holds: unknown, message?: string): asserts holds;
        equal(actual: unknown, expected: unknown, message?: string): void;
        deepEqual(actual: unknown, expected: unknown, message?: string): void;
        fail(message: string): never;
        throws(body: () => unknown, expected?: RegExp | Function): void;
        rejects(body: Promise<unknown>, expected?: RegExp | Function): Promise<void>;
    }
    const assert: Assert;
    export default assert;
}

declare module "node:fs" {
    export function readFileSync(path: string | URL): Uint8Array;
    export function readFileSync(path: string | URL, encoding: string): string;
    export function readSync(file: number, octets: Uint8Array, at: number, count: number, place: null): number;
    export function writeSync(file: number, octets: Uint8Array, at: number, count: number): number;
    export function readdirSync(path: string | URL): string[];
    export function writeFileSync(path: string, text: string, encoding?: string): void;
    export function mkdtempSync(prefix: string): string;
    export function mkdirSync(path: string): void;
    export function rmSync(path: string, options: { recursive: boolean; force: boolean }): void;
    export function existsSync(path: string | URL): boolean;
    export function openSync(path: string, flags: string): number;
    export function statSync(path: string): { isFile(): boolean; isDirectory(): boolean };
}

declare module "node:url" {
    export function fileURLToPath(address: URL): string;
}

declare module "node:crypto" {
    interface Hash {
        update(octets: Uint8Array): Hash;
        digest(encoding: string): string;
    }
    export function createHash(name: string): Hash;
}

declare module "node:zlib" {
    export function gunzipSync(octets: Uint8Array): Uint8Array;
}

declare module "node:net" {
    export function connect(port: number, host: string): Emitter & { write(text: string): void; end(): void };
}

declare module "node:os" {
    export function cpus(): object[];
    export function loadavg(): number[];
    export function tmpdir(): string;
}

declare const process: {
    cpuUsage(since?: { user: number; system: number }): { user: number; system: number };
    exitCode?: number;
    env: { [name: string]: string | undefined };
    argv: string[];
    versions: { node: string };
    stdout: { write(octets: string | Uint8Array): void };
    stderr: { write(text: string): void };
    exit(status: number): never;
};
declare const Buffer: { compare(one: Uint8Array, other: Uint8Array): number };
