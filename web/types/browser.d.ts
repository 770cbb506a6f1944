/** What browsers have and Debian's TypeScript 4.8 doesn't know yet. */

declare class DecompressionStream implements GenericTransformStream {
    constructor(format: "gzip" | "deflate-raw");
    readonly readable: ReadableStream;
    readonly writable: WritableStream;
}

declare class CompressionStream implements GenericTransformStream {
    constructor(format: "gzip" | "deflate-raw");
    readonly readable: ReadableStream;
    readonly writable: WritableStream;
}
