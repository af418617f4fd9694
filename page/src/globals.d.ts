// What the checker of types has to be told of browsers, which is newer than it is.
interface Window { snaplab: any; }
interface ObjectConstructor { groupBy<T>(items: T[], key: (item: T) => string): {[key: string]: T[]}; }
interface Array<T> { findLast(holds: (item: T, k: number, all: T[]) => boolean): T | undefined;
    findLastIndex(holds: (item: T, k: number, all: T[]) => boolean): number; }
interface Uint32Array { findLastIndex(holds: (item: number, k: number) => boolean): number; }
declare class CompressionStream { constructor(form: string); readable: ReadableStream; writable: WritableStream; }
declare class DecompressionStream { constructor(form: string); readable: ReadableStream; writable: WritableStream; }
