import type { JpegBlock, JpegPart, Kind, Resource, Unread } from "./exifnorm.js";

export { HeadRefused, LIMIT, NormalTooLong, NotRead, OutOfMemory, PictureRefused, Refused, TooMany, XmpNotRead, XmpRefused, xmpProperties } from "./exifnorm.js";
export type { JpegBlock, JpegPart, Kind, Resource, Unread, XmpList, XmpProperty, XmpResource, XmpStructure, XmpText, XmpValue } from "./exifnorm.js";

/** The calls over one compiled module: those of exifnorm.js. */
export class Engine {
  constructor(module: WebAssembly.Module);
  /** How many bytes of memory the module has between calls: at most 64 MiB. */
  readonly memory: number;
  /** How many allocations are left in the module: none between calls. */
  readonly allocations: number;
  check(block: Uint8Array): Kind;
  normalise(block: Uint8Array): Uint8Array;
  show(block: Uint8Array): string;
  captions(block: Uint8Array): string;
  compare(first: Uint8Array, second: Uint8Array): boolean;
  jpegBlocks(picture: Uint8Array, most?: number): JpegBlock[];
  jpegSame(first: Uint8Array, second: Uint8Array): boolean;
  jpegSameBlocks(first: Uint8Array, second: Uint8Array): boolean;
  jpegXmp(picture: Uint8Array): Uint8Array | null;
  jpegUnread(picture: Uint8Array): Unread | null;
  jpegParts(picture: Uint8Array, most?: number): JpegPart[];
  photoshopResources(bytes: Uint8Array, most?: number): Resource[];
  xmpCheck(packet: Uint8Array): void;
  xmpNormalise(packet: Uint8Array): Uint8Array;
  xmpUnsorted(packet: Uint8Array): Uint8Array;
  version(): string;
}

/** The calls over exifnorm.wasm: its bytes, its compiled form, or what fetch() returns. */
export function load(source: BufferSource | WebAssembly.Module | Response | Promise<Response>): Promise<Engine>;
