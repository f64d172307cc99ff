/** The calls in a browser, which are there as soon as `ready` is done. Bundlers know this way to the module. @module */
import { begin } from "./calls.js";
import { load } from "./engine.js";

export { captions, check, compare, jpegBlocks, jpegParts, jpegSame, jpegSameBlocks, jpegUnread, jpegXmp, normalise, photoshopResources, read, same, show, version, xmpCheck, xmpNormalise, xmpUnsorted } from "./calls.js";
export { Engine, HeadRefused, LIMIT, load, NormalTooLong, NotRead, OutOfMemory, PictureRefused, Refused, TooMany, XmpNotRead, XmpRefused, xmpProperties } from "./engine.js";
export const ready = load(fetch(new URL("./exifnorm.wasm", import.meta.url))).then(begin);
