/** The calls of exifnorm. They need nothing of node, and nothing of a browser; `begin` gives them the engine. @module */
import { comparisonOf, pictureOf } from "./picture.js";

let engine = null;

/** Begins with an engine. */
export function begin(made) {
  engine = made;
}

function ready() {
  if (!engine) throw new Error("exifnorm has not been loaded yet: await `ready` first");
  return engine;
}

export const read = (picture) => pictureOf(ready(), picture);
export const compare = (first, second) => comparisonOf(ready(), first, second);
export const check = (block) => ready().check(block);
export const normalise = (block) => ready().normalise(block);
export const show = (block) => ready().show(block);
export const captions = (block) => ready().captions(block);
export const same = (first, second) => ready().compare(first, second);
export const jpegParts = (picture, most) => ready().jpegParts(picture, most);
export const photoshopResources = (bytes, most) => ready().photoshopResources(bytes, most);
export const jpegBlocks = (picture, most) => ready().jpegBlocks(picture, most);
export const jpegUnread = (picture) => ready().jpegUnread(picture);
export const jpegSame = (first, second) => ready().jpegSame(first, second);
export const jpegSameBlocks = (first, second) => ready().jpegSameBlocks(first, second);
export const jpegXmp = (picture) => ready().jpegXmp(picture);
export const xmpCheck = (packet) => ready().xmpCheck(packet);
export const xmpNormalise = (packet) => ready().xmpNormalise(packet);
export const xmpUnsorted = (packet) => ready().xmpUnsorted(packet);
export const version = () => ready().version();
