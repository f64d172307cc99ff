/** The calls in node, Deno and Bun, which are there at once: those of `require`, so that a program that uses both has the same classes. @module */
import exifnorm from "./exifnorm.cjs";

export const {
  captions, check, compare, Engine, HeadRefused, jpegBlocks, jpegParts, jpegSame, jpegSameBlocks, jpegUnread, jpegXmp, LIMIT, load, normalise,
  NormalTooLong, NotRead, OutOfMemory, photoshopResources, PictureRefused, read, ready, Refused, same, show, TooMany, version, xmpCheck, xmpNormalise,
  XmpNotRead, xmpProperties, XmpRefused, xmpUnsorted,
} = exifnorm;
