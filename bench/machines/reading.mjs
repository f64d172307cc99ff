// Times a reader of pictures in JavaScript: reading.mjs PACKAGE NAME FOLDER. NAME is exifnorm or exifr, and PACKAGE
// its folder. Prints the milliseconds a picture of one pass over the JPEGs of FOLDER, after one that isn't timed.
import { readFileSync, readdirSync } from "node:fs";
import { performance } from "node:perf_hooks";
import { createRequire } from "node:module";
import { resolve } from "node:path";

const [folder, name, pictures] = process.argv.slice(2), it = createRequire(import.meta.url)(resolve(folder));
const exifr = { tiff: true, iptc: true, xmp: true, mergeOutput: false }; // the same three standards
const read = { exifnorm: (bytes) => it.read(bytes), exifr: (bytes) => it.parse(bytes, exifr).catch(() => null) }[name];
const names = readdirSync(pictures).filter((one) => /\.jpe?g$/i.test(one));
const all = names.map((one) => new Uint8Array(readFileSync(`${pictures}/${one}`)));
for (const bytes of all) await read(bytes);
const began = performance.now();
for (const bytes of all) await read(bytes);
console.log(((performance.now() - began) / all.length).toFixed(4));
