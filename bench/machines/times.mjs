// Times a call of the JavaScript package: times.mjs PACKAGE MODE SECONDS FILE. Prints the least time of a call in microseconds.
import { readFileSync } from "node:fs";
import { performance } from "node:perf_hooks";
import { pathToFileURL } from "node:url";

const [folder, mode, seconds, name] = process.argv.slice(2);
const exifnorm = await import(pathToFileURL(`${folder}/node.js`));
const call = mode === "write" ? exifnorm.normalise : exifnorm.check, block = new Uint8Array(readFileSync(name));
const LEAST = 0.1; // milliseconds of the calls that are timed at once

let times = 1, least = Infinity;
const end = performance.now() + 1000 * Number(seconds);
do {
  const began = performance.now();
  for (let i = 0; i < times; i++) call(block);
  const spent = performance.now() - began;
  least = Math.min(least, spent / times);
  if (spent < LEAST) times *= 2;
} while (performance.now() < end);
console.log((1000 * least).toFixed(4));
