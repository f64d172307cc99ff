#!/usr/bin/env node
/** `npx exifnorm a.jpg b.jpg`: whether two pictures have the same metadata; of one picture, what it has. @module */
import { closeSync, fstatSync, openSync, readSync } from "node:fs";
import { compare, read, version } from "./node.js";

const USAGE = `Usage: exifnorm PICTURE [PICTURE]

Says whether two pictures have the same Exif, IPTC and XMP, and what differs. Of one
picture it prints the fields. JPEG, PNG, WebP, TIFF, DNG, HEIC, AVIF and files of XMP.

Status: 0 the same, or read; 1 different; 2 not known, no metadata, or an error.
`;
const STATUSES = { same: 0, different: 1 };

/** A text without characters that control a terminal. */
const safe = (text) => text.replace(/[^\P{C}\n\t]|[\u2028\u2029]/gu, (character) => `\\u{${character.codePointAt(0).toString(16)}}`).replace(/\n/g, "\n    ");
const counted = (number, noun) => `${number.toLocaleString("en")} ${noun}${number === 1 ? "" : "s"}`;
const refusalLine = ({ block, cause, offset, sentence, remedy }) => `refused: ${block}: ${sentence} (${cause} at ${offset}) ${remedy}`.trim();

/** A file as `read` takes it: no more of it is read than that needs. */
function withFile(name, work) {
  const file = openSync(name, "r");
  const part = (start, end) => {
    const bytes = new Uint8Array(end - start);
    for (let at = 0, count; at < bytes.length; at += count) {
      count = readSync(file, bytes, at, bytes.length - at, start + at);
      if (!count) throw new Error("it has changed while it was read");
    }
    return bytes;
  };
  try {
    return work({ size: fstatSync(file).size, part });
  } finally {
    closeSync(file);
  }
}

function ofOne(name) {
  const { format, texts, refusals, notRead } = withFile(name, read), lines = Object.entries(texts).map(([field, text]) => `${field}: ${text}`);
  for (const line of [...lines, ...refusals.map(refusalLine), ...notRead.map((what) => `not read: ${what}`)]) console.log(safe(line));
  if (!lines.length && !refusals.length && !notRead.length) console.log(`No metadata (${format}).`);
  return refusals.length || !lines.length && notRead.length ? 2 : 0;
}

function ofTwo(first, second) {
  const { verdict, sentence, differences, refusals, notRead } = withFile(first, (one) => withFile(second, (other) => compare(one, other)));
  const nameOf = ({ side }) => side === 1 ? first : second, shown = (text) => text === null ? "not there" : safe(text);
  console.log(differences.length ? `${sentence.slice(0, -1)}: ${counted(differences.length, "field")}.` : sentence);
  for (const { name, before, after } of differences) console.log(`${safe(name)}: ${shown(before)} -> ${shown(after)}`);
  for (const one of refusals) console.log(safe(`${nameOf(one)}: ${refusalLine(one)}`));
  for (const one of notRead) console.log(safe(`${nameOf(one)}: not read: ${one.what}`));
  return STATUSES[verdict] ?? 2;
}

function main(words) {
  if (words[0] === "--help" || words[0] === "-h") console.log(USAGE.trimEnd());
  else if (words[0] === "--version") console.log(`exifnorm ${version()}`);
  else if (words.length === 1) return ofOne(...words);
  else if (words.length === 2) return ofTwo(...words);
  else {
    console.error(USAGE.trimEnd());
    return 2;
  }
  return 0;
}

try {
  process.exitCode = main(process.argv.slice(2));
} catch (error) {
  console.error(`exifnorm: ${safe(error.message)}`);
  process.exitCode = 2;
}
