// Answers the lines of a file, each a list of one or two files: what `read` has of one, bytes in hexadecimal digits, and what `compare` says of two. An answer is a line of JSON.
import { createHash } from "node:crypto";
import { readFileSync } from "node:fs";
import { compare, read } from "./node.js";

const digest = (bytes) => createHash("sha256").update(bytes).digest("hex");

function one(bytes) {
  const before = digest(bytes), { format, blocks, refusals, notRead, fields, texts, captions, taken, position } = read(bytes);
  if (digest(bytes) !== before) throw new Error("read has changed the bytes");
  const refused = refusals.map(({ block, cause, offset }) => [block, cause, offset]);
  return {
    format, blocks: blocks.map(({ kind, data }) => [kind, digest(data)]), named: [...notRead, ...refusals.map(({ cause }) => cause)],
    notRead, refused, fields, texts, captions, taken, position, refusals,
  };
}

function two(...both) {
  const answer = compare(...both), { verdict, differences, proved, refusals, notRead } = answer;
  const named = [...notRead.map(({ what }) => what), ...refusals.map(({ cause }) => cause)];
  return { verdict, names: differences.map(({ name }) => name), proved, named, answer };
}

const inHex = (_, value) => value instanceof Uint8Array ? Buffer.from(value).toString("hex") : value;

for (const line of readFileSync(process.argv[2], "ascii").split("\n")) {
  const files = JSON.parse(line).map((name) => readFileSync(name));
  console.log(JSON.stringify(files.length === 1 ? one(...files) : two(...files), inHex));
}
