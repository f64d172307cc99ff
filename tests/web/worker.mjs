// What the page's worker answers: worker.mjs FILE, which has a line of JSON for each question, the names of one or two pictures. An answer is a
// line: what it says of them in full and in a few words, and the first form of each kind.
import { createHash } from "node:crypto";
import { readFileSync } from "node:fs";
import { gzipSync } from "node:zlib";

globalThis.FileReaderSync = class {
  readAsArrayBuffer(bytes) { return bytes.slice().buffer; }
};
globalThis.self = { MODULE: gzipSync(readFileSync("exifnorm.wasm")).toString("base64") };
await import("./worker.js");

const fileOf = (name) => {
  const bytes = new Uint8Array(readFileSync(name));
  return { size: bytes.length, slice: (start, end) => bytes.subarray(start, end) };
};

async function answerOf(call, ...words) {
  const sent = new Promise((resolve) => { self.postMessage = resolve; });
  self.onmessage({ data: { id: 1, call, words } });
  return (await sent).answer;
}

const cellOf = (cell) => cell && [cell.text, ...cell.exact ? [cell.exact] : [], ...cell.isAbsent ? [true] : []];
const rowOf = ({ name, cells, steps = [], part, members }) => [name, ...cells.map(cellOf), ...steps.map((step) => step.join("")), part, members];
const digestOf = (form) => form && createHash("sha256").update(form).digest("hex").slice(0, 8);

for (const line of readFileSync(process.argv[2], "ascii").split("\n")) {
  const files = JSON.parse(line).map(fileOf), look = await answerOf("look", ...files), brief = await answerOf("brief", ...files);
  const forms = [];
  for (const kind of ["exif", "iptc", "xmp"]) forms.push(digestOf(await answerOf("form", files[0], kind, 0)));
  const [differing, equal, open] = [look.differing, look.equal, look.open].map((rows) => rows.map(rowOf));
  const names = equal.map(([name]) => name).join(" ");
  const identities = brief.identities.map(digestOf), { identity, edits, ...few } = brief;
  console.log(JSON.stringify([{ ...look, differing, equal: names, open }, { ...few, identities, identity: !!identity, edits: edits.length }, forms]));
}
