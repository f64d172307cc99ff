// The answers of the module to requests, for a comparison with those of the native library. In node: answers.mjs FOLDER, which has blocks
// and requests.json; in a browser: import(".. /answers.mjs"), below an address that serves the folder.
const isNode = typeof process !== "undefined" && process.versions?.node;
const exifnorm = await import(isNode ? "./node.js" : "./exifnorm.js");
await exifnorm.ready;
const read = isNode
  ? async (name) => new Uint8Array(await (await import("node:fs/promises")).readFile(new URL(name, import.meta.url)))
  : async (name) => new Uint8Array(await (await fetch(new URL(name, import.meta.url))).arrayBuffer());
const crypto = globalThis.crypto?.subtle ? globalThis.crypto : (await import("node:crypto")).webcrypto;

async function digest(value) {
  const bytes = typeof value === "string" ? new TextEncoder().encode(value) : value;
  return Array.from(new Uint8Array(await crypto.subtle.digest("SHA-256", bytes)), (byte) => byte.toString(16).padStart(2, "0")).join("");
}

const ofPart = ({ marker, kind, begins, start, size }) => [marker, kind, begins, start, size];
const ofBlock = async ({ kind, data }) => [kind, await digest(data)];

/** What a call returns, or the name and the text of its error; of a head also the parts and blocks before the fault. */
async function answer(name, blocks) {
  let value;
  try {
    value = name === "xmpProperties" ? exifnorm.xmpProperties(exifnorm.xmpNormalise(...blocks)) : exifnorm[name](...blocks);
  } catch (error) {
    if (error instanceof exifnorm.NotRead) return [error.name, error.side, error.unread.joined, error.unread.start];
    const isHead = error instanceof exifnorm.HeadRefused;
    if (error instanceof exifnorm.XmpRefused) return [error.name, error.message, error.isRare];
    return [error.name, error.message, ...(isHead ? [error.parts.map(ofPart), await Promise.all(error.blocks.map(ofBlock))] : [])];
  }
  if (["normalise", "show", "captions", "xmpNormalise", "xmpUnsorted"].includes(name)) return digest(value);
  if (name === "jpegXmp" && value) return digest(value);
  if (name === "jpegBlocks") return Promise.all(value.map(ofBlock));
  if (name === "jpegParts") return value.map(ofPart);
  if (name === "photoshopResources") return value.map(({ number, start, size }) => [number, start, size]);
  return name === "jpegUnread" && value ? [value.joined, value.start] : value ?? null;
}

/** The answers to all requests, each [call, index of a block, ..]. */
export async function answers() {
  const octets = await read("./blocks"), { sizes, requests } = JSON.parse(new TextDecoder().decode(await read("./requests.json")));
  const blocks = [], found = [];
  let end = 0;
  for (const size of sizes) blocks.push(octets.subarray(end, (end += size)));
  for (const [name, ...indexes] of requests) found.push(await answer(name, indexes.map((index) => blocks[index])));
  return found;
}

if (isNode) process.stdout.write(JSON.stringify(await answers()));
