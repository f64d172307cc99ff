/** PNG: Exif in eXIf chunks, XMP in iTXt chunks, and the raw profiles of other programs in text chunks (exifnorm_pictures' png.py). @module */
import { inflated } from "./inflate.js";
import { bareExif, Broken, inResources, latin, left } from "./parts.js";
import tables from "./tables.js";

const FIRST = 8, XMP_KEYWORD = "xml:com.adobe.xmp", PROFILE = "raw profile type ", XMP_HEAD = "http://ns.adobe.com/xap/1.0/\0";
const TEXTS = ["tEXt", "zTXt", "iTXt"];
const MOST_TEXT = 36_000_000; // bytes of a text that was compressed: of the longest block in hexadecimal digits, in lines
const CRC = Int32Array.from({ length: 256 }, (_, number) => {
  for (let i = 0; i < 8; i++) number = number & 1 ? number >>> 1 ^ 0xedb88320 : number >>> 1;
  return number;
});

function crcOf(bytes) {
  let crc = -1;
  for (const octet of bytes) crc = crc >>> 8 ^ CRC[(crc ^ octet) & 255];
  return ~crc >>> 0;
}

/** The data of a raw profile: a line with its name, its length, and hexadecimal digits; null for another form. */
function profileData(text) {
  const match = /^\s*[^\n]*\n\s*(\d{1,10})(?:\s+([^]*))?$/.exec(text), digits = match?.[2]?.replace(/\s+/g, "") ?? "";
  if (!match || !/^(?:[0-9a-f]{2})*$/i.test(digits) || digits.length !== 2 * match[1]) return null;
  return Uint8Array.from({ length: match[1] }, (_, i) => parseInt(digits.substr(2 * i, 2), 16));
}

function addProfile(found, engine, kind, text) {
  const data = profileData(latin(text));
  if (!data) {
    found.notRead.push(left(`raw profile ${kind} that can't be read`, text));
    return;
  }
  const start = latin(data.subarray(0, XMP_HEAD.length)), add = (...some) => found.blocks.push(...some);
  if (kind === "xmp") add({ kind: "xmp", data });
  else if (kind === "exif" || kind === "app1") add(start === XMP_HEAD ? { kind: "xmp", data: data.slice(XMP_HEAD.length) } : { kind: "exif", data: bareExif(data) });
  else if (kind === "iptc" || kind === "8bim") {
    if (data[0] === 0x1c) add({ kind: "iptc", data });
    else {
      const { blocks, notRead } = inResources(engine, start.startsWith("Photoshop 3.0\0") ? data.subarray(14) : data);
      add(...blocks);
      found.notRead.push(...notRead);
    }
  } else if (kind !== "icc" && kind !== "icm") found.notRead.push(left("raw profile of another kind", text));
}

/** The text of a chunk behind its keyword; null if it can't be read. */
function opened(kind, text) {
  if (kind === "tEXt") return text;
  if (kind === "zTXt") return text[0] === 0 ? inflated(text.subarray(1), MOST_TEXT) : null;
  const language = text.indexOf(0, 2), translated = text.indexOf(0, language + 1);
  if (text.length < 2 || language < 0 || translated < 0) return null;
  const rest = text.subarray(translated + 1);
  return text[0] === 0 ? rest : text[1] === 0 ? inflated(rest, MOST_TEXT) : null;
}

/** Adds the block of a text chunk. */
function addText(found, engine, kind, data) {
  const end = data.indexOf(0), keyword = latin(data.subarray(0, Math.max(end, 0))).toLowerCase();
  if (end < 0 || keyword !== XMP_KEYWORD && !keyword.startsWith(PROFILE)) return;
  const text = opened(kind, data.subarray(end + 1));
  if (!text) found.notRead.push(left("text chunk that can't be read", data));
  else if (keyword === XMP_KEYWORD) found.blocks.push({ kind: "xmp", data: text.slice() });
  else addProfile(found, engine, keyword.slice(PROFILE.length), text);
}

export function readPng(parts, engine) {
  const found = { blocks: [], notRead: [] };
  for (let at = FIRST, kind = ""; ; ) {
    if (kind === "IEND") return { ...found, notRead: [...found.notRead, ...parts.behind(at)] };
    const length = parts.number(at, 4), end = at + 12 + length;
    kind = parts.text(at + 4, 4);
    if (end > parts.size) throw new Broken(`the file ends inside the chunk at ${at}`);
    if (kind === "eXIf" || kind === "zxIf" || TEXTS.includes(kind)) {
      if (length > tables.limits.bytes_of_chunks) throw new Broken(`the chunk at ${at} is longer than is read here`);
      const chunk = parts.at(at + 4, end), data = chunk.slice(4, 4 + length);
      if (crcOf(chunk.subarray(0, 4 + length)) !== new DataView(chunk.buffer, chunk.byteOffset + 4 + length, 4).getUint32(0)) throw new Broken(`wrong check sum of the chunk at ${at}`);
      if (kind === "eXIf") found.blocks.push({ kind: "exif", data: bareExif(data) });
      else if (kind === "zxIf") found.notRead.push(left("compressed Exif chunk", data));
      else addText(found, engine, kind, data);
    }
    at = end;
  }
}
