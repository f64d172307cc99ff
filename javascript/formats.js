/** Formats other than JPEG: the blocks in a file, and what of it isn't read, by name. @module */
import { Broken, Parts } from "./parts.js";
import { readHeif } from "./heif.js";
import { readPng } from "./png.js";
import tables from "./tables.js";
import { readTiff } from "./tiff.js";
import { readWebp } from "./webp.js";
import { inUtf8 } from "./xmp.js";

const HEAD = 4096;
// by how a file begins: the name of its format, and its reader, if there is one
const FORMATS = [
  [/^\x89PNG\r\n\x1a\n/, "PNG", readPng], [/^RIFF[^]{4}WEBP/, "WebP", readWebp], [/^(?:II\*\0[^]{4}CR)/, "CR2", null],
  [/^(?:II\*\0|MM\0\*)/, "TIFF", readTiff], [/^(?:II\+\0|MM\0\+)/, "BigTIFF", null], [/^GIF8/, "GIF", null], [/^8BPS/, "Photoshop", null],
  [/^[^]{4}ftypcrx/, "CR3", null], [/^(?:\0\0\0\x0cJXL|\xff\x0a)/, "JPEG XL", null], [/^\0\0\0\x0cjP/, "JPEG 2000", null], [/^BM/, "BMP", null],
  [/^(?:IIRO|IIRS|MMOR|IIU\0|FUJIFILM)/, "raw", null],
];

/** Whether a file is a packet of XMP by itself: a sidecar. */
function isSidecar(parts) {
  const text = new TextDecoder().decode(inUtf8(parts.some(0, HEAD))).replace(/^[\s\0\ufeff]+/, "");
  return /^<\?xpacket\s/.test(text) || /^(?:<\?[^]*?\?>\s*|<!-{2}[^]*?-{2}>\s*)*<(?:[^\s<>/:!?]+:)?(?:RDF|xmpmeta|xapmeta)[\s/>]/.test(text);
}

function readSidecar(parts) {
  if (parts.size > tables.limits.packet) throw new Broken("it has more than 16,777,216 bytes of XMP");
  return { format: "XMP", blocks: [{ kind: "xmp", data: parts.at(0, parts.size) }], notRead: [] };
}

/** What a file has: its format, its blocks, and what isn't read of it. Without `blocks` it has a format that isn't read; null for none. */
export function readFormat(engine, source) {
  const parts = new Parts(source), start = String.fromCharCode(...parts.some(0, 16));
  const [, format, read] = FORMATS.find(([pattern]) => pattern.test(start)) ?? (start.startsWith("ftyp", 4) && tables.brands.includes(start.slice(8, 12)) ? ["", start.startsWith("avi", 8) ? "AVIF" : "HEIC", readHeif] : [null, "", isSidecar(parts) ? readSidecar : null]);
  if (!read) return format ? { format } : null;
  try {
    const found = { format, blocks: [], notRead: [], ...read(parts, engine) };
    found.blocks = found.blocks.filter(({ data }) => data.length);
    return found;
  } catch (error) {
    if (error instanceof Broken) error.format = format;
    throw error;
  }
}
