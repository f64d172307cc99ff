/** WebP: the chunks EXIF and XMP (RFC 9649, 2.7). @module */
import { bareExif, Broken, left } from "./parts.js";
import tables from "./tables.js";

const FIRST = 12;

export function readWebp(parts) {
  const blocks = [], notRead = [], end = 8 + parts.number(4, 4, true);
  let at = FIRST;
  if (end > parts.size) throw new Broken("the file ends before its header says");
  while (at + 8 <= end) {
    const kind = parts.text(at, 4), length = parts.number(at + 4, 4, true), start = at + 8;
    if (start + length > end) throw new Broken(`the chunk at ${at} is longer than the file`);
    if (kind === "EXIF") blocks.push({ kind: "exif", data: bareExif(parts.at(start, start + length).slice()) });
    else if (kind === "XMP " || kind === "XMP\0") blocks.push({ kind: "xmp", data: parts.at(start, start + length).slice() });
    else if (!tables.webp.includes(kind)) notRead.push(left("chunk of an unknown kind", parts.at(start, start + length)));
    at = start + length + length % 2;
  }
  return { blocks, notRead: [...notRead, ...parts.behind(Math.min(at, end))] };
}
