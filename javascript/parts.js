/** Parts of a file, which is read only where a reader asks for it, and never more than some bytes in all. @module */
import { sha256 } from "./sha256.js";
import tables from "./tables.js";

const WINDOW = 1 << 16, MOST = 1 << 27, MOST_READS = 200_000;
export const MOST_DIGESTED = 1 << 26; // bytes of a part that isn't read, of which two are compared
const EXIF_MARK = [0x45, 0x78, 0x69, 0x66, 0, 0];
const IPTC = 0x0404, EXIF = 0x0422, MORE_EXIF = 0x0423, XMP = 0x0424, DIGEST = 0x0425;

/** A file doesn't follow its format, so that nobody knows which blocks it has. */
export class Broken extends Error {}

export const startsWith = (bytes, start) => start.every((octet, i) => bytes[i] === octet);

/** An Exif block without the mark that some programs put in front. */
export const bareExif = (bytes) => startsWith(bytes, EXIF_MARK) ? bytes.subarray(EXIF_MARK.length) : bytes;

/** What of a file isn't read: its name, and a digest of its bytes, by which two are known to be equal; an empty one if they aren't known. */
export const left = (what, bytes = null) => ({ what, key: bytes && bytes.length <= MOST_DIGESTED ? sha256(bytes) : "" });

/** A text of Latin 1. */
export const latin = (bytes) => Array.from(bytes, (octet) => String.fromCharCode(octet)).join("");

export class Parts {
  #source;
  #window = new Uint8Array(0);
  #start = 0;
  #left = MOST;
  #reads = MOST_READS;

  /** Of a file with a `size`, and `part(start, end)`. */
  constructor(source) {
    this.#source = source;
    this.size = source.size;
  }

  /** Bytes of the file, as many as there are. */
  some(start, end) {
    return this.at(start, Math.min(end, this.size));
  }

  /** Bytes of the file. */
  at(start, end) {
    if (start < 0 || end > this.size || end < start) throw new Broken(`the file ends before byte ${end}`);
    if (start >= this.#start && end <= this.#start + this.#window.length) return this.#window.subarray(start - this.#start, end - this.#start);
    const stop = Math.max(end, Math.min(start + WINDOW, this.size));
    this.#left -= stop - start;
    if (this.#left < 0 || --this.#reads < 0) throw new Broken("it has more parts than are read here");
    this.#window = this.#source.part(start, stop);
    this.#start = start;
    return this.#window.subarray(0, end - start);
  }

  /** A number of 1 to 8 bytes. */
  number(start, length, isLittle = false) {
    return this.at(start, start + length)[isLittle ? "reduceRight" : "reduce"]((number, octet) => 256 * number + octet, 0);
  }

  text(start, length) {
    return latin(this.at(start, start + length));
  }

  /** Bytes for a digest; null if they are too many. */
  short(start, end) {
    return end - start <= MOST_DIGESTED ? this.at(start, end) : null;
  }

  /** What is behind the end of a picture, as a list. Zeros are nothing. */
  behind(end) {
    const size = this.size - end, bytes = size > 0 ? this.short(end, this.size) : null;
    return size > 0 && !bytes?.every((octet) => !octet) ? [left(`trailer of ${size.toLocaleString("en")} byte${size === 1 ? "" : "s"}`, bytes)] : [];
  }
}

/** The digest of IPTC as Photoshop noted it in some resources, as `md5` writes it; empty if there is none. */
export function digestIn(resources, bytes) {
  const { start, size } = resources.find(({ number, size }) => number === DIGEST && size) ?? { start: 0, size: 0 };
  const octets = bytes.subarray(start, start + Math.min(size, 16));
  return Array.from(octets, (octet) => octet.toString(16).padStart(2, "0")).join("").toUpperCase();
}

/** The blocks in Photoshop's resources, and the digest there. */
export function inResources(engine, bytes) {
  const blocks = [], notRead = [], resources = engine.photoshopResources(bytes, tables.limits.Photoshop_resources);
  let end = 0;
  for (const { number, start, size } of resources) {
    const data = bytes.slice(start, start + size);
    end = start + size + size % 2;
    if (number === IPTC) blocks.push({ kind: "iptc", data, isResource: true });
    else if (number === EXIF) blocks.push({ kind: "exif", data: bareExif(data) });
    else if (number === XMP) blocks.push({ kind: "xmp", data });
    else if (number === MORE_EXIF && size) notRead.push(left("Photoshop resource 0423", data));
  }
  if (bytes.subarray(end).some((octet) => octet)) notRead.push(left("bytes behind the Photoshop resources", bytes.subarray(end)));
  return { blocks, notRead, digest: digestIn(resources, bytes) };
}
