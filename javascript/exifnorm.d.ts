/** The greatest length in bytes of a block, of a packet of XMP, and of a normal form. */
export const LIMIT: 16777216;

/** "exif": directories in the structure of TIFF 6.0, by CIPA DC-008; "iptc": DataSets of IPTC-NAA IIM 4.2. */
export type Kind = "exif" | "iptc";

/** A part of a JPEG's head: a marker, and where the data of its segment are. */
export interface JpegPart {
  /** The second byte of the marker, such as 0xE1 for APP1. */
  marker: number;
  /** By the mark with which the data begin; "" for all others. */
  kind: "" | "exif" | "photoshop" | "xmp" | "extended xmp";
  /** Whether a block begins here. Otherwise it continues the one in the part before. */
  begins: boolean;
  /** The offset of the data behind that mark; of a marker without a segment, the offset behind it. */
  start: number;
  /** The number of these bytes. */
  size: number;
}

/** One of Photoshop's image resources: its number, and where its data are. */
export interface Resource {
  number: number;
  start: number;
  size: number;
}

/** A block of a JPEG, as one array, also where it was in several segments. */
export interface JpegBlock {
  kind: Kind;
  data: Uint8Array;
}

/** A place in a JPEG that isn't read: an offset in it, or with `joined` in its blocks in several pieces, one after another. */
export interface Unread {
  joined: boolean;
  start: number;
}

/** A text of XMP. */
export interface XmpText {
  kind: "text";
  text: string;
  /** Its language in small letters, such as "de" or "x-default"; "" without one. */
  language: string;
}

/** A resource of XMP: an absolute URI. */
export interface XmpResource {
  kind: "resource";
  uri: string;
}

/** A list of XMP. The members of a "Bag" have no order: a normal form has them in the order of their bytes. */
export interface XmpList {
  kind: "Bag" | "Seq" | "Alt";
  members: XmpValue[];
}

/** A structure of XMP; or a text with what qualifies it, which is the property `value` of RDF's namespace. */
export interface XmpStructure {
  kind: "structure";
  properties: XmpProperty[];
}

export type XmpValue = XmpText | XmpResource | XmpList | XmpStructure;

/**
 * A property of XMP. The namespace and the name, joined, identify it: the name is the longest one at their end, so it may have letters of an
 * unusual namespace.
 */
export interface XmpProperty {
  namespace: string;
  name: string;
  value: XmpValue;
}

/** A block breaks the rules and has no meaning: its first fault. */
export class Refused extends Error {
  /** The name of the cause, such as "Overlap". docs/FORMAT.md lists the causes. */
  readonly cause: string;
  /** The byte offset in the block. The six bytes "Exif\0\0" before an Exif block are not counted. */
  readonly offset: number;
  /** @deprecated The older name of `offset`. */
  get place(): number;
  /** For two blocks, the number of the one that is refused; otherwise null. */
  readonly side: 1 | 2 | null;
}

/** The bytes are no head of a JPEG: the first fault. */
export class HeadRefused extends Refused {
  /** The parts before the fault, each of them whole; none from jpegUnread. */
  readonly parts: JpegPart[];
  /** The Exif and IPTC blocks that end before the fault, from jpegBlocks; otherwise none. */
  readonly blocks: JpegBlock[];
}

/** Of two JPEGs one has no head of a JPEG, or a block that is refused: the first fault. */
export class PictureRefused extends Refused {
  readonly side: 1 | 2;
  /** The kind of the block; "" if the picture has no head. Then `offset` counts from the picture's first byte. */
  readonly kind: "" | Kind;
  /** The index of the block among those of its kind in the picture, from 0. */
  readonly index: number;
}

/** A packet of XMP has no normal form: its first fault. `offset` counts from the packet's first byte. */
export class XmpRefused extends Refused {
  /** Whether the packet may have a meaning all the same, in a form of RDF/XML that isn't read here. Another reader may read it. */
  get isRare(): boolean;
}

/** A JPEG has a second packet of XMP, or extended XMP: its first packet is not all of its XMP. jpegParts finds each packet and each piece. */
export class XmpNotRead extends Error {
  /** The offset in the JPEG of the second packet or of the first piece of extended XMP, whichever comes first. */
  readonly offset: number;
}

/** Two JPEGs have the same metadata as far as both are read, and one has a place that isn't read. */
export class NotRead extends Error {
  /** The number of the JPEG, 1 or 2; 2 only if all of the first is read. */
  readonly side: 1 | 2;
  /** The place. */
  readonly unread: Unread;
}

/** The block has a meaning, but its normal form is longer than LIMIT. The other calls accept such a block. */
export class NormalTooLong extends Error {}

/** There are more parts, resources or blocks than the argument `most` of the call. */
export class TooMany extends Error {
  readonly most: number;
}

/** There is not enough memory for the call. Nothing is known of the block. */
export class OutOfMemory extends Error {}

/** Done when the calls are there: in node, Deno and Bun at once. In a browser every call before throws an Error. */
export const ready: Promise<void>;

/**
 * The value of a field: a number, a text, bytes, or several as an array; null for a fraction with the denominator 0. A date is a text as
 * ISO 8601 has it, without a zone where the field has none; one that no calendar has is the text of the field. A structure of XMP is an object.
 */
export type Value = string | number | boolean | null | Uint8Array | Value[] | { [name: string]: Value };

/** A text by label, such as a caption, and the names of the fields that have it. */
export interface Caption {
  text: string;
  fields: string[];
}

/** Why a block has no meaning: its first fault. */
export interface Refusal {
  /** Which one, as "Exif", "second Exif", "Exif of page 2". */
  block: string;
  kind: Kind | "xmp";
  cause: string;
  /** The byte of the fault in the block. */
  offset: number;
  /** The fault, and what helps, for people. */
  sentence: string;
  remedy: string;
}

/** A picture that was read. */
export interface Picture {
  /** "JPEG", "PNG", "WebP", "TIFF", "DNG", "HEIC", "AVIF", or "XMP" of a packet by itself; of other files what is known, or "". */
  format: string;
  /** Values by the names that ExifTool and exifnorm_pictures have, such as "IFD0:Make": of the first block that has the field. */
  fields: Record<string, Value>;
  /** The same in plain words, such as "1/125 s". */
  texts: Record<string, string>;
  /**
   * Texts by label: title, caption, creator, keywords .. Each text once; if a label that is no list has several, the standards contradict. A
   * caption or a comment that the camera or a program writes by itself is in `texts` alone.
   */
  captions: Record<string, Caption[]>;
  /**
   * When it was taken, as "2019-03-12T11:20:45", with its part of a second and its zone if they are there: by Exif, or else by XMP or IPTC.
   */
  taken: string | null;
  /** Where, in degrees (north and east are positive) and metres. */
  position: { latitude: number; longitude: number; altitude: number | null } | null;
  /** The blocks as they are in the file, also those that are refused. */
  blocks: { kind: Kind | "xmp"; name: string; data: Uint8Array }[];
  refusals: Refusal[];
  /** What may have metadata and wasn't read, or why nothing could be read. What follows the head of a JPEG is never read. */
  notRead: string[];
}

/** A field that differs, in plain words; null where the picture doesn't have it. `label` is such as "caption", or null. */
export interface Difference {
  name: string;
  label: string | null;
  before: string | null;
  after: string | null;
}

/** How two pictures compare. */
export interface Comparison {
  /**
   * "same": the same Exif, IPTC and XMP, whatever the pixels; "no metadata" in either, so nothing was compared; "different", also if a block of
   * another kind is refused; "not wholly read": no field differs, but not everything was read; "refused": a block has no meaning, and nothing
   * else differs; "not read": one of the pictures wasn't. But for "no metadata" they are words of `exifnorm-pictures changed`.
   */
  verdict: "same" | "no metadata" | "different" | "not wholly read" | "refused" | "not read";
  /** The verdict for people, as "The same metadata. Pixels are not compared." */
  sentence: string;
  differences: Difference[];
  /** Whether the verdict is that of jpegSame alone, which is proved: of two JPEGs without extended XMP, and if they are the same, without parts beside it. */
  proved: boolean;
  refusals: (Refusal & { side: 1 | 2 })[];
  /** What wasn't read. Parts with the same bytes in both don't make the verdict "not wholly read". */
  notRead: { side: 1 | 2; what: string }[];
}

/** Where the bytes of a picture are: how many there are, and a part of them, from an offset up to another. Only parts that are needed are asked for. */
export interface Source {
  size: number;
  part(start: number, end: number): Uint8Array;
}

/**
 * A picture, of its bytes or of where they are; of a Blob, such as a File, a promise of it. Of a JPEG the first bytes are enough if they have the
 * whole head. Throws OutOfMemory, what `part` throws, and nothing for a picture.
 */
export function read(picture: Uint8Array | Source): Picture;
export function read(picture: Blob): Promise<Picture>;

/**
 * Whether two pictures have the same Exif, IPTC and XMP, and what differs; a promise of it if one is a Blob. Throws OutOfMemory, what `part` throws,
 * and TypeError for two blocks, which `same` compares; nothing for pictures.
 */
export function compare(first: Uint8Array | Source, second: Uint8Array | Source): Comparison;
export function compare(first: Uint8Array | Source | Blob, second: Uint8Array | Source | Blob): Comparison | Promise<Comparison>;

/** The kind of a block. Throws Refused, OutOfMemory. */
export function check(block: Uint8Array): Kind;

/** The normal form: two blocks mean the same exactly if their normal forms are equal. Throws Refused, NormalTooLong, OutOfMemory. */
export function normalise(block: Uint8Array): Uint8Array;

/** A line for each directory, field and DataSet, as `exifnorm show` prints it (docs/FORMAT.md, 7). Throws Refused, OutOfMemory. */
export function show(block: Uint8Array): string;

/** A line for each caption, name, keyword and right, as `exifnorm captions` prints it (docs/FORMAT.md, 7). Throws Refused, OutOfMemory. */
export function captions(block: Uint8Array): string;

/** Whether two blocks mean the same. Throws Refused, with the `side`, and OutOfMemory. */
export function same(first: Uint8Array, second: Uint8Array): boolean;

/**
 * The Exif and IPTC blocks of a JPEG in their order. The bytes may be a whole file, or only its first bytes if they have the whole head,
 * which is all before the first scan. A hostile file may have millions: `most` limits the blocks of all kinds. Throws HeadRefused, with
 * the blocks that end before the fault, TooMany, OutOfMemory.
 */
export function jpegBlocks(picture: Uint8Array, most?: number): JpegBlock[];

/**
 * Whether two JPEGs have the same Exif, IPTC and XMP: as many blocks of each kind, which mean the same, pair by pair, in their order; and
 * no XMP, or one packet each, with equal normal forms together with its extended XMP. So two JPEGs without metadata are the same. Pixels,
 * and what follows the head, are not compared: compare reads the further pictures there, as of phones (MPF), too. Throws NotRead if they
 * are the same as far as both are read, but one has more that other programs may read: a place that jpegUnread returns, where XMP may be
 * too, XMP in another place, a packet that xmpNormalise refuses, a second packet, or extended XMP that is missing or can't be joined to the
 * packet. Also throws PictureRefused, OutOfMemory.
 */
export function jpegSame(first: Uint8Array, second: Uint8Array): boolean;

/**
 * Whether two JPEGs have the same Exif and IPTC, as for jpegSame: XMP is not compared. Throws NotRead if each block that both have means the
 * same, and jpegUnread finds a place in one of them: it may have a block that the other has more. Throws PictureRefused, OutOfMemory.
 */
export function jpegSameBlocks(first: Uint8Array, second: Uint8Array): boolean;

/**
 * The packet of XMP in a JPEG's head, which xmpNormalise reads; null if there is none. XMP in other places isn't looked for. Throws
 * XmpNotRead if there is a second packet or extended XMP; HeadRefused, OutOfMemory.
 */
export function jpegXmp(picture: Uint8Array): Uint8Array | null;

/**
 * The first place in a JPEG that other programs read as Exif or IPTC, or may, and that jpegSameBlocks doesn't, or the reverse; null if there
 * is none, so that jpegSameBlocks reads all of it. Throws HeadRefused, OutOfMemory.
 */
export function jpegUnread(picture: Uint8Array): Unread | null;

/** The parts of a JPEG's head, up to the header of the first scan or the end of the picture. Throws HeadRefused, TooMany, OutOfMemory. */
export function jpegParts(picture: Uint8Array, most?: number): JpegPart[];

/** Photoshop's image resources at the start of some bytes: up to where no resource is. Throws TooMany, OutOfMemory. */
export function photoshopResources(bytes: Uint8Array, most?: number): Resource[];

/** Throws XmpRefused if a packet of XMP has no normal form, with `isRare` if another reader may read it; and OutOfMemory. */
export function xmpCheck(packet: Uint8Array): void;

/**
 * The normal form of a packet of XMP, such as the data of a part of the kind "xmp": a packet of the same properties, in one order and one
 * way of writing. Two packets with equal forms have the same properties, with the same values and languages. Extended XMP is a packet of
 * its own. Throws XmpRefused, OutOfMemory.
 */
export function xmpNormalise(packet: Uint8Array): Uint8Array;

/**
 * The same form, except that the members of each "Bag" are in the packet's order, in which programs show keywords. Don't compare it: two
 * packets that mean the same may have their members in different orders. Throws XmpRefused, OutOfMemory.
 */
export function xmpUnsorted(packet: Uint8Array): Uint8Array;

/**
 * The properties of a packet of XMP, from its normal form, or from that of xmpUnsorted to show them. Throws SyntaxError for bytes that
 * aren't laid out as one, such as a packet. Bytes without that error may still be no normal form: with properties in another order, for
 * instance.
 */
export function xmpProperties(form: Uint8Array): XmpProperty[];

/** The version and the build, as "1.0.0 (WebAssembly)". */
export function version(): string;

export { Engine, load } from "./engine.js";
