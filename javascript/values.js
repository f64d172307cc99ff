/**
 * Values of fields in plain words: `turn 90° clockwise to view`, `1/125 s`, `2003-05-24 22:21:01`. They are those of the Python package
 * exifnorm_pictures, which a test compares.
 * @module
 */
import { sha256 } from "./sha256.js";
import tables from "./tables.js";

const EMPTY = "(empty)", UNKNOWN = "unknown";
const INTEGERS = ["SHORT", "LONG", "WHOLE", "SSHORT", "SLONG"], RATIOS = ["RATIONAL", "SRATIONAL"];
const OCTETS = ["BYTE", "ASCII", "SBYTE", "UNDEFINED", "UTF8", "octets"];
const LONGEST_TEXT = 65_536, LONGEST_OTHER_TEXT = 400, LONGEST_BYTES = 32, LONGEST_NUMBERS = 160;

/** The bytes of hexadecimal digits. */
export function octetsOf(digits) {
  const octets = new Uint8Array(digits.length / 2);
  for (let i = 0; i < octets.length; i++) octets[i] = parseInt(digits.substr(2 * i, 2), 16);
  return octets;
}

const hex = (octets) => Array.from(octets, (octet) => octet.toString(16).padStart(2, "0")).join("");
const grouped = (number) => number.toLocaleString("en");

// ---- texts

const utf8 = new TextDecoder("utf-8", { fatal: true, ignoreBOM: true });
const wide = ["utf-16be", "utf-16le"].map((name) => new TextDecoder(name, { ignoreBOM: true }));
const [strictlyWide, strictlyWideBig] = ["utf-16le", "utf-16be"].map((name) => new TextDecoder(name, { fatal: true, ignoreBOM: true }));
const japanese = new TextDecoder("iso-2022-jp", { fatal: true });
const WINDOWS = "€\x81‚ƒ„…†‡ˆ‰Š‹Œ\x8dŽ\x8f\x90‘’“”•–—˜™š›œ\x9džŸ"; // its characters from 0x80 to 0x9F, of which five are undefined
const UNDEFINED = /[\x81\x8d\x8f\x90\x9d]/g;
const UNPRINTABLE = /[\p{C}\p{Zl}\p{Zp}]|(?! )\p{Zs}/u;

/** What a decoder makes of bytes; null if they are no such text. */
function decoded(decoder, octets) {
  try {
    return decoder.decode(octets);
  } catch {
    return null;
  }
}

/** A text of Windows-1252: some versions of node decode it as Latin 1. */
const windows = (octets) => Array.from(octets, (octet) => WINDOWS[octet - 0x80] ?? String.fromCharCode(octet)).join("");

const withoutEnd = (octets, isPadding) => {
  let end = octets.length;
  while (end && isPadding(octets[end - 1])) end--;
  return octets.subarray(0, end);
};
const isBlank = (octet) => octet === 0 || octet === 32;
const trimmedEnd = (text) => text.replace(/[\t-\r\x1c-\x20\x85\xa0\u1680\u2000-\u200a\u2028\u2029\u202f\u205f\u3000]+$/, "");
const printable = (text) => text !== null && !UNPRINTABLE.test(text.replace(/[\n\r\t]/g, "")) ? text : null;

/** A text of UTF-8, or of Windows-1252 with the five bytes that it doesn't define in their digits. */
const eitherShown = (octets) => decoded(utf8, octets) ?? windows(octets).replace(UNDEFINED, (it) => `\\x${it.charCodeAt(0).toString(16)}`);

/** A text whose character set isn't declared: UTF-8 if it can be, otherwise Windows-1252. */
export function guessed(octets) {
  return eitherShown(withoutEnd(octets, isBlank));
}

/** The text of a field in ASCII, without the blanks around it; empty if there is no field. */
export function asciiOf(field) {
  const octets = withoutEnd(field?.octets ?? new Uint8Array(0), isBlank);
  const text = Array.from(octets, (octet) => octet < 128 ? String.fromCharCode(octet) : "\ufffd").join("");
  return text.replace(/^[\0 ]+/, "");
}

const isComment = ({ where, key }) => key === "9286" || where === "gps" && (key === "001b" || key === "001c");
const isWideText = ({ where, key }) => where === "main" && tables.wideTexts.includes(key);

/** Whether a field of bytes is a text by its type or its standard. */
function isText(field) {
  if (field.where === "iptc") return /^[12]:/.test(field.key) && !tables.iptcPictures.includes(field.key);
  return field.type === "ASCII" || field.type === "UTF8" || isComment(field) || isWideText(field);
}

/** Bytes as a text of UTF-8 that can be printed, without the NUL at its end; null if they are none. */
function plainText(octets) {
  return printable(decoded(utf8, octets.at(-1) === 0 ? octets.subarray(0, -1) : octets));
}

function wideText(octets) {
  const text = decoded(strictlyWide, octets)?.replace(/\0$/, "");
  return text ? printable(text) : null;
}

/** Whether the bytes of a field are too many to be shown. */
function isLong(field, octets) {
  if (field.where === "thumb" && field.type === "octets") return true;
  if (octets.length <= LONGEST_BYTES) return false;
  if (isText(field)) return octets.length > LONGEST_TEXT;
  if (octets.length > 4 * LONGEST_OTHER_TEXT) return true;
  const text = plainText(octets);
  return text === null || [...text].length > LONGEST_OTHER_TEXT;
}

/** The text of a field whose bytes can be printed as one; null if they can't. */
function textOf(field) {
  const { octets } = field;
  if (!octets || isLong(field, octets)) return null;
  const text = isWideText(field) ? wideText(octets) : null;
  if (text !== null) return text;
  if (isComment(field) && String.fromCharCode(...octets.subarray(0, 8)) === "ASCII\0\0\0") {
    const marked = printable(decoded(utf8, octets.subarray(8)));
    if (marked !== null) return marked;
  }
  return plainText(octets);
}

const beforeNul = (octets) => octets.subarray(0, octets.indexOf(0) < 0 ? octets.length : octets.indexOf(0));

/** A text of UTF-8, or of Windows-1252; null if it is neither. */
function eitherText(octets) {
  const text = decoded(utf8, octets) ?? windows(octets);
  return decoded(utf8, octets) === null && text.search(UNDEFINED) >= 0 ? null : text;
}

/** The character set that is named in front of a comment, in eight bytes, empty for an unknown one; null if nothing like that is there. */
function characterSetOf(octets) {
  const name = String.fromCharCode(...withoutEnd(octets.subarray(0, 8), isBlank));
  return octets.length >= 8 && ["ASCII", "UNICODE", "JIS", ""].includes(name) ? name : null;
}

/** The text of a comment, whose first eight bytes name its character set (CIPA DC-008, 4.6.6); null if it is in no known one. */
function comment(octets) {
  const name = characterSetOf(octets), rest = octets.subarray(8);
  if (octets.every(isBlank) || name !== null && rest.every(isBlank)) return "";
  if (name === null) return bareComment(octets) ?? wideComment(octets);
  const ended = (text) => text === null ? null : trimmedEnd(text.split("\0")[0]);
  if (name === "UNICODE") {
    const [big, little] = wide.map((decoder) => decoder.decode(rest.subarray(0, rest.length & ~1)));
    const beyondLatin = (text) => [...text].filter((character) => character > "\u02ff").length;
    return ended((beyondLatin(big) <= beyondLatin(little) ? big : little).replace(/^\ufeff+/, ""));
  }
  return ended(name === "JIS" ? decoded(japanese, beforeNul(rest)) : eitherText(beforeNul(rest)));
}

/** The text of a comment without a character set in front. Bytes that aren't text may begin like a short one. */
function bareComment(octets) {
  const bare = beforeNul(octets), isKnown = decoded(utf8, bare) !== null || 2 * bare.filter((octet) => octet < 128).length > bare.length;
  if (!isKnown || bare.length < 8 && !octets.subarray(bare.length).every(isBlank)) return null;
  const text = printable(eitherText(bare));
  return text === null ? null : trimmedEnd(text);
}

/** The text of a comment in UTF-16 in front of which no character set is named: it can be printed, and most of it is Latin; null of any other. */
function wideComment(octets) {
  for (const decoder of [strictlyWide, strictlyWideBig]) {
    const whole = decoded(decoder, octets.subarray(0, octets.length & ~1));
    const text = whole === null ? null : printable(whole.replace(/^\ufeff+/, "").replace(/[\0 ]+$/, ""));
    if (text && 2 * [...text].filter((character) => character < "\u0250").length > [...text].length) return text;
  }
  return null;
}

/** The text of a comment; of one that is a text by its type all that is in front of a NUL, unless a character set is there. */
function textOfComment({ octets, type }) {
  const isTextual = type === "ASCII" || type === "UTF8";
  return isTextual && characterSetOf(octets) === null ? guessed(beforeNul(octets)) : comment(octets);
}

function plainComment(field) {
  const text = field.octets ? textOfComment(field) : null;
  return text === null ? null : text || EMPTY;
}

// ---- texts that look alike

const IGNORED = /[\p{Default_Ignorable_Code_Point}\ufff0-\ufffb]/gu, BLANK = /[\p{Z}\0-\x1f\x7f-\xa0\u2800]+/gu;
const HIDDEN = /[\u0300-\u036f\u1ab0-\u1aff\u1dc0-\u1dff\u20d0-\u20ff\ufe20-\ufe2f\p{Default_Ignorable_Code_Point}\ufff0-\ufffb\0-\x1f\x7f-\xa0\u2800]|(?! )\p{Z}|^ | $| (?= )/gu;
const look = (text) => text.normalize("NFC").replace(IGNORED, "").replace(BLANK, " ").trim();
const numberOf = (character) => `<U+${character.codePointAt(0).toString(16).toUpperCase().padStart(4, "0")}>`;

/** Two texts that differ. Of those that look alike the numbers of the characters that don't show: `Zu<U+0308>rich`. */
export function toldApart(both) {
  for (const hidden of [HIDDEN, /[^\0-\x7f]/gu]) {
    if (both[0] === both[1] || look(both[0]) !== look(both[1])) break;
    both = both.map((text) => text.replace(hidden, numberOf));
  }
  return both;
}

// ---- numbers: a fraction is [above, below], both BigInt and below > 0

/** The fractions of a field; null in it for a denominator of 0, and null for all if it has no numbers, or too many to be shown. */
function fractions({ type, elements, raw }) {
  if (!INTEGERS.includes(type) && !RATIOS.includes(type) || raw === "" || areLong(elements, raw)) return null;
  return raw.split(" ").map((word) => {
    const [above, below = 1n] = word.split("/").map(BigInt);
    return below === 0n ? null : below < 0n ? [-above, -below] : [above, below];
  });
}

const areLong = (elements, raw) => elements > 6 && raw.length > LONGEST_NUMBERS;
const floor = (above, below) => above / below - (above % below < 0n ? 1n : 0n);

/** The nearest integer; of two the even one. */
function rounded([above, below]) {
  const low = floor(above, below), twice = 2n * (above - low * below);
  return twice > below || twice === below && low % 2n ? low + 1n : low;
}

const float = ([above, below]) => Number(above) / Number(below); // of 32 bits each: exact, but for the division

/** A number with so many decimal places. Half of the last place is rounded to the even digit. */
function fixed(number, places) {
  const halves = Math.abs(number) * 2 ** (places + 1);
  if (halves % 2 !== 1) return number.toFixed(places);
  const scaled = (BigInt(halves) * 5n ** BigInt(places) - 1n) / 2n, even = scaled + scaled % 2n;
  const digits = even.toString().padStart(places + 1, "0");
  return `${number < 0 ? "-" : ""}${digits.slice(0, digits.length - places)}.${digits.slice(-places)}`;
}

/** A number with so many decimal places at most. */
function decimal(fraction, places = 4) {
  const text = fixed(float(fraction), places).replace(/\.?0+$/, "");
  return text === "-0" || text === "" ? "0" : text;
}

const ofNumber = (words) => (field) => {
  const found = fractions(field);
  if (found?.length !== 1) return null;
  return found[0] === null ? UNKNOWN : words(found[0]);
};
const withUnit = (unit, places) => ofNumber((fraction) => decimal(fraction, places) + unit);

function integer({ type, elements, raw }) {
  return INTEGERS.includes(type) && elements === 1 ? Number(raw) : null;
}

function seconds([above, below]) {
  return above > 0n && 4n * above < below ? `1/${rounded([below, above])} s` : `${decimal([above, below], 2)} s`;
}

/** The fraction of a double. */
function exactly(number) {
  let below = 1n;
  while (number % 1) {
    number *= 2;
    below *= 2n;
  }
  return [BigInt(number), below];
}

/** The closest fraction with a denominator of at most a million, by continued fractions. */
function simplest([above, below]) {
  const most = 1_000_000n;
  if (below <= most) return [above, below];
  let [p0, q0, p1, q1, n, d] = [0n, 1n, 1n, 0n, above, below];
  for (;;) {
    const a = floor(n, d), q2 = q0 + a * q1;
    if (q2 > most) break;
    [p0, q0, p1, q1, n, d] = [p1, q1, p0 + a * p1, q2, d, n - a * d];
  }
  const k = (most - q0) / q1, first = [p0 + k * p1, q0 + k * q1], second = [p1, q1];
  const distance = ([p, q]) => [(p * below - above * q) * (p * below < above * q ? -1n : 1n), q];
  const [far, farBelow] = distance(first), [near, nearBelow] = distance(second);
  return near * farBelow <= far * nearBelow ? second : first;
}

const shutterSpeed = ofNumber((fraction) => {
  const number = float(fraction);
  return number > -20 && number < 30 ? seconds(simplest(exactly(2 ** -number))) : null;
});
const apertureValue = ofNumber((fraction) => {
  const number = float(fraction);
  return number > -20 && number < 40 ? `f/${fixed(2 ** (number / 2), 1)}` : null;
});
const exposureValue = ofNumber((fraction) => `${fraction[0] > 0n ? "+" : ""}${decimal(fraction, 2)} EV`);

const sum = ([a, b], [c, d]) => [a * d + c * b, b * d];
const triple = (field) => {
  const found = fractions(field);
  return found?.length === 3 && !found.includes(null) ? found : null;
};

/** A latitude or a longitude. */
function angle(field) {
  const found = triple(field);
  if (!found) return null;
  const [degrees, [minutes, m], [rest, s]] = found, [above, below] = sum(sum(degrees, [minutes, m * 60n]), [rest, s * 3600n]);
  const hundredths = rounded([above * 360_000n, below]), modulo = (number, by) => number - by * floor(number, by);
  const two = modulo(floor(hundredths, 6000n), 60n).toString().padStart(2, "0");
  return `${floor(hundredths, 360_000n)}°${two}'${decimal([modulo(hundredths, 6000n), 100n], 2)}"`;
}

/** GPSTimeStamp. */
function clock(field) {
  const found = triple(field);
  if (!found) return null;
  const [hours, minutes] = found.map(([above, below]) => (above / below).toString().padStart(2, "0"));
  const [above, below] = found[2], whole = floor(above, below), part = above - whole * below;
  return `${hours}:${minutes}:${whole.toString().padStart(2, "0")}${part ? decimal([part, below], 3).slice(1) : ""} UTC`;
}

/** LensSpecification: the least and greatest focal length, and the f-number at each. */
function lens(field) {
  const found = fractions(field);
  if (found?.length !== 4) return null;
  const words = found.map((fraction) => fraction === null ? "?" : decimal(fraction, 1));
  const length = words[0] === words[1] ? words[0] : `${words[0]}-${words[1]}`, opening = words[2] === words[3] ? words[2] : `${words[2]}-${words[3]}`;
  return `${length} mm${opening === "?" || opening === "0" ? "" : ` f/${opening}`}`;
}

/** Flash, bit by bit (CIPA DC-008, 4.6.5). */
function flash(field) {
  const bits = integer(field);
  if (bits === null || bits < 0 || bits >= 1_000_000_000) return null;
  return bits & 0x20 ? tables.noFlash : tables.flash.map(([bit, mask, words]) => words[(bits >> bit) & mask]).filter(Boolean).join(", ");
}

// ---- dates, and other texts with a form

const DATE = /^(\d{4})[:-](\d\d)[:-](\d\d)(?:[ T](\d\d):(\d\d)(?::(\d\d(?:\.\d+)?))?)?([+-]\d\d:\d\d|Z)?$/;

function date(field) {
  const text = textOf(field);
  if (text === null) return null;
  if (!text.replace(/^[ :0]+/, "")) return UNKNOWN;
  const match = DATE.exec(text.replace(/^[ \0]+|[ \0]+$/g, ""));
  if (!match) return null;
  const [, year, month, day, hour, minute, second, zone = ""] = match;
  return `${year}-${month}-${day}${hour ? ` ${hour}:${minute}${second ? `:${second}` : ""}` : ""}${zone}`;
}

function iptcDate(field) {
  const match = /^(\d{4})(\d\d)(\d\d)$/.exec(textOf(field) ?? "");
  return match && (match[1] === "0000" ? UNKNOWN : match.slice(1).join("-"));
}

function iptcTime(field) {
  const match = /^(\d\d)(\d\d)(\d\d)([+-]\d\d)(\d\d)$/.exec(textOf(field) ?? "");
  return match && `${match[1]}:${match[2]}:${match[3]}${match[4]}:${match[5]}`;
}

function iptcNumber(field) {
  return field.octets.length === 2 && textOf(field) === null ? String(field.octets[0] * 256 + field.octets[1]) : null;
}

function dotted(field) {
  return field.octets?.length === 4 && textOf(field) === null ? field.octets.join(".") : null;
}

function version(field) {
  const text = textOf(field);
  return text && /^\d{4}$/.test(text) ? `${Number(text.slice(0, 2))}.${text.slice(2).replace(/0+$/, "") || "0"}` : null;
}

const letter = (words) => (field) => {
  const text = textOf(field);
  return text !== null && Object.hasOwn(words, text) ? words[text] : null;
};
const direction = (letters) => ({ octets }) => {
  const first = octets?.length ? String.fromCharCode(octets[0]).toUpperCase() : "";
  return first && letters.includes(first) ? tables.directions[first] : null;
};
const byte = (...words) => ({ octets }) => octets?.length === 1 ? words[octets[0]] ?? null : null;
const characterSet = ({ octets }) => hex(octets) === "1b2547" ? "UTF-8" : null;

// ---- the rule of each field, by its directory

const each = (keys, rule) => Object.fromEntries(keys.map((key) => [key, rule]));
const EXIF = {
  ...each(["0132", "9003", "9004"], date), ...each(["9202", "9205"], apertureValue), ...each(["9000", "a000"], version),
  "829a": ofNumber(seconds), "829d": ofNumber((fraction) => `f/${decimal(fraction, 1)}`), 9201: shutterSpeed, 9204: exposureValue,
  "920a": withUnit(" mm", 1), a405: withUnit(" mm"), 9206: withUnit(" m", 2), 9203: withUnit(" EV", 2), 9209: flash, a432: lens,
  9286: plainComment,
};
const GPS = {
  ...each(["0002", "0004", "0014", "0016"], angle), ...each(["000f", "0011", "0018"], withUnit("°", 2)),
  ...each(["001b", "001c"], plainComment), ...each(["0001", "0013"], direction("NS")),
  ...each(["0003", "0015"], direction("EW")),
  ...each(["000c", "0019"], letter(tables.units)),
  "0000": dotted, "0005": byte(...tables.altitudes), "0006": withUnit(" m", 1), "0007": clock, "000d": withUnit("", 2),
  "001d": date, "001f": withUnit(" m", 1),
};
const IIM = {
  ...each(tables.iptcDates, iptcDate), ...each(tables.iptcTimes, iptcTime), ...each(tables.iptcNumbers, iptcNumber), "1:90": characterSet,
};
const RULES = { main: EXIF, exif: EXIF, thumb: EXIF, gps: GPS, iptc: IIM };

/** The value by the rule of its field; null if there is none. */
function inWords(field) {
  const table = RULES[field.where] === EXIF ? tables.words[field.key] : undefined;
  if (table) return table[integer(field)] ?? null;
  const rules = RULES[field.where] ?? {};
  return Object.hasOwn(rules, field.key) ? rules[field.key](field) : null;
}

function asText(field) {
  const text = textOf(field);
  if (text !== null) return text.replace(/[\0 ]+$/, "") || EMPTY;
  const isTextual = field.type === "ASCII" || field.type === "UTF8" || field.where === "iptc";
  return isTextual && !isLong(field, field.octets) ? guessed(field.octets) || EMPTY : null;
}

/** Numbers as decimals, and the number of bytes that are too many to be shown. */
function withoutWords(field) {
  const { type, octets, elements, raw } = field;
  if (OCTETS.includes(type)) {
    if (octets.length <= LONGEST_BYTES && !isLong(field, octets)) return `0x${hex(octets)}`;
    return `${grouped(elements)} bytes (SHA-256 ${sha256(octets).slice(0, 8)}..)`;
  }
  const found = RATIOS.includes(type) ? fractions(field) : null;
  if (found) return found.map((fraction) => fraction === null ? UNKNOWN : decimal(fraction)).join(", ");
  return areLong(elements, raw) ? `${raw.slice(0, 60)}.. sha256:${sha256(new TextEncoder().encode(raw)).slice(0, 12)}` : raw;
}

/**
 * A field of a line of a listing: its directory, its tag or DataSet, its type and the number of its elements, and these as the line has
 * them. Bytes of IPTC and of a thumbnail have the type `octets`.
 */
export function fieldOf(where, key, type, raw) {
  const isOctets = OCTETS.includes(type), octets = isOctets ? octetsOf(raw) : null;
  return { where, key, type, raw, octets, elements: isOctets ? octets.length : raw === "" ? 0 : raw.split(" ").length };
}

/** The value of a field as a person writes it. */
export function plain(field) {
  return withoutNuls(inWords(field) || asText(field) || withoutWords(field));
}

/** A text in which the end of a line stands for NULs: databases and XML refuse them. */
const withoutNuls = (text) => text.includes("\0") ? text.split("\0").filter(trimmedEnd).join("\n") : text;

// ---- values for programs

const float32 = (digits) => new DataView(octetsOf(digits).buffer).getFloat32(0), float64 = (digits) => new DataView(octetsOf(digits).buffer).getFloat64(0);
const FLOATS = { FLOAT: float32, DOUBLE: float64 };
const oneOrAll = (values) => values.length === 1 ? values[0] : values;
const withoutNul = (octets) => withoutEnd(octets, (octet) => octet === 0);

/** The number of a word of a listing; null for a fraction with the denominator 0. */
function numberOfWord(word) {
  const [above, below = "1"] = word.split("/").map(Number);
  return Number(below) ? above / below : null;
}

function datasetValue(field) {
  const { key, octets } = field;
  if (IIM[key] === iptcNumber) return octets.length === 2 ? octets[0] * 256 + octets[1] : octets;
  return isText(field) && key !== "1:90" ? dateOf(field) ?? guessedWhole(octets) : octets;
}

const MOMENT =
  /^(\d{4})-(\d\d)-(\d\d)(?:T(\d\d):(\d\d)(?::(\d\d)(?:\.(\d{1,20}))?)?(Z|([+-])(\d\d):(\d\d))?)?$/;

/** Whether a calendar has a day: after 400 years it is the same again. */
const isDay = (year, month, day) => year > 0 && month > 0 && month < 13 && day > 0
  && day <= new Date(Date.UTC(2000 + year % 400, month, 0)).getUTCDate();

/**
 * A date in the form of XMP as ISO 8601 has it: a day, or a moment with all its parts, such as
 * `2019-03-12T11:20:45.500000+01:00`; null of another text, and of a day or a time that isn't there.
 */
export function isoDate(text) {
  const [, year, month, day, ...clock] = MOMENT.exec(text) ?? [];
  const [hour, minute, second = "00", part = "", zone, sign, hours = 0, minutes = 0] = clock;
  const ahead = 60 * hours + Number(minutes), two = (number) => `${Math.floor(number)}`.padStart(2, "0");
  if (!isDay(year, month, day) || hour > 23 || minute > 59 || second > 59 || ahead >= 24 * 60) return null;
  if (hour === undefined) return text;
  const more = Number(part.slice(0, 6)) ? `.${part.slice(0, 6).padEnd(6, "0")}` : "";
  const offset = zone ? `${ahead && sign === "-" ? "-" : "+"}${two(ahead / 60)}:${two(ahead % 60)}` : "";
  return `${text.slice(0, 16)}:${second}${more}${offset}`;
}

// The forms of dates and times in Exif and IPTC: the fields, the form, and what that is in XMP
const DATED = [
  [tables.dates, /^[\0 ]*(\d{4}):(\d\d):(\d\d) (\d\d:\d\d:\d\d)[\0 ]*$/, "$1-$2-$3T$4"],
  [tables.iptcDates, /^[\0 ]*(\d{4})(\d\d)(\d\d)[\0 ]*$/, "$1-$2-$3"],
  [tables.iptcTimes, /^[\0 ]*(\d\d)(\d\d)(\d\d)[\0 ]*$/, "2000-01-01T$1:$2:$3"],
  [tables.iptcTimes, /^[\0 ]*(\d\d)(\d\d)(\d\d)([+-]\d\d)(\d\d)[\0 ]*$/, "2000-01-01T$1:$2:$3$4:$5"],
];

/** The date or the time that a field has by its standard, as ISO 8601 has it; null if it has none. */
export function dateOf({ where, key, type, octets }) {
  const place = where === "iptc" ? key : `${where} ${key}`;
  const forms = DATED.filter(([places]) => places.includes(place));
  if (!forms.length || !["ASCII", "UTF8", "octets"].includes(type)) return null;
  const text = guessedWhole(octets);
  const [, form, written] = forms.find(([, one]) => one.test(text)) ?? [];
  const date = form ? isoDate(text.replace(form, written)) : null;
  return date && tables.iptcTimes.includes(place) ? date.slice(11) : date;
}

/** A text whose character set isn't declared, with the blanks at its end. */
const guessedWhole = (octets) => eitherShown(withoutNul(octets));

/**
 * The value of a field for a program: a number, a text, bytes, or several numbers as an array; a date is a text as ISO 8601 has it, without a
 * zone where the field has none.
 */
export function valueOf(field) {
  const { where, key, type, octets, raw } = field, place = `${where} ${key}`;
  if (!octets) return oneOrAll(raw === "" ? [] : raw.split(" ").map(FLOATS[type] ?? numberOfWord));
  if (where === "iptc") return datasetValue(field);
  if (type === "ASCII" || type === "UTF8" || type === "UNDEFINED" && tables.versions.includes(place)) {
    return dateOf(field) ?? guessedWhole(octets);
  }
  if (isComment(field)) return textOfComment(field) ?? guessedWhole(octets);
  if (isWideText(field)) return wide[1].decode(octets.subarray(0, octets.length & ~1)).replace(/\0+$/, "");
  if (type === "BYTE") return oneOrAll([...octets]);
  return type === "SBYTE" ? oneOrAll([...new Int8Array(octets)]) : octets;
}
