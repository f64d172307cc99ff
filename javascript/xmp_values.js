/**
 * The names and values of properties of XMP in plain words. They are those of the Python package exifnorm_pictures, which a test compares.
 * A value is one of those that xmpProperties returns.
 * @module
 */
import { sha256 } from "./sha256.js";
import tables from "./tables.js";

const RDF = "http://www.w3.org/1999/02/22-rdf-syntax-ns#";
const LONGEST_STRUCTURE = 400, BEGINNING = 60; // characters of the exact form of a value
const LONGEST_EXACT = 65_536; // bytes of it

const encoder = new TextEncoder();
const digestOf = (text) => sha256(encoder.encode(text));

/** The rank of a unit of UTF-16 by which texts are in the order of their characters. */
const rank = (unit) => unit >= 0xe000 ? unit - 0x800 : unit >= 0xd800 ? unit + 0x2000 : unit;

/** The order of two texts by the numbers of their characters. */
export function inOrder(first, second) {
  const length = Math.min(first.length, second.length);
  for (let i = 0; i < length; i++) {
    const order = first.charCodeAt(i) - second.charCodeAt(i);
    if (order) return rank(first.charCodeAt(i)) - rank(second.charCodeAt(i));
  }
  return first.length - second.length;
}

// ---- names

/** What identifies a property: its name with a usual prefix, or its URI in angle brackets if its namespace has none. */
export function keyOf({ namespace, name }) {
  const uri = namespace + name, at = Math.max(uri.lastIndexOf("/"), uri.lastIndexOf("#")) + 1, space = uri.slice(0, at);
  return Object.hasOwn(tables.spaces, space) && at < uri.length ? `${tables.spaces[space]}:${uri.slice(at)}` : `<${uri}>`;
}

/** The name of a property as it is shown: `XMP-dc:title`. */
export const shownName = (key) => key.startsWith("<") ? `XMP:${key}` : `XMP-${key}`;

// ---- exact values

const ODD = /[\p{C}\p{Zl}\p{Zp}\\]|(?! )\p{Zs}/gu, SHORT = { "\n": "\\n", "\r": "\\r", "\t": "\\t", "\\": "\\\\" };

function escapedCharacter(character) {
  const number = character.codePointAt(0), digits = number.toString(16);
  if (SHORT[character]) return SHORT[character];
  return number < 0x80 ? `\\x${digits.padStart(2, "0")}` : number < 0x10000 ? `\\u${digits.padStart(4, "0")}` : `\\U${digits.padStart(8, "0")}`;
}

const escaped = (text) => text.replace(ODD, escapedCharacter);

/** A text that is equal exactly for values that mean the same, of a value and its exact form. */
const identity = ({ kind, text, language }, printed) => kind === "text" ? `"${language.length}:${language}0:${text}` : kind === "resource" ? printed : `_${printed}`;

/** The exact forms of the members of a list, with the members; those of a Bag in an order that doesn't depend on how it is written. */
function printedMembers({ kind, members }) {
  const printed = members.map((member) => [exact(member), member]);
  if (kind !== "Bag") return printed;
  const keyed = printed.map((pair) => [identity(pair[1], pair[0]), pair]);
  return keyed.sort(([first], [second]) => inOrder(first, second)).map(([, pair]) => pair);
}

/** A value as it is printed exactly. */
function exact(value) {
  const { kind, text, language, uri, properties } = value;
  if (kind === "text") return `"${escaped(text).replaceAll('"', '\\"')}"${language && "@"}${language}`;
  if (kind === "resource") return `<${escaped(uri)}>`;
  if (kind !== "structure") return `${kind}[${printedMembers(value).map(([printed]) => printed).join(", ")}]`;
  const named = properties.map((property) => [keyOf(property), property.value]).sort(([first], [second]) => inOrder(`${first}=`, `${second}=`));
  return `{${named.map(([key, inner]) => `${escaped(key)}=${exact(inner)}`).join(", ")}}`;
}

/** A digest of the statements that a list or a structure makes, in any order. */
function statementsDigest({ kind, members, properties }) {
  const isBag = kind === "Bag";
  const statements = properties?.map(({ namespace, name, value }) => [namespace + name, value]) ??
    [[`${RDF}type`, { kind: "resource", uri: RDF + kind }], ...members.map((member, i) => [isBag ? "member" : `${RDF}_${i + 1}`, member])];
  const lines = statements.map(([word, value]) => `${word.length}:${word}${meaningKey(value)}`).sort(inOrder);
  return digestOf(lines.map((line) => `${encoder.encode(line).length}:${line}`).join(""));
}

/** A text that is equal for two values exactly if they mean the same. */
function meaningKey(value) {
  if (value.kind === "text") return identity(value, "");
  return value.kind === "resource" ? `<${value.uri}` : `_${statementsDigest(value)}`;
}

/** The exact form of a value; of a long one its beginning and a digest. */
export function shownExactly(value) {
  const printed = exact(value), long = (key) => `${[...printed.slice(0, 2 * BEGINNING)].slice(0, BEGINNING).join("")}.. sha256:${digestOf(key).slice(0, 12)}`;
  const isSimple = value.kind === "text" || value.kind === "resource";
  if (!isSimple && !textsIn(value).length && printed.length > LONGEST_STRUCTURE && [...printed].length > LONGEST_STRUCTURE) return long(meaningKey(value));
  return printed.length > LONGEST_EXACT / 4 && encoder.encode(printed).length > LONGEST_EXACT ? long(identity(value, printed)) : printed;
}

// ---- texts

/** The texts of a value: of a list all, of alternatives the default one. A structure has none, unless it is a text with qualifiers. */
export function textsIn({ kind, text, uri, members, properties }) {
  if (kind === "text") return [text];
  if (kind === "resource") return [uri];
  if (kind === "structure") return properties.filter(({ namespace, name, value }) => namespace + name === `${RDF}value` && value.kind === "text").map(({ value }) => value.text);
  if (kind !== "Alt") return members.flatMap(textsIn);
  const every = members.filter((member) => member.kind === "text");
  const chosen = every.find(({ language }) => language === "x-default") ?? every[0];
  return chosen ? [chosen.text] : [];
}

/** The texts of a simple value or of a list of such, each with its language; null if there is a structure in it. */
function simpleTexts(value) {
  if (value.kind === "text") return [[value.text, value.language]];
  if (value.kind === "resource") return [[value.uri, ""]];
  if (value.kind === "structure") return null;
  const texts = [];
  for (const [, member] of printedMembers(value)) {
    const some = simpleTexts(member);
    if (!some) return null;
    texts.push(...some);
  }
  return texts;
}

/** The texts of a property, separated by semicolons, each with its language unless x-default is the only one. */
export function plainXmp(value) {
  const texts = simpleTexts(value);
  if (!texts) return shownExactly(value);
  const showsLanguage = texts.some(([, language]) => language && language !== "x-default");
  return texts.map(([text, language]) => showsLanguage && language ? `${text} (${language})` : text).join("; ") || "(empty)";
}
