/**
 * The fields and captions of blocks, and of two blocks side by side: with their names, and with their values in plain words.
 * @module
 */
import { KINDS, KIND_NAMES, mayHide } from "./head.js";
import { fieldsOf, nameOf, orderOf } from "./listing.js";
import { isOwn } from "./own.js";
import tables from "./tables.js";
import { asciiOf, guessed, plain, toldApart } from "./values.js";
import { inOrder, keyOf, plainXmp, shownExactly, shownName, textsIn } from "./xmp_values.js";

export const MOST_FIELDS = 20_000; // of a block, that are listed; so many captions, too
const LONGEST = 2_000, MOST_MEMBERS = 200; // characters of a value, and members of a list of IPTC
const EMPTY = "(empty)", DATE = "date created", CAN_BE_OWN = ["caption", "comment"], GUESS = " (its character set isn't declared)";

/** The start of a text that is too long to be shown. */
export const shortened = (text) => text.length > LONGEST ? `${text.slice(0, LONGEST)} ..` : text;

const UNREAD = { isUnread: true }; // in place of a block of a picture that isn't read
export const isValid = (block) => !!block && !block.refusal && !block.isUnread;

/** The first fields of a valid block. */
export const firstFields = (engine, block) => isValid(block) ? fieldsOf(engine.show(block.data), MOST_FIELDS) : [];

/** Fields by their places: a DataSet that is repeated is one field with several values. */
export function byPlace(fields) {
  const places = new Map();
  for (const field of fields) {
    const place = `${field.where} ${field.key}`, group = places.get(place);
    if (group) group.push(field); else places.set(place, [field]);
  }
  return places;
}

const isSame = (first, second) => first.type === second.type && first.raw === second.raw && first.elements === second.elements;

/** The plain values of a field. */
export function plainOf(group) {
  const shown = group.slice(0, 200).map((field) => shortened(plain(field)) || "(empty)");
  return shortened(shown.join("; ") + (group.length > shown.length ? `; and ${group.length - shown.length} more` : ""));
}

const exactOf = ({ raw }) => raw.length > 160 ? `${raw.length.toLocaleString("en")} digits` : raw;

/** What tells two fields apart whose plain values are alike. */
function apart(first, second) {
  if (first.length !== second.length) return [first, second].map((group) => `${group.length} values`);
  const index = first.findIndex((field, i) => !isSame(field, second[i])), [one, other] = [first[index], second[index]];
  if (one.type !== other.type) return [one.type, other.type];
  if (one.octets && one.elements !== other.elements) return [one, other].map(({ elements }) => `${elements.toLocaleString("en")} bytes`);
  if (!one.octets || one.elements <= 40) return [one, other].map(exactOf);
  const at = one.octets.findIndex((octet, i) => octet !== other.octets[i]), start = Math.max(0, at - 4);
  return [one, other].map(({ raw }) => `byte ${at.toLocaleString("en")}: .. ${raw.slice(2 * start, 2 * at + 16)} ..`);
}

/** Lets two values look different that are. What tells them apart otherwise is added if their texts are equal. */
function tellApart(cells, exactly) {
  if (cells[0].text === cells[1].text) exactly().forEach((text, i) => { cells[i].exact = text; });
  else toldApart(cells.map(({ text }) => text)).forEach((text, i) => { cells[i].text = text; });
}

/** What is shown where a block has no value: nothing, or that it is refused or not read. */
function absent(block) {
  if (!block || isValid(block)) return null;
  return { text: block.isUnread || block.refusal.isRare ? "not read" : "refused", isAbsent: true };
}

/** Whether one of two blocks is there without a known meaning, so that nobody knows whether a field differs. */
const isOpen = (blocks) => blocks.some((block) => block && !isValid(block));

/** The properties of a packet by their keys: those that are listed. */
export function valuesOf(block) {
  const properties = isValid(block) ? block.properties.slice(0, MOST_FIELDS) : [];
  return new Map(properties.map((property) => [keyOf(property), property.value]));
}

/** What tells two exact values apart, also where they differ behind what is shown. */
function exactlyApart(both) {
  if (shortened(both[0]) !== shortened(both[1])) return both.map(shortened);
  const [one, other] = both.map((text) => [...text]), at = one.findIndex((character, i) => character !== other[i]);
  return [one, other].map((text) => `character ${at.toLocaleString("en")}: .. ${text.slice(Math.max(0, at - 20), at + 60).join("")} ..`);
}

/** The rows of properties of two packets, or of one and none. A form has one way of writing, so equal values are equal as JSON. */
function xmpRowsOf(blocks, suffix) {
  const both = blocks.map((block) => valuesOf(block)), keys = [...new Set(both.flatMap((values) => [...values.keys()]))].sort(inOrder);
  const rows = keys.map((key) => {
    const values = both.map((side) => side.get(key)), isEqual = JSON.stringify(values[0]) === JSON.stringify(values[1]);
    const cells = values.map((value, i) => value ? { text: shortened(plainXmp(value)), exact: "" } : absent(blocks[i]));
    if (values[0] && values[1] && !isEqual) tellApart(cells, () => exactlyApart(values.map((value) => shownExactly(value))));
    const isList = values.every((value) => !value || value.kind === "Bag" || value.kind === "Seq"), members = isList ? values.map((value) => value ? textsIn(value) : []) : null;
    return { name: shownName(key) + suffix, label: tables.labels[key], isEqual, isXmp: true, isOpen: isOpen(blocks), cells, members };
  });
  return { rows, isCut: both.some(({ size }) => size === MOST_FIELDS) };
}

/** The rows of fields of two blocks, or of one and none; and whether a block may have more fields than are listed. */
export function rowsOf(engine, first, second, suffix = "") {
  if ((first?.kind ?? second?.kind) === "xmp") return xmpRowsOf([first, second], suffix);
  const fields = [first, second].map((block) => firstFields(engine, block)), both = fields.map(byPlace), groups = [...new Map([...both[0], ...both[1]])];
  groups.sort(([, [one]], [, [other]]) => orderOf(one) - orderOf(other));
  const rows = groups.map(([place, [field]]) => {
    const [one, other] = both.map((places) => places.get(place)), cells = [one, other].map((group, i) => group ? { text: plainOf(group), exact: "" } : absent([first, second][i]));
    const isEqual = !!one && !!other && one.length === other.length && one.every((value, i) => isSame(value, other[i]));
    if (one && other && !isEqual) tellApart(cells, () => apart(one, other));
    const members = field.where === "iptc" && tables.repeated.includes(field.key) ? [one, other].map((group = []) => group.slice(0, MOST_MEMBERS).map((some) => plain(some))) : null;
    return { name: nameOf(field) + suffix, label: labelOf(field), isEqual, isOpen: isOpen([first, second]), cells, members };
  });
  return { rows, isCut: fields.some(({ length }) => length === MOST_FIELDS) };
}

/** The label of a field of Exif or IPTC, such as `caption`; undefined for one without. */
export const labelOf = ({ where, key }) => tables.labels[`${where} ${key}`];

/** The make and the model in a head. */
export function cameraOf(engine, { blocks }) {
  const texts = blocks.filter(({ kind }) => kind === "exif").map((block) => {
    const fields = firstFields(engine, block).filter(({ where }) => where === "main");
    return ["010f", "0110"].map((tag) => fields.find(({ key }) => key === tag)).map((field) => field?.octets ? guessed(field.octets) : "");
  });
  return texts.find(([make, model]) => make || model) ?? ["", ""];
}

/** The captions of a valid block that a person wrote: each with its label, its text, and the name of its field. */
export function captionsOf(engine, block, camera) {
  const isOfCamera = ({ label, text }) => CAN_BE_OWN.includes(label) && isOwn(tables.own, text, ...camera);
  return allCaptionsOf(engine, block).filter((one) => one.text !== EMPTY && !isOfCamera(one));
}

const octetsBeyond = ({ octets }) => !!octets && octets.some((octet) => octet > 127);

function allCaptionsOf(engine, block) {
  if (!isValid(block)) return [];
  if (block.kind === "xmp") return captionsOfPacket(block);
  const fields = firstFields(engine, block).filter(({ octets }) => octets);
  return block.kind === "exif" ? captionsOfExif(byTag(fields)) : captionsOfIptc(fields);
}

function captionsOfPacket(block) {
  return [...valuesOf(block)].filter(([key]) => Object.hasOwn(tables.labels, key)).flatMap(([key, value]) => {
    const label = tables.labels[key], texts = textsIn(value).map((text) => text.trim() || EMPTY);
    return texts.map((text) => ({
      label, text: label === DATE ? text.replaceAll("T", " ") : text, name: shownName(key),
    }));
  });
}

// The tags with a part in a label whose directory is that of Exif; of the others it is the main one
const OF_EXIF = ["9003", "9011", "9286", "9291"];

/** The fields of Exif by their tags. Some programs write a field into the other directory. */
function byTag(fields) {
  const found = new Map();
  for (const field of fields.filter(({ where }) => where === "main" || where === "exif")) {
    const isAtHome = (field.where === "exif") === OF_EXIF.includes(field.key);
    if (isAtHome || !found.has(field.key)) found.set(field.key, field);
  }
  return found;
}

function captionsOfExif(fields) {
  const labelled = (key) => tables.labels[`${OF_EXIF.includes(key) ? "exif" : "main"} ${key}`];
  return [...fields].filter(([key]) => labelled(key)).map(([key, field]) => ({
    label: labelled(key), text: key === "9003" ? dateOfExif(fields) : plain(field), name: nameOf(field),
  }));
}

/** The date of Exif with its part of a second and its zone, if they are there. */
function dateOfExif(fields) {
  const [taken, part, zone] = ["9003", "9291", "9011"].map((key) => asciiOf(fields.get(key)));
  const more = /^\d+$/.test(part) ? `.${part}` : "", ahead = /^(?:Z|[+-]\d\d:\d\d)$/.test(zone) ? zone : "";
  const text = taken.slice(0, 10).replaceAll(":", "-") + taken.slice(10) + more + ahead;
  return /[^ :0.-]/.test(text) ? text : EMPTY;
}

function captionsOfIptc(fields) {
  const isDeclared = fields.some(({ key, raw }) => key === "1:90" && raw === "1b2547");
  const first = (number) => fields.find(({ key }) => key === number), day = first("2:55");
  const labelled = fields.filter((field) => labelOf(field) && (field.key !== "2:55" || field === day));
  return labelled.map((field) => {
    const isGuess = field !== day && !isDeclared && octetsBeyond(field);
    const text = field === day ? dateOfIptc(day, first("2:60")) : plain(field);
    return { label: labelOf(field), text, name: nameOf(field), ...isGuess && { isGuess } };
  });
}

const CLOCK = /^(\d\d)(\d\d)(\d\d(?:\.\d+)?)(?:([+-]\d\d)(\d\d))?$/;

/** The date of IPTC with its time, if it is there. */
function dateOfIptc(day, time) {
  const date = asciiOf(day).replace(/^(\d{4})(\d\d)(\d\d)$/, "$1-$2-$3"), clock = asciiOf(time);
  const [, hour, minute, second, ahead, more] = CLOCK.exec(clock) ?? [];
  const written = hour ? `${hour}:${minute}:${second}${ahead ? `${ahead}:${more}` : ""}` : clock;
  const text = date + (/^\d{6}/.test(clock) ? ` ${written}` : "");
  return /[^ :0+-]/.test(text) ? text : EMPTY;
}

/** The captions of one head: for each label its texts in Exif, IPTC and XMP, beside each other. */
export function captionTable(engine, head) {
  const found = new Map([...new Set(Object.values(tables.labels))].map((label) => [label, [null, null, null]])), camera = cameraOf(engine, head);
  for (const block of head.blocks) {
    for (const { label, text, isGuess } of captionsOf(engine, block, camera)) {
      const cells = found.get(label), at = KINDS.indexOf(block.kind), shown = text + (isGuess ? GUESS : "");
      cells[at] = { text: shortened(cells[at] ? `${cells[at].text}; ${shown}` : shown) };
    }
  }
  return [...found].filter(([, cells]) => cells.some(Boolean)).map(([label, cells]) => ({ label, cells }));
}

/** The captions of two blocks side by side, or of one and none, of pictures of these cameras. */
export function captionRows(engine, first, second, cameras) {
  const blocks = [first, second], kind = first?.name ?? second?.name, both = blocks.map((block, i) => {
    const labels = new Map();
    for (const { label, text, isGuess } of captionsOf(engine, block, cameras[i] ?? cameras[0])) labels.set(label, [...labels.get(label) ?? [], text + (isGuess ? GUESS : "")]);
    return labels;
  });
  return [...new Set(Object.values(tables.labels))].filter((label) => both.some((labels) => labels.has(label))).map((label) => {
    const cells = both.map((labels, i) => labels.has(label) ? { text: shortened(labels.get(label).join("; ")) } : absent(blocks[i]));
    if (both.every((labels) => labels.has(label))) tellApart(cells, () => []);
    return { label: `${label} (${kind})`, cells };
  });
}

/** The blocks of two heads, or of one, in pairs of the same name; with a suffix for the fields of those that aren't the first of their kind. */
export function pairsOf(heads) {
  const named = heads.map(({ blocks }) => new Map(blocks.map((block) => [block.name, block])));
  const names = [...new Set(named.flatMap((blocks) => [...blocks.keys()]))], kindOf = (name) => KINDS.indexOf(named.map((blocks) => blocks.get(name)).find(Boolean).kind);
  const isHidden = (name, head, other) => head && other && mayHide(KINDS[kindOf(name)], head, other);
  const blockOf = (side, name) => heads[side]?.problem ? UNREAD : named[side]?.get(name) ?? (isHidden(name, heads[side], heads[1 - side]) ? UNREAD : undefined);
  return names.sort((first, second) => kindOf(first) - kindOf(second)).map((name) => [blockOf(0, name), blockOf(1, name), Object.values(KIND_NAMES).includes(name) ? "" : ` (${name})`]);
}

/** The names of directories that only one of two blocks has, by their rows. */
function loneGroups({ rows }) {
  const sides = new Map();
  for (const { name, cells } of rows.filter(({ isXmp }) => !isXmp)) {
    const group = name.split(":")[0], there = sides.get(group) ?? [false, false];
    sides.set(group, there.map((is, i) => is || !!cells[i] && !cells[i].isAbsent));
  }
  return [...sides].filter(([, there]) => there.includes(false)).map(([group]) => group);
}

/** The lists of rows of two heads, or of one. A row of a block or directory that only one of them has says so. */
export function listsOf(engine, heads) {
  return pairsOf(heads).map(([one, other, suffix]) => {
    const list = rowsOf(engine, one, other, suffix), part = heads.length === 2 && !(one && other) ? (one ?? other).name : "";
    const lone = heads.length === 2 && !part ? loneGroups(list) : [];
    for (const row of list.rows) Object.assign(row, { part: part || (!row.isXmp && lone.includes(row.name.split(":")[0]) ? row.name.split(":")[0] : ""), suffix });
    return list;
  });
}
