/**
 * Edits: what somebody did to the fields of a picture, so that equal edits of many pictures are one, and the odd ones are seen. The edit of a
 * text is the words that were taken out and put in, as the report of exifnorm_pictures has them; of a list its members.
 * @module
 */
import tables from "../javascript/tables.js";

// Scripts without blanks between words have a word for each character.
const WORD = /\s+|[^\P{Alphabetic}\u0e00-\u0eff\u1000-\u109f\u1780-\u17ff\u3040-\u30ff\u3400-\u4dbf\u4e00-\u9fff\uf900-\ufaff\u{20000}-\u{3ffff}]+|[\p{N}_]+|[^]/gu;
const KEPT = "=", OUT = "-", IN = "+";
const MOST_STEPS = 10_000; // of comparing words
const POSITION = "position", MOST_EDITS = 100, FEW = 6; // fields of a block that came or went, which don't count beside a text of it
const MOMENT = /^(\d{4}-\d\d-\d\d)(?: (\d\d:\d\d)(:\d\d)?)?$/;

/** The longest run of words that two ranges have in common, the first one in each: where it begins in both, and its length. */
function longestMatch(words, places, [start, end, otherStart, otherEnd]) {
  let best = [start, otherStart, 0], runs = new Map();
  for (let i = start; i < end; i++) {
    const next = new Map();
    for (const j of places.get(words[i]) ?? []) {
      if (j < otherStart) continue;
      if (j >= otherEnd) break;
      const length = (runs.get(j - 1) ?? 0) + 1;
      next.set(j, length);
      if (length > best[2]) best = [i - length + 1, j - length + 1, length];
    }
    runs = next;
  }
  return best;
}

/** The steps between two lists of words, by their longest common runs. */
function between(words, others) {
  const places = new Map();
  others.forEach((word, j) => { if (places.has(word)) places.get(word).push(j); else places.set(word, [j]); });
  const within = (range) => {
    const [start, end, otherStart, otherEnd] = range, [i, j, length] = longestMatch(words, places, range);
    if (!length) return [[OUT, words.slice(start, end).join("")], [IN, others.slice(otherStart, otherEnd).join("")]];
    return [...within([start, i, otherStart, j]), [KEPT, words.slice(i, i + length).join("")], ...within([i + length, end, j + length, otherEnd])];
  };
  return within([0, words.length, 0, others.length]);
}

/** Steps without empty ones, and with those joined that follow each other. Blanks and signs between two words that changed count as changed. */
function joinedSteps(steps) {
  const left = steps.filter(([, text]) => text), joined = [];
  let out = "", put = "";
  const flush = () => {
    if (out) joined.push([OUT, out]);
    if (put) joined.push([IN, put]);
    out = put = "";
  };
  left.forEach(([sign, text], at) => {
    const isBetween = sign === KEPT && at > 0 && at < left.length - 1 && !/[\p{L}\p{N}]/u.test(text);
    if (sign === KEPT && !isBetween) {
      flush();
      joined.push([KEPT, text]);
      return;
    }
    if (sign !== IN) out += text;
    if (sign !== OUT) put += text;
  });
  flush();
  return joined;
}

/** How one text becomes the other one, word by word: `=` words that were kept, `-` taken out, and `+` put in. */
export function stepsOf(before, after) {
  const words = before.match(WORD) ?? [], others = after.match(WORD) ?? [], least = Math.min(words.length, others.length);
  let start = 0, ends = 0;
  while (start < least && words[start] === others[start]) start++;
  while (ends < least - start && words.at(-1 - ends) === others.at(-1 - ends)) ends++;
  const first = words.slice(start, words.length - ends), second = others.slice(start, others.length - ends);
  const middle = first.length * second.length > MOST_STEPS ? [[OUT, first.join("")], [IN, second.join("")]] : between(first, second);
  return joinedSteps([[KEPT, words.slice(0, start).join("")], ...middle, [KEPT, words.slice(words.length - ends).join("")]]);
}

/** What equal edits have in common: what was taken out and put in, and whether that is between kept words. */
function coreOf({ steps, isList }) {
  if (!isList && steps.every(([sign]) => sign !== KEPT)) return steps.filter(([sign]) => sign === IN); // nothing was kept: only the new value counts
  const bare = steps.map(([sign, text]) => sign === KEPT ? [KEPT, ""] : [sign, text.trim() || text]);
  if (bare[0]?.[0] === KEPT && bare[1]?.[0] === OUT) bare.shift(); // what took its place, and what was removed, may be anywhere in a text
  if (bare.at(-1)?.[0] === KEPT && bare.slice(-3, -1).some(([sign]) => sign === OUT)) bare.pop();
  return bare;
}

const without = (some, others) => {
  const left = [...others];
  return some.filter((one) => {
    const at = left.indexOf(one);
    if (at >= 0) left.splice(at, 1);
    return at < 0;
  }).sort();
};

/** The time by which a date moved, in words; empty if it didn't, or isn't one. */
function shiftOf(before, after) {
  const [one, other] = [before, after].map((text) => MOMENT.exec(text));
  if (!one?.[2] || !other?.[2]) return "";
  const [from, to] = [one, other].map(([, day, time, second = ":00"]) => Date.parse(`${day}T${time}${second}Z`)), size = Math.abs(to - from) / 1000;
  if (!size || Number.isNaN(size)) return "";
  const days = Math.floor(size / 86400), parts = [[days, days === 1 ? "day" : "days"], [Math.floor(size / 3600) % 24, "h"], [Math.floor(size / 60) % 60, "min"], [size % 60, "s"]];
  return `${parts.filter(([count]) => count).map(([count, word]) => `${count.toLocaleString("en")} ${word}`).join(" ")} ${to > from ? "later" : "earlier"}`;
}

const PLAIN_BYTES = /^(?:ExifIFD:MakerNote|IFD1:(?:ThumbnailImage|jpeg|strip))/, NUMBERS = /^-?\d+(?:\/-?\d+)?(?: -?\d+(?:\/-?\d+)?)*$/;
const textsOf = ({ cells }) => cells.map((cell) => cell ? cell.text + (cell.exact ? ` (${cell.exact})` : "") : null);

/** The edit of one row of fields. */
function editOf(row, name) {
  const { members, cells: [before, after] } = row, edit = { name, fields: [row.name], note: "", steps: [], isList: false }, texts = textsOf(row);
  if (before?.exact && after?.exact && [before, after].every(({ exact }) => NUMBERS.test(exact))) return { ...edit, name: "equal numbers", note: "written otherwise" };
  if (PLAIN_BYTES.test(row.name)) return { ...edit, note: texts[1] === null ? "removed" : texts[0] === null ? "added" : "other bytes" };
  if (texts[1] === null) return { ...edit, note: "removed", steps: [[OUT, texts[0]]] };
  const shift = texts[0] === null ? "" : shiftOf(...texts);
  if (shift) return { ...edit, name: "dates", note: shift, steps: [[OUT, texts[0]], [IN, texts[1]]] };
  if (members && !members.every(({ length }) => length === 1)) {
    const [less, more] = [without(members[0], members[1]), without(members[1], members[0])], steps = [...less.map((text) => [OUT, text]), ...more.map((text) => [IN, text])];
    return steps.length ? { ...edit, steps, isList: true } : { ...edit, note: "the same list in another order" };
  }
  const steps = texts[0] === null ? [[IN, texts[1]]] : stepsOf(...texts), isNew = steps.every(([sign, text]) => sign !== KEPT || !text.trim());
  return { ...edit, steps: isNew ? [...texts[0] === null ? [] : [[OUT, texts[0]]], [IN, texts[1]]] : steps };
}

/** The fields of a position as one edit, of Exif and of XMP: its parts in one text. */
function positionEdits(rows) {
  return [false, true].flatMap((isXmp) => {
    const mine = rows.filter((row) => Boolean(row.isXmp) === isXmp), [before, after] = [0, 1].map((side) => mine.map((row) => textsOf(row)[side]).filter((text) => text !== null).join(", "));
    if (!before && !after) return [];
    const steps = [...before ? [[OUT, before]] : [], ...after ? [[IN, after]] : []];
    return [{ name: POSITION, fields: mine.map(({ name }) => name), note: after ? "" : "removed", steps, isList: false, isMinor: false }];
  });
}

const partOf = ({ part, cells }) => part ? `${part} ${cells[0] ? "removed" : "added"}` : "";

/** The blocks and directories that came or went as one edit. Of a small one only the texts count that came with it, or the only one that went. */
function wholeParts(rows, nameOf) {
  const parts = new Map();
  for (const row of rows.filter(({ part }) => part)) {
    const found = parts.get(partOf(row)) ?? parts.set(partOf(row), { count: 0, texts: new Set(), isGone: !row.cells[1] }).get(partOf(row));
    found.count++;
    if (nameOf(row) !== row.name) found.texts.add(nameOf(row));
  }
  return new Set([...parts].filter(([, { count, texts, isGone }]) => count > FEW || isGone && texts.size !== 1).map(([part]) => part));
}

/** The edit of a row that is no position. */
function plainEdit(row, name, whole, byThemselves) {
  const isWhole = whole.has(partOf(row)), isGone = !row.cells[1], isText = name !== row.name;
  if (isWhole && (isGone || !isText)) return { name: row.part, fields: isText ? [row.name] : [], note: isGone ? "removed" : "added", steps: [], isMinor: false };
  return { ...editOf(row, name), isMinor: byThemselves.includes(row.name) || Boolean(row.part) && !isWhole && !isText };
}

/**
 * The edits of a picture by the fields that differ, those with a label first. A block that came or went is one edit, but for the texts that came with it. Each edit has a `key`,
 * which equal edits share.
 */
export function editsOf(rows) {
  const { labelled, byThemselves } = tables, edits = new Map(), bare = ({ name, suffix = "" }) => name.slice(0, name.length - suffix.length), nameOf = (row) => (labelled[bare(row)] ?? bare(row)) + (row.suffix ?? "");
  const whole = wholeParts(rows, nameOf), isPosition = (row) => nameOf(row) === POSITION && !(whole.has(partOf(row)) && !row.cells[1]), order = new Map([...new Set(Object.values(labelled))].map((label, i) => [label, i]));
  for (const edit of [...positionEdits(rows.filter(isPosition)), ...rows.filter((row) => !isPosition(row)).map((row) => plainEdit(row, nameOf(row), whole, byThemselves))]) {
    const key = JSON.stringify([edit.name, edit.note, edit.note ? [] : coreOf(edit)]), known = edits.get(key);
    if (known) {
      known.fields = [...new Set([...known.fields, ...edit.fields])];
      known.isMinor &&= edit.isMinor;
    } else if (edits.size < MOST_EDITS) edits.set(key, { ...edit, key });
    else edits.set("", { name: "further fields", fields: [], note: "changed", steps: [], key: "" });
  }
  const major = [...edits.values()].filter((edit) => !edit.isMinor), placeOf = ({ name }) => order.get(name) ?? order.size;
  if (major.length || !edits.size) return major.sort((one, other) => placeOf(one) - placeOf(other) || (one.name < other.name ? -1 : Number(one.name > other.name)));
  return [{ name: "what programs write by themselves", fields: [], note: "changed", steps: [], key: "minor" }];
}

/** An edit with `..` in place of kept words, as equal edits share it. */
export const shared = (edit) => ({ name: edit.name, fields: edit.fields, note: edit.note, isList: edit.isList, steps: edit.note ? [] : coreOf(edit).map(([sign, text]) => [sign, sign === KEPT ? ".." : text]) });
