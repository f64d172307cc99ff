/**
 * The worker of the page: reads pictures, asks the engine, and lays fields side by side. It sends back plain data alone, so that the page can end
 * it at any time.
 * @module
 */
import { NormalTooLong, Refused, load } from "../javascript/engine.js";
import { headOfFile, haveSameBytes, identity, noteDoubt, problem, single, verdict, xmpOf } from "../javascript/head.js";
import { cameraOf, captionRows, captionTable, listsOf, pairsOf } from "../javascript/rows.js";
import tables from "../javascript/tables.js";
import { sha256 } from "../javascript/sha256.js";
import { editsOf, shared, stepsOf } from "./edits.js";

const MOST_ROWS = 3_000, MOST_NAMES = 6, MOST_CHANGES = 100; // that are sent to the page
const MOST_COMPARED = 1 << 26; // bytes of a file that isn't read
const MARKED = 2_000; // characters of a text of which words are marked

let engine;

/** The head of a file, of which a part is read at a time. */
function read(file) {
  try {
    return headOfFile(engine, { size: file.size, part: (start, end) => new Uint8Array(new FileReaderSync().readAsArrayBuffer(file.slice(start, end))) });
  } catch (error) {
    if (error instanceof DOMException) return problem("unreadable");
    throw error;
  }
}

/** Whether two files that aren't known to have the same metadata or other ones have the same bytes. */
function haveSameOctets(found, first, second) {
  if (["same", "different"].includes(found) || !second || first.size !== second.size || first.size > MOST_COMPARED) return false;
  const [one, other] = [first, second].map((file) => new Uint8Array(new FileReaderSync().readAsArrayBuffer(file)));
  return one.every((octet, i) => octet === other[i]);
}

const readAll = (...files) => files.filter(Boolean).map(read);

const digestOf = (text) => sha256(new TextEncoder().encode(text));

/** The texts about a cause. */
const aboutOf = (cause) => tables.causes[cause] ?? tables.packets[cause];

/** Why a picture of a folder has its verdict, in a few words. */
function reason({ problem: why, format, blocks, unread, further, others, notRead }) {
  if (why) {
    const words = { format: format || "no picture that is known", empty: "empty", unreadable: "can't be read", many: "too many segments", xmp: "too much XMP", long: "its head is too long", broken: `damaged ${format}: ${why.why}` };
    return words[why.name] ?? `damaged JPEG: ${why.cause} at ${why.offset}`;
  }
  const refused = blocks.filter(({ refusal }) => refusal).map(({ name, refusal: { cause, offset } }) => `${name}: ${aboutOf(cause)[0]} (${cause} at ${offset})`);
  const open = [unread && "more metadata", further.extended.length && "extended XMP, missing or not joined to a packet,", further.resources.length && "XMP in Photoshop's resources", others.length && "a segment APP1 of an unknown kind", ...notRead.map(({ what }) => what)];
  return [...refused, ...open.filter(Boolean).map((what) => `${what} that isn't read`)].join("; ");
}

/** A row with what was taken out and put in, if both pictures have a short text. */
function marked(row) {
  const [before, after] = row.cells, isText = before && after && !before.isAbsent && !after.isAbsent && before.text.length + after.text.length < MARKED;
  if (!row.isEqual && isText && before.text !== after.text) row.steps = stepsOf(before.text, after.text);
  return row;
}

/** The rows that differ: if the pictures do, without those of blocks of which nobody knows what they mean. */
const differs = (found) => (row) => !row.isEqual && !(found === "different" && row.isOpen);

const CALLS = {
  version: () => engine.version(),

  /** Two pictures, or one and null: the verdict, and the fields and captions of both. */
  look(first, second) {
    const heads = readAll(first, second), known = heads.length === 2 ? verdict(engine, ...heads) : single(heads[0]), isSameFile = haveSameOctets(known, first, second), found = isSameFile ? "same" : known, lists = listsOf(engine, heads);
    const rows = lists.flatMap((list) => list.rows), differing = rows.filter(differs(found)), equal = rows.filter(({ isEqual }) => isEqual);
    const open = rows.filter((row) => !row.isEqual && !differs(found)(row)), doubt = found === "partly" ? noteDoubt(heads) : "";
    return {
      verdict: found, isSameFile, differing: differing.slice(0, MOST_ROWS).map(marked), equal: equal.slice(0, MOST_ROWS), open: open.slice(0, MOST_ROWS),
      counts: [differing.length, equal.length, open.length], isCut: lists.some(({ isCut }) => isCut),
      captions: heads.length === 1 ? captionTable(engine, heads[0]) : pairsOf(heads).flatMap(([one, other]) => captionRows(engine, one, other, heads.map((head) => cameraOf(engine, head)))),
      sameBytes: haveSameBytes(heads), xmp: { ...xmpOf(heads), equal: equal.filter(({ isXmp }) => isXmp).length },
      sides: heads.map(({ problem: why = null, format, blocks, further, others, unread, notRead }, i) => ({
        problem: why && { ...why, about: tables.heads[why.cause] ?? [] }, format, extended: further.extended.length > 0, resources: further.resources.length > 0, others: others.length > 0, hasNote: blocks.some(({ note }) => note !== null), unread, notRead: [...notRead.map(({ what }) => what), ...i && doubt ? [doubt] : []],
        blocks: blocks.map(({ kind, name, index, data, refusal }) => ({ kind, name, index, size: data.length, refusal: refusal && { ...refusal, about: aboutOf(refusal.cause) } })),
      })),
    };
  },

  /**
   * Two pictures of folders with one path, or one and null, in a few words: how they compare, what was edited, and what identifies the metadata
   * of each.
   */
  brief(first, second) {
    const heads = readAll(first, second), isPair = heads.length === 2;
    const known = isPair ? verdict(engine, ...heads) : single(heads[0]), isSameFile = haveSameOctets(known, first, second), found = isSameFile ? "same" : known, reasons = heads.map(reason), sides = ["first: ", "second: "];
    const lists = found === "different" ? listsOf(engine, heads) : [], differing = lists.flatMap(({ rows }) => rows).filter(differs(found));
    const identities = heads.map((head) => identity(engine, head)), edits = editsOf(differing);
    return {
      verdict: found, labels: [...new Set(edits.map(({ name }) => name))].slice(0, MOST_CHANGES), names: differing.slice(0, MOST_NAMES).map(({ name }) => name), count: differing.length, isCut: lists.some(({ isCut }) => isCut),
      changes: differing.slice(0, MOST_CHANGES).map(({ name, cells }) => [name, ...cells.map((cell) => cell && cell.text + (cell.exact ? ` (${cell.exact})` : ""))]),
      edits, key: digestOf(edits.map(({ key }) => key).sort().join("\n")), shared: edits.map(shared),
      why: [reasons[0] === reasons[1] ? reasons[0] : reasons.map((text, i) => text && (isPair ? sides[i] : "") + text).filter(Boolean).join("; "), found === "partly" && noteDoubt(heads)].filter(Boolean).join("; "),
      isSameFile, isOther: heads.every(({ problem: why }) => why?.name === "format" || why?.name === "empty"),
      xmp: xmpOf(heads), sameBytes: haveSameBytes(heads), identity: isPair ? "" : identities[0], identities,
    };
  },

  /** The normal form of a block of a picture; null if it is too long. */
  form(file, kind, index) {
    const head = read(file), block = head.blocks.find((candidate) => candidate.kind === kind && candidate.index === index);
    try {
      return block ? block.form ?? engine.normalise(block.data) : null;
    } catch (error) {
      if (error instanceof NormalTooLong || error instanceof Refused) return null;
      throw error;
    }
  },
};

/** What the page has as gzip in base64. */
function unpacked(text) {
  const octets = Uint8Array.from(atob(text), (character) => character.charCodeAt(0));
  return new Response(new Blob([octets]).stream().pipeThrough(new DecompressionStream("gzip")));
}

self.onmessage = async ({ data: { id, call, words } }) => {
  try {
    engine ??= await load(unpacked(self.MODULE));
    self.postMessage({ id, answer: await CALLS[call](...words) });
  } catch (error) {
    self.postMessage({ id, error: error instanceof Error ? error.message.slice(0, 300) : "an unknown error" });
  }
};
