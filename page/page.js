/** The page: what is chosen, and what the worker answers. Whatever comes from pictures and names is put in as text, never as HTML. */
"use strict";

const PATIENCE = 30_000; // milliseconds for one question
const ROWS = 300; // of a list, that are shown at once
const MOST_KEPT = 50_000_000; // characters of changed values, for all pictures of folders
const MOST_FILES = 500_000, AT_ONCE = 100, MOST_REFUSALS = 20;
const TWO = "Choose one or two, please: pictures or folders.";
const SIDES = ["first", "second"], KINDS = { exif: "Exif", iptc: "IPTC", xmp: "XMP" };
const PICTURES = /\.(?:xmp|jpe?g|jpe|png|tiff?|webp|hei[cf]|avif|dng|nef|cr[23]|arw|orf|rw2|raf|psd|gif|jp2|jxl|bmp)$/i;

const $ = (id) => document.getElementById(id);
const counted = (number) => number.toLocaleString("en");
const many = (number, noun) => `${counted(number)} ${noun}${number === 1 ? "" : "s"}`;
const listed = (words) => words.length < 2 ? words.join("") : `${words.slice(0, -1).join(", ")} and ${words.at(-1)}`;

const TOO_MANY = `It has more than ${counted(MOST_FILES)} files.`;

const escaped = (character) => `\\u${character.codePointAt(0).toString(16).padStart(4, "0")}`;

/** A text without characters that control how it is shown, such as marks of direction. */
const safe = (text) => text.replace(/[^\P{C}\n\t]|[\u2028\u2029]/gu, escaped);

/** A name or a path, in one line. */
const safeName = (name) => safe(name).replace(/[\n\t]/g, escaped);

/** An element with its class, and its children: texts or elements; what is empty is left out. */
function element(tag, name, ...children) {
  const node = document.createElement(tag);
  if (name) node.className = name;
  node.append(...children.filter((child) => child !== null && child !== undefined && child !== false && child !== ""));
  return node;
}

function button(text, act, name = "") {
  const node = element("button", name, text);
  node.type = "button";
  node.onclick = act;
  return node;
}

/** A text of our own in which `words` are code. */
const withCode = (text) => text.split("`").map((part, i) => i % 2 ? element("code", "", part) : part);

/** Shows a sentence, which screen readers announce. What the result shows too is only announced. */
function say(text, isShown = true) {
  $("status").textContent = text;
  $("status").classList.toggle("unseen", !isShown);
}

/** Lets the user save bytes as a file. */
function save(name, content, type) {
  const link = element("a", ""), address = URL.createObjectURL(new Blob([content], { type }));
  link.href = address;
  link.download = name;
  link.click();
  setTimeout(() => URL.revokeObjectURL(address), 60_000);
}

/** What the page has as gzip in base64. */
function unpacked(text) {
  const octets = Uint8Array.from(atob(text), (character) => character.charCodeAt(0));
  return new Response(new Blob([octets]).stream().pipeThrough(new DecompressionStream("gzip")));
}

// ---- the worker

const policy = self.trustedTypes?.createPolicy("exifnorm", { createScriptURL: (address) => address }) ?? { createScriptURL: (address) => address };
const waiting = new Map(); // questions by their numbers
let worker = null, scripts = null, questions = 0;

function begin() {
  const given = `self.MODULE = ${JSON.stringify($("module").textContent)};`;
  const address = URL.createObjectURL(new Blob([`${given}\n${scripts}`], { type: "text/javascript" }));
  worker = new Worker(policy.createScriptURL(address));
  URL.revokeObjectURL(address);
  worker.onmessage = ({ data: { id, answer, error } }) => {
    const question = waiting.get(id);
    if (!question) return;
    waiting.delete(id);
    clearTimeout(question.timer);
    if (error) question.failed(new Error(error)); else question.done(answer);
  };
  worker.onerror = (event) => end(event.message || "the engine stopped");
}

/** Ends the worker with all that it was asked. The next question begins another one. */
function end(why) {
  worker?.terminate();
  worker = null;
  for (const { failed, timer } of waiting.values()) {
    clearTimeout(timer);
    failed(new Error(why));
  }
  waiting.clear();
}

/** What the worker answers, or an error: also if that takes too long. */
async function ask(call, ...words) {
  scripts ??= await unpacked($("worker").textContent).text();
  if (!worker) begin();
  return new Promise((done, failed) => {
    const id = ++questions, timer = setTimeout(() => end(`it took more than ${PATIENCE / 1000} seconds`), PATIENCE);
    waiting.set(id, { done, failed, timer });
    worker.postMessage({ id, call, words });
  });
}

// ---- what is chosen: on each side { name, file } for a picture, or { name, files } for a folder, with its files by their paths

const chosen = [null, null];
let turn = 0; // each choice ends the work for the one before

/** Work was stopped by its button, or by another choice. */
class Stopped extends Error {}

/** Begins work, which ends that before it. Its `step` shows how far it is, at most five times a second, and throws once it is stopped. */
function begun(stop = () => {}) {
  const mine = ++turn;
  let isStopped = false, last = 0;
  $("running").hidden = false;
  $("progress").removeAttribute("value"); // until it is known how much there is
  $("stop").onclick = () => {
    isStopped = true;
    stop();
  };
  const step = (text, done = null, all = null) => {
    if (isStopped || mine !== turn) throw new Stopped();
    if (performance.now() - last < 200) return;
    last = performance.now();
    say(text());
    if (all !== null) Object.assign($("progress"), { max: all, value: done });
  };
  return { step, isLast: () => mine === turn, ended: () => { if (mine === turn) $("running").hidden = true; } };
}

/** The files below a folder. `inside` lists a folder, and `fileOf` is the file of an entry; null in place of one that can't be read. */
async function filesBelow(folder, inside, fileOf, { step }) {
  const files = new Map(), open = [[folder, ""]], waiting = [];
  while (open.length) {
    const [within, path] = open.pop();
    for await (const entry of inside(within)) {
      step(() => `Listing the folder ${safeName(folder.name)}: ${many(files.size, "file")} ..`);
      const at = path ? `${path}/${entry.name}` : entry.name;
      if (!entry.name) continue; // Chromium has none for a name that isn't in UTF-8
      if (entry.isFile || entry.kind === "file") waiting.push(fileOf(entry).catch(() => null).then((file) => files.set(at, file))); else open.push([entry, at]);
      if (waiting.length === AT_ONCE) await Promise.all(waiting.splice(0));
      if (files.size > MOST_FILES) throw new Error(TOO_MANY);
    }
  }
  await Promise.all(waiting);
  return files;
}

async function* entriesIn(folder) {
  const reader = folder.createReader();
  for (let some; (some = await new Promise((done, failed) => reader.readEntries(done, failed))).length;) yield* some;
}

/**
 * What was dropped as one item. On a file: address Chromium lists folders by handles alone, and these leave out names that Windows doesn't
 * allow, or with characters that can't be seen; then the folder is `isPartial`.
 */
async function itemOf({ handle, entry, file }, work) {
  const root = await handle?.catch(() => null);
  if (root?.kind !== "directory" && !entry?.isDirectory) return { name: file.name, file };
  try {
    return { name: entry.name, files: await filesBelow(entry, entriesIn, (one) => new Promise((done, failed) => one.file(done, failed)), work) };
  } catch (error) {
    if (root?.kind !== "directory" || error instanceof Stopped) throw error;
    return { name: root.name, files: await filesBelow(root, (one) => one.values(), (one) => one.getFile(), work), isPartial: true };
  }
}

/** The folder of an input, with its files by their paths below it. */
function folderOf(input) {
  const files = new Map([...input.files].map((file) => [file.webkitRelativePath.split("/").slice(1).join("/"), file]));
  return { name: input.files[0]?.webkitRelativePath.split("/")[0] ?? "", files };
}

function choose(side, item) {
  chosen[side] = item;
  $(`slot-${side}`).classList.toggle("full", !!item);
  const invitation = ["Drop a picture or a folder here", "Drop the other one here, or both at once"][side];
  $(`name-${side}`).textContent = !item ? invitation : safeName(item.name) + (item.files ? `/ (${many(item.files.size, "file")})` : "");
  $("anew").hidden = !chosen.some(Boolean);
}

/** Puts items into their slots: a single one into the given slot, or the first free one. */
function put(items, slot) {
  if (items.length === 2) items.forEach((item, side) => choose(side, item));
  else choose(slot ?? (chosen[0] && !chosen[1] ? 1 : 0), items[0]);
  compare();
}

async function drop(event) {
  event.preventDefault();
  leave();
  const items = [...event.dataTransfer.items].filter(({ kind }) => kind === "file");
  const given = items.map((item) => ({ handle: item.getAsFileSystemHandle?.(), entry: item.webkitGetAsEntry?.(), file: item.getAsFile() }));
  const slot = event.target.closest?.(".slot"), dropped = [];
  if (!items.length) return;
  if (items.length > 2) {
    say(TWO);
    return;
  }
  const work = begun();
  try {
    for (const item of given) dropped.push(await itemOf(item, work));
  } catch (error) {
    work.ended();
    if (work.isLast()) say(error instanceof Stopped ? "Stopped: the folder was not listed to its end, and nothing is compared." : `The folder can’t be read: ${error.message} Choose it by its button instead.`);
    return;
  }
  put(dropped, slot ? Number(slot.id.slice(-1)) : null);
}

function leave() {
  for (const node of document.querySelectorAll(".over")) node.classList.remove("over");
}

// ---- tables

/** Steps between two texts: words that were taken out, put in, and kept. */
const stepNodes = (steps) => steps.map(([sign, text]) => sign === "=" ? safe(text) : element(sign === "-" ? "del" : "ins", "", safe(text)));

/** A cell with a value. `steps` are those to the other value: this one has those of the kept words and of `sign`. */
function cell(value, head, isPair, steps, sign) {
  const isAbsent = value === null || value.isAbsent, nothing = isPair ? "not there" : "–";
  const content = steps ? stepNodes(steps.filter(([one]) => one === "=" || one === sign)) : isAbsent ? [] : [safe(value.text)];
  const node = isAbsent ? element("td", "none", value?.text ?? nothing) : element("td", "", ...content, value.exact && element("span", "exact", safe(value.exact)));
  node.dir = "auto";
  node.dataset.head = head;
  node.setAttribute("role", "cell");
  return node;
}

function headCell(name, content, scope) {
  const node = element("th", name, content);
  node.scope = scope;
  node.setAttribute("role", `${scope === "col" ? "column" : "row"}header`);
  return node;
}

/** A table: each row is what its head has, and its cells. It has roles, because in a narrow window its rows are no table for a browser. */
function table(title, heads, rows, name = "") {
  const row = (...cells) => element("tr", "", ...cells);
  const top = element("thead", "", row(...heads.map((text, i) => headCell(i ? "" : "field", text, "col"))));
  const body = element("tbody", "", ...rows.map(([head, cells]) => row(headCell("", head, "row"), ...cells)));
  const node = element("table", name, element("caption", "", title), top, body);
  node.setAttribute("role", "table");
  for (const group of [top, body]) group.setAttribute("role", "rowgroup");
  for (const line of node.rows) line.setAttribute("role", "row");
  return node;
}

/** A card with a verdict. Its heading can get the focus. */
function card(verdict, sign, title, ...content) {
  const mark = element("span", "sign", sign), heading = element("h2", "", mark, title);
  mark.setAttribute("aria-hidden", "true");
  heading.tabIndex = -1;
  return element("div", `verdict ${verdict}`, heading, ...content);
}

// ---- one picture, or two

const EMPTY = "One picture has one more packet of XMP, which has no properties.";
const SIGNS = { same: "=", none: "–", partly: "≈", different: "≠", refused: "✕", unread: "–", valid: "✓" };

/** Whether all XMP is read, some of it, or none. */
function readXmp({ sides, xmp }) {
  if (xmp.verdict !== "unread") return "";
  return sides.some(({ blocks }) => blocks.some(({ kind, refusal }) => kind === "xmp" && !refusal)) ? "XMP not wholly read" : "XMP not read";
}

/** Whether no picture has metadata that is read here. */
const haveNone = ({ sides }) => sides.every(({ blocks }) => !blocks.some(({ refusal }) => !refusal?.isRare));

/** The kinds of blocks that have fields here. */
const kindsIn = ({ sides }) => Object.keys(KINDS).filter((kind) => sides.some(({ blocks }) => blocks.some((block) => block.kind === kind && !block.refusal))).map((kind) => KINDS[kind]);

/** How many fields one picture has, and of which kinds. */
const fieldsOf = (look) => `${look.isCut ? "At least " : ""}${many(look.counts[0], "field")} of ${listed(kindsIn(look))}`;

function titleOf(look) {
  const { verdict, sides } = look, hasNone = haveNone(look), open = readXmp(look);
  if (look.isSameFile) return "The same bytes";
  const none = `No Exif, IPTC or XMP${sides.some(({ others }) => others) ? " that is read" : ""}`;
  if (verdict === "none") return none;
  if (verdict === "same") return "Same Exif, IPTC and XMP";
  if (verdict === "valid") return hasNone ? open || none : `${fieldsOf(look)}${open && `, ${open}`}`;
  if (verdict === "partly") {
    const isXmpAlone = open && !sides.some(({ unread, notRead }) => unread || notRead.length);
    if (isXmpAlone && !sides.some(({ blocks }) => blocks.some(({ kind }) => kind !== "xmp"))) return open;
    return isXmpAlone ? `Same Exif and IPTC, ${open}` : hasNone ? "No Exif, IPTC or XMP that is read" : "No field differs, but not everything was read";
  }
  return { different: "Different", refused: "Refused", unread: "Not read" }[verdict];
}

/** What the verdict means, in a sentence or two. */
function meaningOf(look) {
  const [differing, equal] = look.counts, isPair = look.sides.length === 2, hasNone = haveNone(look), isXmpOpen = look.xmp.verdict === "unread";
  if (look.isSameFile) return "Nothing differs, whatever the bytes mean: both files have the same.";
  if (look.verdict === "none") return RESULTS.none[1];
  const fields = (count, noun = "field") => (look.isCut ? "at least " : "") + many(count, noun);
  const there = [...new Set(look.sides.flatMap(({ blocks }) => blocks.map(({ kind }) => kind)))];
  const isRead = (kind) => kind !== "xmp" || !isXmpOpen || !isPair && readXmp(look) !== "XMP not read";
  const kinds = there.filter(isRead).map((kind) => KINDS[kind]);
  if (look.verdict === "same" || look.verdict === "partly") {
    if (hasNone || !kinds.length) return `Neither picture has ${isXmpOpen ? "Exif or IPTC" : "Exif, IPTC or XMP"} that is read here.`;
    const layout = look.sameBytes && (isXmpOpen || look.xmp.sameBytes) ? "Even their bytes are equal." : "Their bytes differ, because programs arranged them differently.";
    return `${look.verdict === "same" ? `${RESULTS.same[1]} ` : ""}The ${listed(kinds)} of both pictures ${kinds.length > 1 ? "mean" : "means"} the same: ${fields(equal - (isXmpOpen ? look.xmp.equal : 0))}. ${layout}`;
  }
  if (look.verdict === "different") {
    const names = look.differing.slice(0, 4).map(({ name }) => name);
    if (!differing) return look.isCut ? "The difference is behind the fields that are listed here." : EMPTY;
    const differ = `${fields(differing)} ${differing === 1 ? "differs" : "differ"}: ${listed(differing > 4 ? [...names, many(differing - 4, "other")] : names)}`;
    const isOpen = look.sides.some(({ blocks }) => blocks.some(({ refusal }) => refusal && !refusal.isRare)) ? ["a block is refused besides, so more may differ"] : [];
    const others = equal ? [`${fields(equal, "other field")} ${equal === 1 ? "is" : "are"} equal`] : [];
    return [differ, ...others, ...isOpen].map((text) => `${text[0].toUpperCase()}${text.slice(1)}.`).join(" ");
  }
  if (look.verdict === "refused") {
    const what = "A block breaks the rules, so it has no certain meaning";
    return `${what}${isPair ? ", and the pictures are not compared" : ""}. ${look.sameBytes ? `Both pictures have the same bytes of ${look.xmp.sameBytes ? "Exif, IPTC and XMP" : "Exif and IPTC"}.` : ""}`;
  }
  if (look.verdict === "valid") {
    const next = chosen.some((item) => item?.files) || chosen.every(Boolean) ? "" : ` Choose a ${SIDES[chosen[0] ? 1 : 0]} picture to compare it with.`;
    return (kinds.length ? `No rule is broken: ${listed(kinds)} of the picture ${kinds.length > 1 ? "have" : "has"} a certain meaning.` : `The picture has no ${isXmpOpen ? "Exif and no IPTC" : "Exif, IPTC or XMP"} that is read here.`) + next;
  }
  return isPair ? "The pictures are not compared." : "";
}

/** What may make the pictures different although what is read is the same. */
function doubts({ sides, xmp }, names) {
  const found = sides.flatMap(({ unread }, i) => unread ? `At byte ${counted(unread.start)} of ${unread.joined ? "the joined blocks of " : ""}${names[i]} is something that other programs may read as Exif or IPTC, and that is not read here.` : []);
  found.push(...sides.flatMap(({ notRead }, i) => notRead.length ? `Of ${names[i]} this isn’t read here: ${safe(listed(notRead.slice(0, 9)))}.` : []));
  if (xmp.verdict === "unread") found.push(`Not all XMP is read here${xmp.sameBytes ? ", but it has the same bytes in both pictures." : ", and its bytes differ: captions or dates in it may differ."}`);
  return found.length > 0 && element("p", "", element("strong", "", "Not decided: "), found.join(" "), ...withCode(" The program `exifnorm-pictures compare` reads more."));
}

/** Which of the pictures have something. */
function whose(has) {
  if (has.length === 1) return "the picture has it";
  return has.every(Boolean) ? "both pictures have it" : `only the ${SIDES[has.indexOf(true)]} picture has it`;
}

const isRare = ({ blocks }) => blocks.some(({ refusal }) => refusal?.isRare);

/** What this page doesn't read, of these pictures. */
function unreadOf(look) {
  const cut = look.isCut ? " Of a block the first 20,000 fields are listed; all of them are compared." : "";
  const kinds = [["a packet of XMP in a rare form", isRare], ["extended XMP, which is missing or can’t be joined to a packet", ({ extended }) => extended], ["XMP in Photoshop’s resources", ({ resources }) => resources], ["a segment APP1 of an unknown kind, in which other programs may find metadata", ({ others }) => others]];
  const found = kinds.map(([what, has]) => [what, look.sides.map(has)]).filter(([, has]) => has.some(Boolean));
  const xmp = found.map(([what, has]) => `${what} (${whose(has)}), `).join("");
  const named = look.sides.flatMap(({ notRead }) => notRead).length ? `${safe([...new Set(look.sides.flatMap(({ notRead }) => notRead))].slice(0, 9).join(", "))}, ` : "";
  const note = look.sides.some(({ hasNote }) => hasNote) ? "what is inside a MakerNote, " : "";
  const rest = look.sides.some(({ format }) => format === "JPEG") ? ", and what follows the head of a JPEG: previews, trailers" : "";
  return `Not read: ${xmp}${named}${note}pixels${rest}.${cut}`;
}

/** Why a picture isn't read, and what helps. */
function problemOf(name, { name: problem, cause, offset, format, why, about }) {
  const [sentence, remedy] = about, isCut = cause === "JpegCut"; // of which all was given
  const [what, help] = {
    format: [`${name} is ${format ? `of the format ${format}` : "no picture that is known here"}.`, "This page reads JPEG, PNG, WebP, TIFF, DNG, HEIC, AVIF, and XMP beside a picture. `exifnorm-pictures` reads other formats too."],
    broken: [`${name} is a damaged ${format}: ${why}.`, "Use another copy of the picture."],
    empty: [`${name} is empty.`, "Use another copy of the picture."],
    unreadable: [`${name} can’t be read: the browser gave no bytes of it.`, "Choose it again, or copy it to another folder first."],
    xmp: [`${name} has more XMP than this page reads.`, "No program writes so much: look where the file comes from."],
    many: [`${name} has more segments than this page reads.`, "No camera writes so many: look where the file comes from."],
    long: [`The metadata of ${name} are longer than this page reads.`, "`exifnorm-pictures` has no such limit."],
    head: [`${name} is a damaged JPEG. ${sentence} (${cause} at byte ${counted(offset ?? 0)})`, isCut ? "The picture isn’t whole: use another copy." : remedy ?? ""],
  }[problem];
  return element("p", "", `${what[0].toUpperCase()}${what.slice(1)}`, " ", ...withCode(help));
}

/** Why a block is refused, and what helps. */
function refusalOf(name, { name: block, size, refusal: { cause, offset, about: [sentence, meaning, remedy, cost] } }) {
  return element("div", "refusal", element("h3", "", `${block} of ${name}: ${sentence}`),
    meaning && element("p", "", ...withCode(meaning)), element("p", "", element("strong", "", "What helps: "), ...withCode(remedy)),
    cost && element("p", "", element("strong", "", "What it costs: "), ...withCode(cost)),
    element("p", "small", `${cause} at byte ${counted(offset)} of ${counted(size)}.`));
}

const WAYS = "The touch: ExifTool adds a field and removes it. The rebuild: ExifTool writes all fields that it knows into a new block. “4 of 6” counts real pictures with this fault.";

/** The problems and refusals of both pictures. Blocks that are refused for the same have one text. */
function faultsOf(look, names) {
  const isPair = look.sides.length === 2, faults = [];
  const isTwin = (refusal, other) => other?.cause === refusal.cause && other.offset === refusal.offset;
  const isOnce = ({ name, refusal }) => isPair && look.sides.every(({ blocks }) => isTwin(refusal, blocks.find((block) => block.name === name)?.refusal));
  look.sides.forEach(({ problem, blocks }, i) => {
    if (problem) faults.push(problemOf(names[i], problem));
    for (const block of blocks.filter((some) => some.refusal && !(i && isOnce(some)))) {
      faults.push(refusalOf(isOnce(block) ? "both" : names[i], block));
    }
  });
  const left = faults.length - MOST_REFUSALS, shown = faults.slice(0, MOST_REFUSALS);
  const hasWays = shown.some((node) => [...node.querySelectorAll(".refusal p:not(.small)")].some((part) => /touch|rebuild|\d of \d/.test(part.textContent)));
  return [...shown, left > 0 && element("p", "", `${many(left, "further refusal")}.`), hasWays && element("p", "small", WAYS)];
}

async function download(file, { kind, index }) {
  try {
    const form = await ask("form", file, kind, index), stem = file.name.replace(/\.[^.]*$/, "");
    if (form) save(`${stem}.${kind}${index ? `.${index + 1}` : ""}`, form, "application/octet-stream");
    else say("Its normal form is longer than 16,777,216 bytes.");
  } catch (error) {
    say(`There is no normal form: ${error.message}.`);
  }
}

function downloadsOf(look, names, files) {
  const buttons = look.sides.flatMap(({ blocks }, i) => blocks.filter(({ refusal }) => !refusal).slice(0, MOST_REFUSALS).map((block) =>
    button(`${block.name} of ${names[i]}`, () => download(files[i], block))));
  if (!buttons.length) return null;
  const about = "The one form of all blocks that mean the same, for a program or an archive. It is no picture. That of XMP is a packet of XMP.";
  return element("section", "forms", element("h2", "", "Normal forms"), element("p", "small", about), element("div", "downloads", ...buttons));
}

const ofAll = (count, rows) => count > rows.length ? ` (the first ${counted(rows.length)} of ${counted(count)})` : "";

function captionsTable({ captions }, heads) {
  if (heads.length === 1) {
    const there = [0, 1, 2].filter((at) => captions.some(({ cells }) => cells[at])), standards = Object.values(KINDS);
    return table("Captions", ["Label", ...there.map((at) => standards[at])], captions.map(({ label, cells }) => [label, there.map((at) => cell(cells[at], standards[at]))]));
  }
  const areEqual = captions.every(({ cells: [first, second] }) => first?.text === second?.text);
  const shown = areEqual ? ["Both"] : heads;
  const rows = captions.map(({ label, cells }) => [label, shown.map((head, i) => cell(cells[i], head, true))]);
  return table("Captions", ["Label", ...shown], rows);
}

/** A text that no spreadsheet takes for a formula, whatever separates its cells. */
const harmless = (text) => safe(text).replace(/^(?=[\t\n])|(?:^|(?<=[;\t\n]))(?="*[=+\-@＝＋－＠])/g, "'");

function saveTable(name, lines) {
  const csvCell = (text) => `"${harmless(text).replaceAll('"', '""')}"`;
  save(name, lines.map((cells) => `${cells.map(csvCell).join(",")}\r\n`).join(""), "text/csv");
}

/** Puts rows on the clipboard, in lines that a spreadsheet takes as cells. Without the right to it they are chosen, and copied as by the keyboard. */
async function copyTable(lines) {
  const text = lines.map((cells) => cells.map((one) => harmless(one).replace(/[\t\n]+/g, " ")).join("\t")).join("\n");
  try {
    await navigator.clipboard.writeText(text);
  } catch {
    const area = element("textarea", "unseen", text);
    document.body.append(area);
    area.select();
    document.execCommand("copy");
    area.remove();
  }
  say(`Copied: ${many(lines.length - 1, "row")}.`);
}

const COLUMNS = ["picture", "result", "moved to", "field", "before", "after", "note"]; // as `exifnorm-pictures changed --csv` has them
const exactText = (value) => value ? value.text + (value.exact ? ` (${value.exact})` : "") : "";

/** The rows of a result for a file: of one picture its fields, of two those that differ. */
function linesOf({ verdict, differing, counts: [count] }, names) {
  if (names.length === 1) return [["picture", "field", "value"], ...differing.map(({ name, cells: [value] }) => [names[0], name, exactText(value)])];
  const about = [names[0], resultOf(verdict), names[1] === names[0] ? "" : names[1]], more = count - differing.length;
  const rows = verdict === "different" ? differing.map(({ name, cells }) => [...about, name, ...cells.map(exactText), ""]) : [];
  return [COLUMNS, ...rows, ...more > 0 || !rows.length ? [[...about, "", "", "", more > 0 && rows.length ? `and ${many(more, "other field")}` : ""]] : []];
}

/** The buttons with which a result is taken away. */
function takeAway(look, names) {
  const lines = () => linesOf(look, names);
  return element("p", "steps", button("Save as CSV", () => saveTable("result.csv", lines())), button("Copy", () => copyTable(lines())));
}

/** The pictures themselves, beside each other, as far as the browser can show them. */
function imagesOf(look, names, files) {
  const figures = files.map((file, i) => {
    if (look.sides[i].format === "XMP" || look.sides[i].problem && !look.sides[i].format) return null;
    const image = element("img", ""), address = URL.createObjectURL(file), done = () => URL.revokeObjectURL(address);
    image.alt = `The picture ${names[i]}`;
    image.onload = done;
    image.onerror = () => {
      done();
      image.replaceWith(element("p", "small", "This browser can’t show it."));
    };
    image.src = address;
    return element("figure", "", image, element("figcaption", "small", names[i]));
  }).filter(Boolean);
  return figures.length > 0 && element("div", "images", ...figures);
}

/** Shows the result, which names the pictures if they are of folders, and returns its heading. */
function show(look, names, files, areOfFolders) {
  const isOne = look.sides.length === 1, alike = !isOne && names[0] === names[1];
  const called = alike ? SIDES.map((side) => `the ${side}`) : names, heads = isOne ? ["Value"] : alike ? ["First", "Second"] : names;
  const verdict = haveNone(look) && look.verdict === "valid" ? "none" : look.verdict;
  const isUnread = look.sides.every(({ problem }) => problem), main = card(verdict, SIGNS[verdict], titleOf(look), areOfFolders && element("p", "small", [...new Set(names)].join(" and ")), element("p", "", meaningOf(look)),
    !isOne && look.verdict === "partly" && doubts(look, called), ...faultsOf(look, called), !isUnread && element("p", "small", unreadOf(look)));
  const [differing, equal, open] = look.counts, isDifferent = look.verdict === "different";
  const cells = (row) => isOne ? [cell(row.cells[0], heads[0])] : row.cells.map((value, i) => cell(value, heads[i], true, row.steps, "-+"[i]));
  const title = isOne ? "Fields" : isDifferent ? "What differs" : "Fields that could be read";
  const fields = differing > 0 && table(title + ofAll(differing, look.differing), ["Field", ...heads], look.differing.map((row) => [safe(row.name), cells(row)]));
  const same = equal > 0 && element("details", "", element("summary", "", many(equal, "equal field") + ofAll(equal, look.equal)),
    table("", ["Field", "Both"], look.equal.map((row) => [safe(row.name), [cell(row.cells[0], "")]])));
  if (same) same.open = !isDifferent && equal <= 12;
  const others = open > 0 && table("Fields that could be read" + ofAll(open, look.open), ["Field", ...heads], look.open.map((row) => [safe(row.name), cells(row)]));
  const captions = look.captions.length > 0 && captionsTable(look, heads), taken = !isUnread && takeAway(look, names);
  const parts = [main, imagesOf(look, called, files), isDifferent && fields, isDifferent && taken, captions, !isDifferent && fields, !isDifferent && taken, others, same, downloadsOf(look, called, files)];
  $("result").replaceChildren(...parts.filter(Boolean));
  $("result").hidden = false;
  return main.firstChild;
}

/** Compares two pictures, or looks at one. Of pictures of folders the result is below their line in the list, and gets the focus. */
async function pictures(files, names, line = null) {
  const mine = turn, shown = names.map(safeName);
  let look;
  say("Reading ..");
  try {
    look = await ask("look", files[0], files[1] ?? null);
  } catch (error) {
    if (mine === turn) say(`${files.length === 2 ? "The pictures can’t be compared" : "The picture can’t be read"}: ${error.message}.`);
    return;
  }
  if (mine !== turn) return;
  const heading = show(look, shown, files, !!line);
  say(`${titleOf(look)}: ${shown.join(" and ")}.`, false);
  document.body.dataset.state = "done";
  if (line) openBelow(line, heading);
}

// ---- the result of a line of a list, which is below it

/** Puts the result back behind the list. Returns the button of the line that it was below. */
function closeResult() {
  const holder = $("result").closest("tr"), line = holder?.previousElementSibling?.querySelector("button");
  if (!holder) return null;
  document.querySelector("main").append($("result"));
  $("result").hidden = true;
  $("result").replaceChildren();
  holder.remove();
  line?.setAttribute("aria-expanded", "false");
  return line;
}

/** Opens the line after the open one, or before it. */
function step(by) {
  const lines = [...document.querySelectorAll(".list > tbody > tr:not(.opened) > th button")], now = $("result").closest("tr")?.previousElementSibling?.querySelector("button");
  lines[lines.indexOf(now) + by]?.click();
}

const leaveResult = () => closeResult()?.focus();

function openBelow(line, heading) {
  const place = element("td", "", element("p", "steps", button("Back to the list (Esc)", leaveResult), button("Next (j)", () => step(1)), button("Previous (k)", () => step(-1))), $("result"));
  const holder = element("tr", "opened", place);
  place.colSpan = 3;
  place.setAttribute("role", "cell");
  holder.setAttribute("role", "row");
  line.closest("tr").after(holder);
  line.setAttribute("aria-expanded", "true");
  heading.focus({ preventScroll: true });
  line.scrollIntoView?.({ block: "start" });
}

document.onkeydown = (event) => {
  const act = { Escape: leaveResult, j: () => step(1), k: () => step(-1) }[event.key];
  if (!act || event.ctrlKey || event.altKey || event.metaKey || !$("result").closest("tr")) return;
  event.preventDefault();
  act();
};

// ---- folders

const VERDICTS = ["different", "refused", "moved", "missing", "partly", "unread", "none", "same", "valid"];
const RESULTS = JSON.parse($("results").textContent); // the words of `exifnorm-pictures changed`, and its sentences
const LABELS = { ...Object.fromEntries(Object.entries(RESULTS).map(([verdict, [word]]) => [verdict, word])), same: "same metadata", missing: "in one folder only", valid: "valid" };

const resultOf = (verdict) => RESULTS[verdict]?.[0] ?? verdict;
const wordOf = (row) => row.verdict === "missing" ? `only in the ${SIDES[row.side]}` : LABELS[row.verdict];

function detailOf(row) {
  if (row.verdict === "moved") return `to ${row.to}`;
  if (row.verdict === "different" && !row.count) return row.isCut ? "behind the first 20,000 fields" : EMPTY;
  if (row.verdict === "different") return `${many(row.count, "field")}: ${row.names.join(", ")}${row.count > row.names.length ? " .." : ""}`;
  const twin = row.verdict === "missing" && row.twins?.find((path) => path !== row.path), asTwin = twin ? `the same Exif, IPTC and XMP as ${safeName(twin)}` : "";
  const also = row.verdict === "missing" && row.candidates ? `the same Exif, IPTC and XMP as ${many(row.candidates, "picture")} only in the ${SIDES[1 - row.side]}` : asTwin;
  const bytes = row.verdict === "refused" && row.sameBytes ? "both pictures have the same bytes of Exif and IPTC" : "";
  const xmp = row.verdict === "partly" && row.xmp.verdict === "unread" ? `not all XMP is read, ${row.xmp.sameBytes ? "but its bytes are the same" : "and its bytes differ"}` : "";
  const files = row.isSameFile ? "both files have the same bytes" : "";
  return [files, row.why, bytes, also, xmp].filter(Boolean).join("; ");
}

const nameOf = (path) => path.slice(path.lastIndexOf("/") + 1);

/** Rows by the names of their pictures; null if several have a name. */
function byName(rows) {
  const found = new Map();
  for (const row of rows) found.set(nameOf(row.path), found.has(nameOf(row.path)) ? null : row);
  return found;
}

/**
 * Pairs pictures that are in one folder only and have the same metadata: by name, or if there is one on each side. They become one row.
 * Of others the number of candidates is shown.
 */
function pairMoved(rows) {
  const groups = new Map();
  for (const row of rows.filter(({ verdict, identity }) => verdict === "missing" && identity)) {
    if (!groups.has(row.identity)) groups.set(row.identity, [[], []]);
    groups.get(row.identity)[row.side].push(row);
  }
  const arrived = new Set();
  const pair = (first, second) => {
    Object.assign(first, { verdict: "moved", to: safeName(second.path), files: [first.files[0], second.files[1]] });
    arrived.add(second);
  };
  for (const [left, right] of groups.values()) {
    const [ofLeft, ofRight] = [left, right].map(byName);
    for (const [name, row] of ofLeft) if (row && ofRight.get(name)) pair(row, ofRight.get(name));
    const [from, to] = [left.filter(({ verdict }) => verdict === "missing"), right.filter((row) => !arrived.has(row))];
    if (from.length === 1 && to.length === 1) pair(from[0], to[0]);
    else for (const [side, others] of [[from, to], [to, from]]) for (const row of side) row.candidates = others.length;
  }
  return rows.filter((row) => !arrived.has(row));
}

/** The row of a path: its verdict, and what goes with it; null for a file that is no picture by its name and its bytes. */
async function rowOf(path, files) {
  const there = files.filter((file) => file !== undefined);
  if (there.includes(null)) return { path, files, verdict: "unread", why: "can’t be read" };
  let brief;
  try {
    brief = await ask("brief", there[0], there[1] ?? null);
  } catch (error) {
    return { path, files, verdict: "unread", why: error.message };
  }
  if (brief.isOther && !PICTURES.test(path)) return null;
  const isMissing = files.length === 2 && there.length === 1;
  return { path, files, ...brief, ...(isMissing ? { verdict: "missing", side: files[0] ? 0 : 1 } : {}) };
}

async function folders(both) {
  const paths = [...new Set(both.flatMap(({ files }) => [...files.keys()]))].sort(), work = begun(() => end("stopped")), rows = [];
  let others = 0, kept = 0, isStopped = false;
  try {
    for (const [done, path] of paths.entries()) {
      const row = await rowOf(path, both.map(({ files }) => files.get(path)));
      work.step(() => `${counted(done + 1)} of ${many(paths.length, "file")} ..`, done + 1, paths.length);
      if (row) rows.push(row); else others++;
      kept += row?.changes?.flat().reduce((sum, text) => sum + (text?.length ?? 0), 0) ?? 0;
      if (row?.changes && kept > MOST_KEPT) Object.assign(row, { changes: [], edits: [], shared: [] });
    }
  } catch (error) {
    if (!(error instanceof Stopped)) throw error;
    if (!work.isLast()) return;
    isStopped = true;
  }
  work.ended();
  summarise(both.length === 2 && !isStopped ? pairMoved(rows) : rows, others, both.length === 2, isStopped ? paths.length : 0);
  document.body.dataset.state = "done";
}

/** A row for each field that differs, and one for each other picture. */
function csvRows(row) {
  const about = [safeName(row.path), row.verdict === "missing" ? `missing ${["after", "before"][row.side]}` : resultOf(row.verdict), row.to ?? ""];
  if (row.verdict !== "different" || !row.changes.length) return [[...about, "", "", "", detailOf(row)]];
  const more = row.count - row.changes.length;
  return [...row.changes.map(([name, before, after]) => [...about, name, before ?? "", after ?? "", ""]), ...more > 0 ? [[...about, "", "", "", `and ${many(more, "other field")}`]] : []];
}

const saveCsv = (rows) => saveTable("pictures.csv", [COLUMNS, ...rows.flatMap(csvRows)]);

const PARTIAL = "Of a dropped folder this browser lists no file whose name has \" * : < > ? | or a character that can’t be seen: its button lists these too. ";

/** The card over the list: the counts, and what isn't read. Its title has the worst verdicts, and that pictures are not read. */
function summaryCard(rows, counts, others, isPair, stoppedOf) {
  const there = VERDICTS.filter((verdict) => counts[verdict]), worst = there[0], isPartial = chosen.some((item) => item?.isPartial);
  const words = there.map((verdict) => `${counted(counts[verdict])} ${LABELS[verdict]}`);
  const open = rows.filter((row) => row.xmp?.verdict === "unread" && row.verdict !== "unread" && !row.isSameFile).length;
  const isWhole = there.length === 1 && ["same", "valid"].includes(worst) && !stoppedOf && !isPartial && !open;
  const look = isWhole ? worst : ["different", "refused"].includes(worst) ? worst : "unread";
  const heads = words.filter((_, i) => there[i] !== "same" || there.length < 3).join(", ");
  const title = !rows.length ? "No pictures" : isWhole ? (isPair ? "All have the same Exif, IPTC and XMP" : "All valid") : heads;
  const notInTitle = title === heads && counts.same && there.length > 2 ? `; ${counted(counts.same)} ha${counts.same === 1 ? "s" : "ve"} the same metadata` : "";
  const rest = `${notInTitle}${others ? `; ${many(others, "other file")} left out` : ""}.`;
  const stopped = stoppedOf ? ` Stopped before the end: there are ${many(stoppedOf, "file")}.` : "";
  return card(look, SIGNS[look], title,
    element("p", "", `${many(rows.length, "picture")}${isPair ? ", paired by path" : ""}${rest}${stopped}`),
    element("p", "small", `${isPartial ? PARTIAL : ""}${counts.moved ? "Moved: the same Exif, IPTC and XMP at another path; pixels are not compared. " : ""}Not read: ${open ? `some XMP (of ${many(open, "picture")}), ` : ""}some formats, what is inside a MakerNote, pixels, and what follows the head of a JPEG.`));
}

/** The link of a row to the comparison of its pictures. */
function linkOf(row) {
  const files = row.files.filter(Boolean), name = safeName(row.path);
  if (row.files.includes(null)) return name;
  const node = button(name, () => {
    const isOpen = closeResult() === node;
    if (!isOpen) pictures(files, row.verdict === "moved" ? [row.path, row.to] : files.map(() => row.path), node);
  });
  node.setAttribute("aria-expanded", "false");
  return node;
}

// ---- what changed, by edits

const MOST_LABELS = 100; // that the list can be filtered by
const MOST_WAYS = 60, AROUND = 40; // ways that are listed; characters of kept text on each side of a change
const standardOf = (name) => name.startsWith("IPTC") ? "IPTC" : name.startsWith("XMP") ? "XMP" : "Exif";

/** Kept words, without those that are far from what changed. */
function around(text, isFirst, isLast) {
  const head = isFirst ? "" : text.slice(0, AROUND), tail = isLast ? "" : text.slice(-AROUND);
  return text.length <= head.length + tail.length + 4 ? text : `${head}${head && " "}..${tail && " "}${tail}`;
}

/** An edit in words: `caption (IPTC, XMP): a bowl, 1820 1280`, of which the old word is struck through. */
function editLine({ name, fields, note, steps, isList }) {
  const where = fields[0] === name || !fields.length || name.endsWith(")") ? "" : ` (${[...new Set(name === "dates" ? fields.map((field) => field.split(":").at(-1)) : fields.map(standardOf))].join(", ")})`;
  const shown = isList ? steps.flatMap((one, i) => i ? [["=", ", "], one] : [one]) : steps.map(([sign, text], i) => [sign, sign === "=" ? around(text, i === 0, i === steps.length - 1) : text]);
  const head = `${name}${where}${note ? `${["removed", "added", "changed"].includes(note) ? "" : ":"} ${note}` : ""}`, line = element("p", "edit", element("span", "label", safe(head) + (shown.length ? ": " : "")), ...stepNodes(shown));
  line.dir = "auto";
  return line;
}

/** The pictures that differ by their edits: the groups of those that were edited alike, the smallest first. */
function waysOf(rows) {
  const groups = new Map();
  for (const row of rows.filter(({ verdict }) => verdict === "different")) {
    if (!groups.has(row.key)) groups.set(row.key, []);
    groups.get(row.key).push(row);
  }
  return [...groups.values()].sort((first, second) => first.length - second.length);
}

/** What the edits of a group have in common, with the fields of all its pictures: a caption may be in IPTC and XMP of one, and in XMP of another. */
function sharedBy(group) {
  const fields = new Map();
  for (const edit of group.flatMap(({ shared }) => shared)) {
    const key = `${edit.name} ${edit.note}`;
    if (!fields.has(key)) fields.set(key, new Set());
    for (const field of edit.fields) fields.get(key).add(field);
  }
  return group[0].shared.map((edit) => ({ ...edit, fields: [...fields.get(`${edit.name} ${edit.note}`)] }));
}

/** What changed: those that changed like no other first. `open` shows a group in the list. */
function waysSection(ways, open) {
  const total = ways.reduce((sum, group) => sum + group.length, 0), odd = ways.filter(({ length }) => length === 1).length, alike = ways.length - odd;
  if (total < 2) return null;
  const bar = element("div", "bar");
  bar.setAttribute("aria-hidden", "true");
  const lines = ways.slice(0, MOST_WAYS).map((group) => {
    const isOdd = group.length === 1, part = element("span", isOdd ? "odd" : ""), edits = isOdd ? group[0].edits : sharedBy(group);
    part.style.flexGrow = group.length;
    bar.append(part);
    return element("li", "", button(isOdd ? safeName(group[0].path) : many(group.length, "picture"), () => open(group)), ...edits.length ? edits.slice(0, 9).map(editLine) : [element("p", "edit", "no field that is listed here")]);
  });
  const others = alike && odd ? `The others changed in ${many(alike, "way")}. ` : "";
  return element("section", "ways", element("h2", "", `${many(total, "picture")} changed, in ${many(ways.length, "way")}`),
    element("p", "", odd > 0 && `${many(odd, "picture")} changed like no other: look here first. `, others, "Words that were left out are ", element("del", "", "struck through"), ", new ones are ", element("ins", "", "underlined"), "."),
    alike > 0 && ways.length > 1 && bar, element("ul", "", ...lines), ways.length > MOST_WAYS && element("p", "small", `And ${many(ways.length - MOST_WAYS, "further way")}: see the list.`));
}

/** Pictures of one folder with the same metadata: for each side, the paths of each group. Rows learn the others of their group. */
function copiesOf(rows) {
  const groups = [new Map(), new Map()];
  for (const row of rows) {
    (row.identities ?? []).forEach((identity, i) => {
      const side = row.verdict === "missing" ? row.side : i, path = side && row.verdict === "moved" ? row.to : row.path;
      if (!identity) return;
      if (!groups[side].has(identity)) groups[side].set(identity, []);
      groups[side].get(identity).push(path);
    });
  }
  for (const row of rows.filter(({ verdict }) => verdict === "missing")) row.twins = groups[row.side].get(row.identities?.[0]);
  return groups.map((side) => [...side.values()].filter(({ length }) => length > 1));
}

function copiesSection(copies, isPair) {
  const all = copies.flatMap((groups, side) => groups.map((paths) => [side, paths])), total = all.reduce((sum, [, paths]) => sum + paths.length, 0);
  if (!all.length) return null;
  const lines = all.slice(0, ROWS).map(([side, paths]) => element("li", "", isPair && `in the ${SIDES[side]}: `, listed(paths.slice(0, 20).map(safeName)), paths.length > 20 && ` and ${counted(paths.length - 20)} more`));
  return element("details", "copies", element("summary", "", `The same metadata inside a folder: ${many(total, "picture")} in ${many(all.length, "group")}`),
    element("p", "small", "Pixels are not compared: pictures of a group may differ in what they show."), element("ul", "", ...lines), all.length > ROWS && element("p", "small", `And ${many(all.length - ROWS, "further group")}.`));
}

let drawAll = () => {}; // shows all rows of the list, for printing, or no more than before

function summarise(rows, others, isPair, stoppedOf) {
  const counts = Object.fromEntries(VERDICTS.map((verdict) => [verdict, rows.filter((row) => row.verdict === verdict).length]));
  const holder = element("div", ""), choices = element("div", "counts");
  const ways = waysOf(rows), copies = copiesOf(rows), byWay = new Map(ways.flat().map((row, i) => [row, i]));
  const labels = new Map();
  for (const label of rows.flatMap((row) => row.labels ?? [])) labels.set(label, (labels.get(label) ?? 0) + 1);
  let filter = VERDICTS.find((verdict) => counts[verdict]), shown = ROWS, group = null, field = "";
  const draw = () => {
    closeResult();
    const chosenRows = rows.filter((row) => field ? row.labels?.includes(field) : group ? group.has(row) : filter === "all" || row.verdict === filter);
    if (filter === "different") chosenRows.sort((first, second) => byWay.get(first) - byWay.get(second));
    const lines = chosenRows.slice(0, shown).map((row) => {
      const cells = [element("td", "verb", element("span", `word ${row.verdict}`, wordOf(row))), element("td", "", safe(detailOf(row)))];
      for (const node of cells) node.setAttribute("role", "cell");
      return [linkOf(row), cells];
    });
    const label = field ? `Changed in ${safe(field)}` : group ? "Changed alike" : filter === "all" ? "All pictures" : LABELS[filter][0].toUpperCase() + LABELS[filter].slice(1), left = chosenRows.length - shown;
    const more = left > 0 && button(`Show ${counted(Math.min(ROWS, left))} more`, () => { shown += ROWS; draw(); }, "more");
    holder.replaceChildren(...[table(`${label}: ${counted(chosenRows.length)}`, ["Path", "Verdict", "Details"], lines, "list"), more].filter(Boolean));
    for (const node of choices.querySelectorAll("[aria-pressed]")) node.setAttribute("aria-pressed", String(node.dataset.filter === filter && !group && !field));
    if (!field) chooser.value = "";
  };
  const chooser = element("select", "", ...["", ...[...labels.keys()].sort((one, other) => labels.get(other) - labels.get(one)).slice(0, MOST_LABELS)].map((label) => {
    const option = element("option", "", label ? `${safe(label)} (${counted(labels.get(label))})` : "any field");
    option.value = label;
    return option;
  }));
  chooser.onchange = () => { field = chooser.value; filter = "different"; group = null; shown = ROWS; draw(); };
  const openWay = (some) => {
    filter = "different";
    field = "";
    group = some.length > 1 ? new Set(some) : null;
    shown = ROWS;
    draw();
    const lines = [...holder.querySelectorAll(".list > tbody > tr > th button")], line = group ? lines[0] : lines.find((node) => node.textContent === safeName(some[0].path));
    if (group) line?.focus(); else line?.click();
  };
  drawAll = (isAll) => {
    if (isAll === (shown === Infinity) || !isAll && shown !== Infinity) return;
    shown = isAll ? Infinity : ROWS;
    if (!$("result").closest("tr")) draw();
  };
  for (const verdict of [...VERDICTS.filter((word) => counts[word]), "all"]) {
    const text = verdict === "all" ? `all ${counted(rows.length)}` : `${counted(counts[verdict])} ${LABELS[verdict]}`;
    const node = button(text, () => { filter = verdict; group = null; field = ""; shown = ROWS; draw(); });
    node.dataset.filter = verdict;
    node.setAttribute("aria-pressed", "false");
    choices.append(node);
  }
  if (labels.size > 1) choices.append(element("label", "chooser", "Changed in ", chooser));
  choices.append(button("Save as CSV", () => saveCsv(rows)));
  choices.setAttribute("role", "group");
  choices.setAttribute("aria-label", "Shown in the list");
  const heading = summaryCard(rows, counts, others, isPair, stoppedOf);
  $("summary").replaceChildren(...rows.length ? [heading, waysSection(ways, openWay), choices, holder, copiesSection(copies, isPair)].filter(Boolean) : [heading]);
  $("summary").hidden = false;
  if (rows.length) draw();
  say(`${heading.firstChild.lastChild.textContent}.`, false);
}

// ---- the choice is compared

function compare() {
  turn++;
  closeResult();
  drawAll = () => {};
  for (const id of ["summary", "result"]) {
    $(id).hidden = true;
    $(id).replaceChildren();
  }
  $("running").hidden = true;
  delete document.body.dataset.state;
  const both = chosen.filter(Boolean);
  if (!both.length) say("");
  else if (both.some(({ files }) => files) && both.some(({ file }) => file)) {
    say("A picture and a folder can’t be compared: choose two pictures, or two folders.");
  } else if (both[0].files) folders(both);
  else pictures(both.map(({ file }) => file), both.map(({ name }) => name));
}

for (const side of [0, 1]) {
  $(`file-${side}`).onchange = ({ target }) => {
    const items = [...target.files].map((file) => ({ name: file.name, file }));
    target.value = "";
    if (items.length > 2) say(TWO); else if (items.length) put(items, side);
  };
  $(`folder-${side}`).onchange = ({ target }) => {
    const item = folderOf(target);
    target.value = "";
    if (item.files.size > MOST_FILES) say(TOO_MANY); else if (item.files.size) put([item], side); else say("The folder is empty.");
  };
}
$("anew").onclick = () => {
  end("stopped");
  choose(0, null);
  choose(1, null);
  compare();
  $("file-0").focus();
};
document.ondragover = (event) => {
  event.preventDefault();
  const slot = event.target.closest?.(".slot");
  for (const node of document.querySelectorAll(".slot")) node.classList.toggle("over", node === slot);
};
document.ondragleave = (event) => { if (!event.relatedTarget) leave(); };
document.ondrop = drop;

/** Two pictures to try the page with, which it has as gzip in base64: the length of the first one, and both. */
$("samples").onclick = async () => {
  const [length, text] = $("sample-pictures").textContent.split(" "), both = await unpacked(text).blob();
  const named = [["bowl, before.jpg", both.slice(0, length)], ["bowl, after.jpg", both.slice(length)]];
  put(named.map(([name, some]) => ({ name, file: new File([some], name, { type: "image/jpeg" }) })), null);
};

/** Pictures that were copied elsewhere. */
document.onpaste = ({ clipboardData }) => {
  const items = [...clipboardData?.files ?? []].map((file) => ({ name: file.name, file }));
  if (items.length > 2) say(TWO); else if (items.length) put(items, null);
};

let closed = [];
self.addEventListener("beforeprint", () => {
  drawAll(true);
  closed = [...document.querySelectorAll("details.copies:not([open])")];
  for (const node of closed) node.open = true;
});
self.addEventListener("afterprint", () => {
  for (const node of closed) node.open = false;
  drawAll(false);
});

/** What the foot of the page says of its engine. */
function about(version) {
  if (version.includes("unproved")) return `exifnorm ${version}, compiled without its proofs: for tests alone.`;
  return `exifnorm ${version}. The engine is the library that is proved for x86-64 Linux, compiled for WebAssembly. Whether Exif and IPTC are the same is proved, and what a packet of XMP means that is read; the page itself is tested.`;
}

ask("version").then((version) => {
  $("about").textContent = about(version);
  document.body.dataset.ready = "yes";
}, (error) => {
  $("about").textContent = `The engine can’t start in this browser: ${error.message}. A browser of 2023 or later is needed.`;
});
