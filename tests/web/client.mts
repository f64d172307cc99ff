// Uses each declaration of exifnorm.d.ts as it is meant to be used. tsc checks it.
import * as exifnorm from "exifnorm";
import { Engine, load } from "./engine.js";

const bytes: Uint8Array = new Uint8Array(2), kind: "exif" | "iptc" = exifnorm.check(bytes), limit: 16777216 = exifnorm.LIMIT;
const texts: string[] = [exifnorm.show(bytes), exifnorm.captions(bytes), exifnorm.version()], form: Uint8Array = exifnorm.normalise(bytes);
const same: boolean = exifnorm.same(bytes, form) && exifnorm.jpegSame(bytes, form) && exifnorm.jpegSameBlocks(bytes, form);
const numbers: number[] = exifnorm.jpegParts(bytes, 5).map((part) => part.marker + part.start + part.size);
numbers.push(...exifnorm.photoshopResources(bytes).map((resource) => resource.number), exifnorm.jpegUnread(bytes)?.start ?? limit);
const blocks: [exifnorm.Kind, Uint8Array][] = exifnorm.jpegBlocks(bytes).map(({ kind, data }) => [kind, data]);
function textsOf(value: exifnorm.XmpValue): string[] {
  if (value.kind === "text") return [value.text, value.language];
  if (value.kind === "resource") return [value.uri];
  return value.kind === "structure" ? value.properties.flatMap((property) => textsOf(property.value)) : value.members.flatMap(textsOf);
}
exifnorm.xmpCheck(bytes);
await exifnorm.ready;
const { captions, fields, position, refusals, notRead }: exifnorm.Picture = exifnorm.read(bytes), value: exifnorm.Value | undefined = fields["IFD0:Make"];
texts.push(...(captions.caption ?? []).map(({ text }) => text), ...refusals.map(({ sentence }) => sentence), ...notRead, typeof value === "string" ? value : "");
numbers.push(position?.latitude ?? 0);
const found: exifnorm.Comparison = exifnorm.compare(bytes, form), isSame: boolean = found.verdict === "same" && found.proved;
texts.push(...found.differences.map(({ name, before }) => `${name} ${before ?? ""}`), ...found.notRead.map(({ side, what }) => `${side} ${what}`));
const source: exifnorm.Source = { size: 2, part: (start, end) => bytes.subarray(start, end) }, engineOfAThread: Promise<exifnorm.Engine> = exifnorm.load(bytes);
const later: exifnorm.Picture = await exifnorm.read(new Blob([bytes])), ofParts: exifnorm.Comparison = exifnorm.compare(source, bytes);
texts.push(later.format, ofParts.verdict, (await exifnorm.compare(new Blob([bytes]), source)).verdict, (await engineOfAThread).version());
const packet: Uint8Array = exifnorm.xmpNormalise(exifnorm.jpegXmp(bytes) ?? bytes);
texts.push(...exifnorm.xmpProperties(packet).flatMap(({ namespace, name, value }) => [namespace, name, ...textsOf(value)]));
try {
  const engine: Engine = await load(bytes);
  engine.check(bytes);
} catch (error) {
  if (error instanceof exifnorm.PictureRefused) texts.push(error.kind, `${error.index}`);
  else if (error instanceof exifnorm.HeadRefused) numbers.push(error.parts.length, ...error.blocks.map(({ data }) => data.length));
  else if (error instanceof exifnorm.XmpRefused) texts.push(error.isRare ? error.cause : error.message);
  else if (error instanceof exifnorm.Refused) texts.push(error.cause, `${error.offset} ${error.side ?? 0}`);
  else if (error instanceof exifnorm.XmpNotRead) numbers.push(error.offset);
  else if (error instanceof exifnorm.NotRead) numbers.push(error.side, error.unread.start);
  else if (error instanceof exifnorm.TooMany) numbers.push(error.most);
  else if (error instanceof exifnorm.NormalTooLong || error instanceof exifnorm.OutOfMemory) texts.push(error.message);
}
export { blocks, isSame, kind, same };
