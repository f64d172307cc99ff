/** The fields of a block, from its listing (docs/FORMAT.md, 7). @module */
import tables from "./tables.js";
import { fieldOf } from "./values.js";

/** The first fields of a listing, at most so many, in its order. */
export function fieldsOf(listing, most = Infinity) {
  const fields = [];
  let where = "iptc", start = listing.indexOf("\n") + 1;
  for (let end; (end = listing.indexOf("\n", start)) >= 0 && fields.length < most; start = end + 1) {
    const line = listing.slice(start, end);
    if (line.startsWith("[")) {
      where = line.slice(1, -1);
      continue;
    }
    const [, key, type = "octets", raw = ""] = /^(\S+)(?: (\D\S*))? \d+:(?: (.*))?$/.exec(line);
    if (key === "record" || key === "strips") continue;
    const isPicture = key === "jpeg" || key === "strip";
    fields.push(fieldOf(key.includes(":") ? "iptc" : isPicture ? "thumb" : where, key, type, raw));
  }
  return fields;
}

const PLACES = ["main", "exif", "interop", "gps", "thumb", "iptc"];

/** The place of a field in a list: by its directory, and by its tag or DataSet. */
export function orderOf({ where, key }) {
  const [record, number] = key.split(":").map(Number), tag = /^[0-9a-f]{4}$/.test(key) ? parseInt(key, 16) : 0x10000;
  return PLACES.indexOf(where) * 0x100000 + (number === undefined ? tag : record * 256 + number);
}

/** The name of a field as ExifTool has it, with its group: `IFD0:Artist`. */
export function nameOf({ where, key }) {
  return `${tables.groups[where] ?? where}:${tables.names[where]?.[key] ?? (key.includes(":") || key === "jpeg" || key === "strip" ? key : `0x${key}`)}`;
}
