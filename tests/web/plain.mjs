// The name and the plain value of each field of the listings in a file, and those of the properties of XMP in another, with their exact
// values: plain.mjs LISTINGS PROPERTIES PAIRS, all JSON; digests; and pairs of texts that look different.
import { readFileSync } from "node:fs";
import { fieldsOf, nameOf } from "./listing.js";
import { md5 } from "./md5.js";
import { sha256 } from "./sha256.js";
import { plain, toldApart } from "./values.js";
import { inOrder, keyOf, plainXmp, shownExactly, shownName, textsIn } from "./xmp_values.js";

const [listings, packets, pairs] = process.argv.slice(2).map((name) => JSON.parse(readFileSync(name, "utf8")));
const digestsOf = (octets) => [sha256(octets), md5(octets)];
const digests = [0, 1, 55, 56, 63, 64, 65, 119, 120, 1000].map((size) => digestsOf(Uint8Array.from({ length: size }, (_, i) => i * 7)));
const fields = listings.map((listing) => fieldsOf(listing).map((field) => [nameOf(field), plain(field)]));
const described = ({ value, ...property }) => {
  const key = keyOf(property);
  return [shownName(key), plainXmp(value), shownExactly(value), textsIn(value)];
};
const properties = packets.map((packet) => packet.map(described).sort(([first], [second]) => inOrder(first, second)));
process.stdout.write(JSON.stringify({ fields, digests, properties, apart: pairs.map(toldApart) }));
