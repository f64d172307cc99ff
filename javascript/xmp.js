/**
 * The properties of a packet of XMP, from its normal form. A form has one regular way of writing (docs/FORMAT.md, 10), for which no parser
 * of XML is needed.
 * @module
 */

const RDF = "http://www.w3.org/1999/02/22-rdf-syntax-ns#";
const HEAD = `<x:xmpmeta xmlns:x="adobe:ns:meta/"><rdf:RDF xmlns:rdf="${RDF}"><rdf:Description rdf:about="">`;
const TAIL = "</rdf:Description></rdf:RDF></x:xmpmeta>";
const CONTAINERS = ["Bag", "Seq", "Alt"];
const MOST_NESTED = 100; // elements of a form in one another
const CHARACTERS = { "&amp;": "&", "&lt;": "<", "&gt;": ">", "&#13;": "\r" };

const utf8 = new TextDecoder("utf-8", { fatal: true, ignoreBOM: true });
const unescaped = (text) => text.replace(/&(?:amp|lt|gt|#13);/g, (reference) => CHARACTERS[reference]);

/**
 * A packet in UTF-8, without its declaration of XML. A packet may be in UTF-16, which its first bytes show (XMP part 1, 7.1; XML 1.0, F.1). Bytes
 * that are no such text stay as they are.
 */
export function inUtf8(packet) {
  const start = [...packet.subarray(0, 4)].map((octet) => octet === 0x3c ? "<" : octet.toString(16)).join(" ");
  const name = /^(?:fe ff|0 <)/.test(start) ? "utf-16be" : /^(?:ff fe|< 0)(?! 0 0$)/.test(start) ? "utf-16le" : "";
  if (!name) return packet;
  try {
    return new TextEncoder().encode(new TextDecoder(name, { fatal: true }).decode(packet).replace(/^<\?xml\s[^>]*\?>/, ""));
  } catch {
    return packet;
  }
}

/** Reads a form from its beginning to its end. */
class Reader {
  #text;
  #at = 0;

  constructor(text) {
    this.#text = text;
  }

  fail() {
    throw new SyntaxError(`no normal form of XMP, at ${this.#at}: xmpProperties takes what xmpNormalise or xmpUnsorted returns`);
  }

  /** Whether a word is next, which is passed then. */
  passes(word) {
    const isNext = this.#text.startsWith(word, this.#at);
    if (isNext) this.#at += word.length;
    return isNext;
  }

  pass(word) {
    if (!this.passes(word)) this.fail();
  }

  /** The text up to a character, which is passed unless it begins a tag. */
  upTo(character) {
    const end = this.#text.indexOf(character, this.#at), start = this.#at;
    if (end < 0) this.fail();
    this.#at = end + (character === "<" ? 0 : 1);
    return this.#text.slice(start, end);
  }

  whole() {
    this.pass(HEAD);
    const properties = this.properties(0);
    this.pass(TAIL);
    if (this.#at < this.#text.length) this.fail();
    return properties;
  }

  properties(depth) {
    const properties = [];
    while (this.passes("<p:")) {
      const name = this.upTo(" ");
      this.pass('xmlns:p="');
      properties.push({ namespace: this.upTo('"'), name, value: this.value(`</p:${name}>`, depth + 1) });
    }
    return properties;
  }

  /** The value behind the name of an element, and the end of this element. */
  value(end, depth) {
    if (depth > MOST_NESTED) this.fail();
    if (this.passes(' rdf:resource="')) {
      const uri = unescaped(this.upTo('"'));
      this.pass("/>"); // it has no end tag
      return { kind: "resource", uri };
    }
    const isStructure = this.passes(' rdf:parseType="Resource">');
    const value = isStructure ? { kind: "structure", properties: this.properties(depth) } : this.content(depth);
    this.pass(end);
    return value;
  }

  /** A container, or a text with its language. */
  content(depth) {
    const language = this.passes(' xml:lang="') ? this.upTo('"') : "";
    this.pass(">");
    const kind = CONTAINERS.find((word) => this.passes(`<rdf:${word}>`));
    if (!kind) return { kind: "text", text: unescaped(this.upTo("<")), language };
    const members = [];
    while (this.passes("<rdf:li")) members.push(this.value("</rdf:li>", depth + 1));
    this.pass(`</rdf:${kind}>`);
    return { kind, members };
  }
}

/** The properties of a normal form, in its order. Throws SyntaxError for bytes that aren't laid out as one. */
export function xmpProperties(form) {
  if (!(form instanceof Uint8Array)) throw new TypeError("exifnorm takes a Uint8Array");
  let text;
  try {
    text = utf8.decode(form);
  } catch {
    throw new SyntaxError("no normal form of XMP: it is no UTF-8");
  }
  return new Reader(text).whole();
}
