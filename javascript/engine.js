/**
 * The calls of exifnorm over its WebAssembly module: those of the C library, on Uint8Array.
 *
 * The module imports nothing. A call copies its arguments into the module's memory and its result out of it, and frees both.
 * @module
 */

export { xmpProperties } from "./xmp.js";

/** The greatest length in bytes of a block, of a packet of XMP, and of a normal form. */
export const LIMIT = 16_777_216;

// the statuses, kinds and causes of exifnorm.h
const DONE = 0, REFUSED = 2, TOO_LONG = 3, NO_MEMORY = 4, TOO_LITTLE_ROOM = 5, SECOND_REFUSED = 6, NOT_READ = 7, SECOND_NOT_READ = 8;
const RARE = 9; // of a packet of XMP
const KINDS = ["", "exif", "iptc"], PART_KINDS = ["", "exif", "photoshop", "xmp", "extended xmp"], SAME = [false, true];
const IPTC = 0x0404; // Photoshop's resource

// sizes of its structs in bytes; a size_t has 8
const PART = 32, BLOCK = 24, RESOURCE = 24, UNREAD = 16, NAME = 32;
const ANSWER = 64, FAULT = 32; // what a call sets besides its output: the result at 0, the fault at 32
const FEW_ROWS = 64;
const MOST_KEPT = 1 << 26; // a module with more memory is replaced after the call: it can't return memory to the system

/** A block breaks the rules and has no meaning: its first fault. */
export class Refused extends Error {
  constructor(cause, offset, side = null, text = "") {
    super(text || `${cause} at ${offset}${side === null ? "" : ` in block ${side}`}`);
    this.name = new.target.name;
    this.cause = cause;
    this.offset = offset;
    this.side = side;
  }

  /** The older name of `offset`. */
  get place() {
    return this.offset;
  }
}

/** The bytes are no head of a JPEG: the first fault, the parts before it, and the blocks that end before it. */
export class HeadRefused extends Refused {
  constructor(cause, offset, parts = [], blocks = []) {
    super(cause, offset);
    this.parts = parts;
    this.blocks = blocks;
  }
}

/** Of two JPEGs one has no head of a JPEG, or a block that is refused: the first fault. */
export class PictureRefused extends Refused {
  constructor(cause, offset, side, kind = "", index = 0) {
    const where = kind === "" ? "the head" : `block ${index + 1} of ${kind === "exif" ? "Exif" : "IPTC"}`;
    super(cause, offset, side, `${cause} at ${offset} in ${where}, picture ${side}`);
    this.kind = kind;
    this.index = index;
  }
}

/** A JPEG has a second packet of XMP, or extended XMP, at this offset: its first packet is not all of its XMP. */
export class XmpNotRead extends Error {
  constructor(offset) {
    super(`a second packet of XMP or extended XMP at ${offset} is not read`);
    this.name = new.target.name;
    this.offset = offset;
  }
}

/** A packet of XMP has no normal form: its first fault. */
export class XmpRefused extends Refused {
  /** Whether the packet may have a meaning all the same, in a form of RDF/XML that isn't read here. */
  get isRare() {
    return this.cause.startsWith("XmpRare");
  }
}

/** Two JPEGs have the same metadata as far as both are read, and one has a place that isn't read. */
export class NotRead extends Error {
  constructor(side, unread) {
    const where = `${unread.start}${unread.joined ? " of its joined blocks" : ""}`;
    super(`the same as far as it was read; picture ${side} has a part at ${where} that was not read`);
    this.name = new.target.name;
    this.side = side;
    this.unread = unread;
  }
}

/** The block has a meaning, but its normal form is longer than LIMIT. */
export class NormalTooLong extends Error {
  constructor() {
    super(`the normal form is longer than ${LIMIT} bytes`);
    this.name = new.target.name;
  }
}

/** There are more parts, resources or blocks than the call was allowed to return. */
export class TooMany extends Error {
  constructor(most) {
    super(`more than ${most}`);
    this.name = new.target.name;
    this.most = most;
  }
}

/** There is not enough memory for the call. Nothing is known of the block. */
export class OutOfMemory extends Error {
  constructor() {
    super("not enough memory");
    this.name = new.target.name;
  }
}

const ascii = new TextDecoder();


/** The calls over one compiled module. */
export class Engine {
  #module;
  #exports = null; // of the running instance
  #bytes = null; // its memory, which is another object after it grew
  #view = null;
  #answer = 0; // the address of what the current call sets
  #allocated = []; // the addresses that the current call frees at its end

  /** @param {WebAssembly.Module} module */
  constructor(module) {
    this.#module = module;
  }

  /** How many bytes of memory the module has between calls: at most 64 MiB. */
  get memory() {
    return this.#exports?.memory.buffer.byteLength ?? 0;
  }

  /** How many allocations are left in the module: none between calls. */
  get allocations() {
    return this.#exports ? Number(this.#exports.exifnorm_allocations()) : 0;
  }

  // ---- the module's memory

  #start() {
    this.#exports ??= new WebAssembly.Instance(this.#module, {}).exports;
  }

  #look() {
    if (this.#bytes?.buffer === this.#exports.memory.buffer) return;
    this.#bytes = new Uint8Array(this.#exports.memory.buffer);
    this.#view = new DataView(this.#exports.memory.buffer);
  }

  #allocate(size) {
    const address = Number(this.#exports.exifnorm_malloc(BigInt(size)));
    if (address === 0) throw new OutOfMemory();
    this.#allocated.push(address);
    this.#look();
    return address;
  }

  /** Copies bytes into the module. Returns the two arguments that stand for them. */
  #copyIn(bytes) {
    if (!(bytes instanceof Uint8Array)) throw new TypeError("exifnorm takes a Uint8Array");
    const address = this.#allocate(bytes.length);
    this.#bytes.set(bytes, address);
    return [BigInt(address), BigInt(bytes.length)];
  }

  #uint32(address) {
    this.#look();
    return this.#view.getUint32(address, true);
  }

  #size(address) {
    this.#look();
    return Number(this.#view.getBigUint64(address, true));
  }

  #slice(address, size) {
    this.#look();
    return this.#bytes.slice(address, address + size);
  }

  #text(address, size) {
    this.#look();
    return ascii.decode(this.#bytes.subarray(address, address + size));
  }

  /**
   * What a function returns that calls the module. It gets the addresses of the result and of the fault, as arguments of a call.
   * All that it allocated is freed. If the module trapped, which no call should, the next call starts it anew.
   */
  #call(work) {
    this.#start();
    let isWhole = true;
    try {
      this.#answer = this.#allocate(ANSWER);
      return work(BigInt(this.#answer), BigInt(this.#answer + FAULT));
    } catch (error) {
      isWhole = !(error instanceof WebAssembly.RuntimeError);
      throw isWhole ? error : new Error(`exifnorm stopped: ${error.message}`, { cause: error });
    } finally {
      if (isWhole) for (const address of this.#allocated) this.#exports.exifnorm_free(BigInt(address));
      this.#allocated.length = 0;
      if (!isWhole || this.memory > MOST_KEPT) this.#exports = this.#bytes = this.#view = null;
    }
  }

  // ---- statuses

  /** The name of the cause of a refusal. */
  #causeName(cause) {
    const out = this.#allocate(NAME), written = this.#allocate(8);
    this.#exports.exifnorm_cause_name(cause, BigInt(out), BigInt(NAME), BigInt(written));
    return this.#text(out, this.#size(written) - 1);
  }

  /** Throws the error of a status of a call for one block, or for two. */
  #require(status, isPair = false) {
    if (status === DONE) return;
    if (status === REFUSED || status === SECOND_REFUSED) {
      const fault = this.#answer + FAULT, side = status === REFUSED ? 1 : 2;
      throw new Refused(this.#causeName(this.#uint32(fault)), this.#uint32(fault + 4), isPair ? side : null);
    }
    if (status === TOO_LONG) throw new NormalTooLong();
    if (status === NO_MEMORY) throw new OutOfMemory();
    throw new Error(`exifnorm returned the status ${status}`);
  }

  /** Throws the error of a status of a call for the head of one picture. */
  #requireHead(status, parts) {
    if (status === REFUSED) {
      const fault = this.#answer + FAULT;
      throw new HeadRefused(this.#causeName(this.#uint32(fault)), this.#size(fault + 8), parts);
    }
    this.#require(status);
  }

  /** Throws the error of a status of a call for a packet of XMP. */
  #requireForm(status) {
    if (status === REFUSED || status === RARE) {
      const fault = this.#answer + FAULT;
      throw new XmpRefused(this.#causeName(this.#uint32(fault)), this.#uint32(fault + 4));
    }
    this.#require(status);
  }

  /** The answer of a comparison. A number that isn't known is no answer. */
  #same() {
    const answer = SAME[this.#uint32(this.#answer)];
    if (answer === undefined) throw new Error(`exifnorm returned the answer ${this.#uint32(this.#answer)}`);
    return answer;
  }

  // ---- blocks

  /**
   * What one of the calls that write bytes has written, as `read` takes it out of the module. There is room for `times` the bytes of the
   * block first.
   */
  #written(name, block, times, read, require = (status) => this.#require(status)) {
    return this.#call((written, fault) => {
      const arguments_ = this.#copyIn(block);
      let room = times * Math.min(block.length, LIMIT) + 1024;
      for (;;) {
        const out = this.#allocate(room), status = this.#exports[name](...arguments_, BigInt(out), BigInt(room), written, fault);
        const size = this.#size(this.#answer);
        if (status === TOO_LITTLE_ROOM && size > room) {
          room = size;
          continue;
        }
        require(status);
        return read(out, size);
      }
    });
  }

  check(block) {
    return this.#call((kind, fault) => {
      this.#require(this.#exports.exifnorm_check(...this.#copyIn(block), kind, fault));
      return KINDS[this.#uint32(this.#answer)];
    });
  }

  normalise(block) {
    return this.#written("exifnorm_normalise", block, 1, (start, size) => this.#slice(start, size));
  }

  show(block) {
    return this.#written("exifnorm_show", block, 4, (start, size) => this.#text(start, size));
  }

  captions(block) {
    return this.#written("exifnorm_captions", block, 2, (start, size) => this.#text(start, size));
  }

  compare(first, second) {
    return this.#call((same, fault) => {
      this.#require(this.#exports.exifnorm_compare(...this.#copyIn(first), ...this.#copyIn(second), same, fault), true);
      return this.#same();
    });
  }

  // ---- packets of XMP

  xmpCheck(packet) {
    this.#call((_, fault) => this.#requireForm(this.#exports.exifnorm_xmp_check(...this.#copyIn(packet), fault)));
  }

  xmpNormalise(packet) {
    return this.#form("exifnorm_xmp_normalise", packet);
  }

  xmpUnsorted(packet) {
    return this.#form("exifnorm_xmp_unsorted", packet);
  }

  #form(name, packet) {
    return this.#written(name, packet, 1, (start, size) => this.#slice(start, size), (status) => this.#requireForm(status));
  }

  // ---- pictures

  /** The rows that a call stores, of `size` bytes each, read by `read`; and its status. */
  #rows(size, most, store, read) {
    for (let room = FEW_ROWS; ; ) {
      const rows = this.#allocate(size * room), status = store(BigInt(rows), BigInt(room)), count = this.#size(this.#answer);
      if (count > most) throw new TooMany(most);
      if (status === TOO_LITTLE_ROOM && count > room) {
        room = count;
        continue;
      }
      return [status, Array.from({ length: count }, (_, index) => read(rows + size * index))];
    }
  }

  jpegParts(picture, most = Infinity) {
    return this.#call((count, fault) => {
      const bytes = this.#copyIn(picture), call = this.#exports.exifnorm_jpeg_parts;
      const [status, parts] = this.#rows(PART, most, (rows, room) => call(...bytes, rows, room, count, fault), (row) => ({
        marker: this.#uint32(row),
        kind: PART_KINDS[this.#uint32(row + 4)],
        begins: this.#uint32(row + 8) === 1,
        start: this.#size(row + 16),
        size: this.#size(row + 24),
      }));
      this.#requireHead(status, parts);
      return parts;
    });
  }

  photoshopResources(bytes, most = Infinity) {
    return this.#call((count) => {
      const copy = this.#copyIn(bytes), call = this.#exports.exifnorm_photoshop_resources;
      const [status, resources] = this.#rows(RESOURCE, most, (rows, room) => call(...copy, rows, room, count), (row) => ({
        number: this.#size(row),
        start: this.#size(row + 8),
        size: this.#size(row + 16),
      }));
      this.#require(status);
      return resources;
    });
  }

  jpegBlocks(picture, most = Infinity) {
    const [isHead, whole] = this.#wholeBlocks(picture, most);
    const blocks = whole.flatMap(({ kind, data }) => {
      if (kind === "exif") return [{ kind, data }];
      if (kind !== "photoshop") return [];
      const resources = this.photoshopResources(data, most).filter(({ number, size }) => number === IPTC && size > 0);
      return resources.map(({ start, size }) => ({ kind: "iptc", data: data.slice(start, start + size) }));
    });
    if (isHead) return blocks;
    try {
      this.jpegParts(picture, most); // throws HeadRefused with the parts before the fault
    } catch (error) {
      throw error instanceof HeadRefused ? new HeadRefused(error.cause, error.offset, error.parts, blocks) : error;
    }
    throw new Error("exifnorm refuses a head of which it has all parts");
  }

  /** Whether the picture has a head, and the blocks of all kinds of parts, each as one; without a head, those that end before its fault. */
  #wholeBlocks(picture, most) {
    return this.#call((sizes, fault) => {
      const bytes = this.#copyIn(picture), call = this.#exports.exifnorm_jpeg_blocks;
      let joinedSize = 0, out = this.#allocate(0);
      const store = (rows, room) => {
        const status = call(...bytes, rows, room, BigInt(out), BigInt(joinedSize), sizes, fault);
        if (status !== TOO_LITTLE_ROOM || this.#size(this.#answer) > Number(room)) return status;
        joinedSize = this.#size(this.#answer + 8);
        out = this.#allocate(joinedSize);
        return call(...bytes, rows, room, BigInt(out), BigInt(joinedSize), sizes, fault);
      };
      const [status, blocks] = this.#rows(BLOCK, most, store, (row) => {
        const from = this.#uint32(row + 4) === 1 ? out : Number(bytes[0]);
        return { kind: PART_KINDS[this.#uint32(row)], data: this.#slice(from + this.#size(row + 8), this.#size(row + 16)) };
      });
      if (status !== REFUSED) this.#require(status);
      return [status === DONE, blocks];
    });
  }

  /** A place that isn't read, from its address. */
  #unread(address) {
    return { joined: this.#uint32(address + 4) === 1, start: this.#size(address + 8) };
  }

  jpegUnread(picture) {
    return this.#call((unread, fault) => {
      this.#requireHead(this.#exports.exifnorm_jpeg_unread(...this.#copyIn(picture), unread, fault), []);
      return this.#uint32(this.#answer) === 0 ? null : this.#unread(this.#answer);
    });
  }

  /** The packet of XMP, as a copy. */
  jpegXmp(picture) {
    return this.#call((packet, fault) => {
      const bytes = this.#copyIn(picture), place = this.#allocate(UNREAD);
      const status = this.#exports.exifnorm_jpeg_xmp(...bytes, packet, BigInt(place), fault);
      if (status === NOT_READ) throw new XmpNotRead(this.#unread(place).start);
      this.#requireHead(status, []);
      if (this.#uint32(this.#answer) === 0) return null;
      return this.#slice(Number(bytes[0]) + this.#size(this.#answer + 8), this.#size(this.#answer + 16));
    });
  }

  jpegSame(first, second) {
    return this.#pair("exifnorm_jpeg_same", first, second);
  }

  jpegSameBlocks(first, second) {
    return this.#pair("exifnorm_jpeg_same_blocks", first, second);
  }

  /** The answer of a comparison of two pictures. */
  #pair(name, first, second) {
    return this.#call((same, faultArgument) => {
      const pictures = [...this.#copyIn(first), ...this.#copyIn(second)], place = this.#answer + 8;
      const status = this.#exports[name](...pictures, same, BigInt(place), faultArgument);
      if (status === NOT_READ || status === SECOND_NOT_READ) throw new NotRead(status === NOT_READ ? 1 : 2, this.#unread(place));
      if (status === REFUSED || status === SECOND_REFUSED) {
        const fault = this.#answer + FAULT, kind = KINDS[this.#uint32(fault + 4)];
        const cause = this.#causeName(this.#uint32(fault));
        throw new PictureRefused(cause, this.#size(fault + 16), status === REFUSED ? 1 : 2, kind, this.#size(fault + 8));
      }
      this.#require(status);
      return this.#same();
    });
  }

  version() {
    return this.#call((written) => {
      const out = this.#allocate(NAME);
      this.#require(this.#exports.exifnorm_version(BigInt(out), BigInt(NAME), written));
      return `${this.#text(out, this.#size(this.#answer) - 1)} (WebAssembly)`;
    });
  }
}

/** The calls over a module: its bytes, its compiled form, or what fetch() returns. */
export async function load(source) {
  const given = await source;
  if (given instanceof WebAssembly.Module) return new Engine(given);
  const bytes = typeof Response !== "undefined" && given instanceof Response ? await given.arrayBuffer() : given;
  return new Engine(await WebAssembly.compile(bytes));
}
