/** What a zlib stream has (RFC 1950 and 1951), because a browser's own decompression answers later. @module */

const LENGTHS = [3, 4, 5, 6, 7, 8, 9, 10, 11, 13, 15, 17, 19, 23, 27, 31, 35, 43, 51, 59, 67, 83, 99, 115, 131, 163, 195, 227, 258];
const LENGTH_BITS = LENGTHS.map((_, i) => i < 8 || i === 28 ? 0 : (i >> 2) - 1);
const DISTANCE_BITS = Array.from({ length: 30 }, (_, i) => i < 2 ? 0 : (i >> 1) - 1);
const DISTANCES = DISTANCE_BITS.map((_, i) => i < 2 ? i + 1 : 1 + ((2 + (i & 1)) << (i >> 1) - 1));
const ORDER = [16, 17, 18, 0, 8, 7, 9, 6, 10, 5, 11, 4, 12, 3, 13, 2, 14, 1, 15];
const END = 256, MOST_LITERALS = 286, SMALL = 5552; // bytes whose sums of Adler-32 are below 2 ** 32

class Damaged extends Error {}

/** The bits of a code from the last to the first, as a stream has them. */
function turned(code, length) {
  let bits = 0;
  for (let i = 0; i < length; i++) bits |= (code >> i & 1) << length - 1 - i;
  return bits;
}

/**
 * A code by the lengths of its symbols, as a table: by the next bits of a stream, as many as the longest code has, 16 times the symbol and the
 * length of its code; 0 for bits that are no code. All bits must be codes, as zlib has it, unless there is one code alone, of one bit.
 */
function codeOf(lengths, mayBeAlone = true) {
  const longest = Math.max(...lengths), table = new Uint16Array(1 << longest), counts = new Uint32Array(17), next = new Uint32Array(17);
  for (const length of lengths) if (length) counts[length]++;
  for (let length = 1; length <= 15; length++) next[length + 1] = next[length] + counts[length] << 1;
  const codes = next[longest + 1] / 2, isAlone = mayBeAlone && longest === 1;
  if (codes > table.length || codes < table.length && longest && !isAlone) throw new Damaged();
  lengths.forEach((length, symbol) => {
    if (!length) return;
    const code = next[length]++;
    for (let bits = turned(code, length); bits < table.length; bits += 1 << length) table[bits] = symbol << 4 | length;
  });
  return { table, longest };
}

const FIXED = [codeOf(Array.from({ length: 288 }, (_, i) => i < 144 ? 8 : i < 256 ? 9 : i < 280 ? 7 : 8)), codeOf(Array.from({ length: 32 }, () => 5))];

class Stream {
  #bytes;
  #at = 2; // the next byte, behind the header
  #bits = 0; // that were taken from the bytes before, the next one lowest
  #count = 0;
  #out = new Uint8Array(1 << 12);
  #size = 0;
  #most;

  constructor(bytes, most) {
    this.#bytes = bytes;
    this.#most = most;
  }

  /** Has at least so many bits, of which those behind the end are 0. */
  #fill(count) {
    while (this.#count < count) {
      this.#bits |= this.#bytes[this.#at++] << this.#count; // nothing behind the end
      this.#count += 8;
    }
  }

  #drop(count) {
    this.#bits >>>= count;
    this.#count -= count;
    if (this.#at - (this.#count >> 3) > this.#bytes.length) throw new Damaged();
  }

  bits(count) {
    this.#fill(count);
    const number = this.#bits & (1 << count) - 1;
    this.#drop(count);
    return number;
  }

  symbol({ table, longest }) {
    this.#fill(longest);
    const found = table[this.#bits & (1 << longest) - 1];
    if (!found) throw new Damaged();
    this.#drop(found & 15);
    return found >> 4;
  }

  /** Makes room for further bytes. */
  #grow(size) {
    if (this.#size + size > this.#most) throw new Damaged();
    if (this.#size + size <= this.#out.length) return;
    const longer = new Uint8Array(Math.min(Math.max(2 * this.#out.length, this.#size + size), this.#most));
    longer.set(this.#out.subarray(0, this.#size));
    this.#out = longer;
  }

  /** Leaves the bits of the last byte. Returns where the next one is. */
  #byte() {
    this.#drop(this.#count & 7);
    this.#at -= this.#count >> 3;
    this.#bits = this.#count = 0;
    return this.#at;
  }

  stored() {
    const at = this.#byte() + 4, [low, high, notLow, notHigh] = this.#bytes.subarray(at - 4, at), length = low | high << 8;
    if (at + length > this.#bytes.length || ((notLow | notHigh << 8) ^ length) !== 0xffff) throw new Damaged();
    this.#grow(length);
    this.#out.set(this.#bytes.subarray(at, at + length), this.#size);
    this.#size += length;
    this.#at = at + length;
  }

  codes() {
    const count = this.bits(5) + 257, distances = this.bits(5) + 1, given = this.bits(4) + 4, sizes = new Array(19).fill(0), lengths = [];
    if (count > MOST_LITERALS || distances > DISTANCES.length) throw new Damaged();
    for (let i = 0; i < given; i++) sizes[ORDER[i]] = this.bits(3);
    const code = codeOf(sizes, false);
    while (lengths.length < count + distances) {
      const symbol = this.symbol(code);
      if (symbol < 16) lengths.push(symbol);
      else {
        const again = symbol === 16 ? 3 + this.bits(2) : symbol === 17 ? 3 + this.bits(3) : 11 + this.bits(7);
        if (symbol === 16 && !lengths.length) throw new Damaged();
        lengths.push(...new Array(again).fill(symbol === 16 ? lengths.at(-1) : 0));
      }
    }
    if (lengths.length > count + distances || !lengths[END]) throw new Damaged();
    return [codeOf(lengths.slice(0, count)), codeOf(lengths.slice(count, count + distances))];
  }

  /** Copies bytes that are there already; a copy may go on into itself. */
  #copy(length, distance) {
    if (!(length > 0 && distance <= this.#size)) throw new Damaged();
    this.#grow(length);
    const out = this.#out, end = this.#size + length;
    if (distance >= length) out.copyWithin(this.#size, this.#size - distance, this.#size - distance + length);
    else for (let at = this.#size; at < end; at++) out[at] = out[at - distance];
    this.#size = end;
  }

  compressed([literals, distances]) {
    for (let symbol; (symbol = this.symbol(literals)) !== END; ) {
      if (symbol < END) {
        this.#grow(1);
        this.#out[this.#size++] = symbol;
        continue;
      }
      const length = LENGTHS[symbol - 257] + this.bits(LENGTH_BITS[symbol - 257]), far = this.symbol(distances);
      this.#copy(length, DISTANCES[far] + this.bits(DISTANCE_BITS[far]));
    }
  }

  whole() {
    for (let isLast = 0; !isLast; ) {
      isLast = this.bits(1);
      const kind = this.bits(2);
      if (kind === 3) throw new Damaged();
      if (kind === 0) this.stored(); else this.compressed(kind === 1 ? FIXED : this.codes());
    }
    const found = this.#out.subarray(0, this.#size), at = this.#byte(), [a, b, c, d] = this.#bytes.subarray(at, at + 4);
    if (at + 4 > this.#bytes.length || adler(found) !== (a * 2 ** 24 + (b << 16 | c << 8 | d))) throw new Damaged();
    return found;
  }
}

/** The check sum of RFC 1950. */
function adler(bytes) {
  let one = 1, two = 0;
  for (let start = 0; start < bytes.length; start += SMALL) {
    for (let at = start, end = Math.min(start + SMALL, bytes.length); at < end; at++) two += one += bytes[at];
    one %= 65521;
    two %= 65521;
  }
  return two * 65536 + one;
}

/** The content of a zlib stream, at most so many bytes; null if it is damaged, cut, or longer. */
export function inflated(bytes, most) {
  if ((bytes[0] & 15) !== 8 || (bytes[0] * 256 + bytes[1]) % 31 || bytes[1] & 32) return null;
  try {
    return new Stream(bytes, most).whole();
  } catch (error) {
    if (error instanceof Damaged) return null;
    throw error;
  }
}
