/** MD5 (RFC 1321), by which a packet of XMP names its extended XMP. @module */

const TURNS = [[7, 12, 17, 22], [5, 9, 14, 20], [4, 11, 16, 23], [6, 10, 15, 21]];
const SINES = Int32Array.from({ length: 64 }, (_, i) => Math.floor(Math.abs(Math.sin(i + 1)) * 2 ** 32));
// of each round: what it makes of three words, and which word of the chunk a step takes
const MIXED = [(b, c, d) => b & c | ~b & d, (b, c, d) => d & b | ~d & c, (b, c, d) => b ^ c ^ d, (b, c, d) => c ^ (b | ~d)];
const TAKEN = [(i) => i, (i) => (5 * i + 1) % 16, (i) => (3 * i + 5) % 16, (i) => 7 * i % 16];

/** The digest of some bytes, in hexadecimal digits with large letters. */
export function md5(bytes) {
  const padded = new Uint8Array(((bytes.length + 8 >>> 6) + 1) * 64), view = new DataView(padded.buffer);
  const state = Int32Array.of(0x67452301, 0xefcdab89, 0x98badcfe, 0x10325476);
  padded.set(bytes);
  padded[bytes.length] = 0x80;
  view.setBigUint64(padded.length - 8, BigInt(bytes.length) * 8n, true);
  for (let at = 0; at < padded.length; at += 64) {
    let [a, b, c, d] = state;
    for (let i = 0; i < 64; i++) {
      const round = i >> 4, turn = TURNS[round][i % 4];
      const sum = a + MIXED[round](b, c, d) + SINES[i] + view.getInt32(at + 4 * TAKEN[round](i), true) | 0;
      a = d, d = c, c = b, b = b + (sum << turn | sum >>> 32 - turn) | 0;
    }
    [a, b, c, d].forEach((word, i) => { state[i] += word; });
  }
  return Array.from(new Uint8Array(state.buffer), (octet) => octet.toString(16).padStart(2, "0")).join("").toUpperCase();
}
