/** SHA-256 (FIPS 180-4): the browser's own is not there on every page, and only for later. @module */

const ROUNDS = new Int32Array(64), START = new Uint32Array(8);

// the fractions of the roots of the first primes
for (let number = 2, count = 0; count < 64; number++) {
  if ([...Array(number).keys()].slice(2).some((divisor) => number % divisor === 0)) continue;
  if (count < 8) START[count] = (number ** (1 / 2) % 1) * 2 ** 32;
  ROUNDS[count++] = (number ** (1 / 3) % 1) * 2 ** 32;
}

const turned = (word, bits) => (word >>> bits) | (word << (32 - bits));
const words = new Int32Array(64);

/** Adds the 64 bytes at an offset to a state of eight words. */
function add(state, view, offset) {
  for (let i = 0; i < 16; i++) words[i] = view.getInt32(offset + 4 * i);
  for (let i = 16; i < 64; i++) {
    const early = words[i - 15], late = words[i - 2];
    const first = turned(early, 7) ^ turned(early, 18) ^ (early >>> 3), second = turned(late, 17) ^ turned(late, 19) ^ (late >>> 10);
    words[i] = (words[i - 16] + first | 0) + (words[i - 7] + second | 0) | 0;
  }
  let a = state[0] | 0, b = state[1] | 0, c = state[2] | 0, d = state[3] | 0, e = state[4] | 0, f = state[5] | 0, g = state[6] | 0, h = state[7] | 0;
  for (let i = 0; i < 64; i++) {
    const first = (h + (turned(e, 6) ^ turned(e, 11) ^ turned(e, 25)) | 0) + (((e & f) ^ (~e & g)) + (ROUNDS[i] + words[i] | 0) | 0) | 0;
    const second = ((turned(a, 2) ^ turned(a, 13) ^ turned(a, 22)) + ((a & b) ^ (a & c) ^ (b & c))) | 0;
    h = g, g = f, f = e, e = (d + first) | 0, d = c, c = b, b = a, a = (first + second) | 0;
  }
  state[0] += a, state[1] += b, state[2] += c, state[3] += d, state[4] += e, state[5] += f, state[6] += g, state[7] += h;
}

/** The digest of some bytes, in hexadecimal digits. */
export function sha256(bytes) {
  const state = START.slice(), view = new DataView(bytes.buffer, bytes.byteOffset, bytes.length), whole = bytes.length & ~63;
  for (let offset = 0; offset < whole; offset += 64) add(state, view, offset);
  const rest = bytes.length - whole, end = new Uint8Array(rest < 56 ? 64 : 128), tail = new DataView(end.buffer);
  end.set(bytes.subarray(whole));
  end[rest] = 0x80;
  tail.setBigUint64(end.length - 8, BigInt(bytes.length) * 8n);
  for (let offset = 0; offset < end.length; offset += 64) add(state, tail, offset);
  return Array.from(state, (word) => word.toString(16).padStart(8, "0")).join("");
}
