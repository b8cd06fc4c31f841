'use strict';
// The SHA-256 of bytes, in hex digits (FIPS 180-4).
const sha256 = (() => {
  // the first 32 bits behind the point of a root of the first 64 primes
  const primes = [];
  for (let n = 2; primes.length < 64; n++) if (primes.every(p => n % p)) primes.push(n);
  const behindPoint = x => (x - Math.floor(x)) * 2 ** 32 >>> 0;
  const ROUNDS = primes.map(p => behindPoint(Math.cbrt(p)));
  const FIRST = primes.slice(0, 8).map(p => behindPoint(Math.sqrt(p)));
  const turn = (x, n) => x >>> n | x << 32 - n;

  // the bytes, a bit that is 1, zeros, and the number of bits, to whole blocks of 64 bytes
  const padded = bytes => {
    const out = new Uint8Array((bytes.length + 8 >> 6) + 1 << 6), view = new DataView(out.buffer);
    out.set(bytes);
    out[bytes.length] = 128;
    view.setUint32(out.length - 8, bytes.length / 2 ** 29);
    view.setUint32(out.length - 4, bytes.length << 3);
    return view;
  };

  const block = (sum, view, at) => {
    const w = new Uint32Array(64);
    for (let i = 0; i < 16; i++) w[i] = view.getUint32(at + 4 * i);
    for (let i = 16; i < 64; i++) {
      const x = w[i - 15], y = w[i - 2];
      w[i] = w[i - 16] + w[i - 7] + (turn(x, 7) ^ turn(x, 18) ^ x >>> 3) + (turn(y, 17) ^ turn(y, 19) ^ y >>> 10);
    }
    let [a, b, c, d, e, f, g, h] = sum;
    for (let i = 0; i < 64; i++) {
      const x = h + (turn(e, 6) ^ turn(e, 11) ^ turn(e, 25)) + (e & f ^ ~e & g) + ROUNDS[i] + w[i];
      const y = (turn(a, 2) ^ turn(a, 13) ^ turn(a, 22)) + (a & b ^ a & c ^ b & c);
      [a, b, c, d, e, f, g, h] = [x + y | 0, a, b, c, d + x | 0, e, f, g];
    }
    [a, b, c, d, e, f, g, h].forEach((word, i) => { sum[i] += word; });
  };

  return bytes => {
    const sum = Uint32Array.from(FIRST), view = padded(bytes);
    for (let at = 0; at < view.byteLength; at += 64) block(sum, view, at);
    return Array.from(sum, word => word.toString(16).padStart(8, '0')).join('');
  };
})();
