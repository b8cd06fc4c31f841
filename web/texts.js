// Texts that people write and read: hex text, a record in words, why it was refused, what a byte says. Nothing proves
// these.
const texts = (() => {
  const MOST = 12289; // a byte more than a run takes; no more is read
  const hex = (n, digits) => n.toString(16).toUpperCase().padStart(digits, '0');
  const hexes = bytes => Array.from(bytes, byte => hex(byte, 2)).join(' ');
  const ascii = bytes => Array.from(bytes, byte => String.fromCharCode(byte)).join('');
  const encoded = text => new TextEncoder().encode(text);

  const FOREIGN = {
    ':': 'this is Intel HEX, which has addresses and sums; make record bytes of it first (objcopy -I ihex -O binary)',
    'S': 'these are Motorola S-records, which have addresses and sums; make record bytes of them first ' +
      '(objcopy -I srec -O binary)',
  };

  // Hex text to bytes, by the rules of scripts/hex.awk; throws the line and the reason.
  const hexBytes = raw => {
    const out = [];
    let line = 1, comment = false, begins = true, half = '', group = 0, bare = false, prefixed = false;
    const refuse = reason => { throw Error(`line ${line}: ${reason}`); };
    const parted = () => {
      if (half) refuse(`"${half}" is half a byte`);
      if (bare) refuse('"0x" has no digits behind it');
      group = 0;
      prefixed = false;
    };
    const digit = c => {
      bare = false;
      group++;
      if (half) out.push(parseInt(half + c, 16));
      half = half ? '' : c;
    };
    const other = (byte, c) => {
      if (c === '#') { parted(); comment = true; }
      else if (c === ' ' || c === '\t' || c === ',') parted();
      else if (/[xX]/.test(c) && half === '0' && group === 1 && !prefixed) {
        half = '';
        group = 0;
        bare = prefixed = true;
      } else if (begins && FOREIGN[c]) refuse(FOREIGN[c]);
      else if (byte > 32 && byte < 127) refuse(`"${c}" is no hex digit`);
      else refuse(`the byte ${hex(byte, 2)} (hex) is no text`);
    };
    if (raw[0] + raw[1] === 0x1FD && raw[0] > 0xFD) refuse('this is UTF-16; save the text as UTF-8');
    const start = raw[0] === 0xEF && raw[1] === 0xBB && raw[2] === 0xBF ? 3 : 0;
    for (let i = start; i < raw.length && out.length < MOST; i++) {
      const c = String.fromCharCode(raw[i]);
      if (c === '\n' || c === '\r') {
        if (!comment) parted();
        if (c === '\r' || raw[i - 1] !== 13) line++;
        comment = false;
        begins = true;
      } else if (!comment) {
        if (/[0-9A-Fa-f]/.test(c)) digit(c);
        else other(raw[i], c);
        begins = false;
      }
    }
    parted();
    return Uint8Array.from(out);
  };

  // What text that was taken as record bytes looks like, if it does.
  const mistaken = bytes => {
    const [a, b, c] = bytes, mark = a === 0xEF && b === 0xBB && c === 0xBF;
    if (a + b === 0x1FD && a > 0xFD) return 'That looks like text in UTF-16: save it as UTF-8, and choose hex text.';
    if (a === 0x3A) return 'That looks like Intel HEX: make record bytes of it first.';
    const text = bytes.subarray(0, 64).every(byte => byte > 31 && byte !== 127 || [9, 10, 13].includes(byte));
    return text && (mark || a < 128) ? 'If that was hex text, choose so beside the file.' : '';
  };

  // A text that people pasted is hex text if there is no other letter in it, but for comments.
  const isHexText = text => !/[^0-9A-Fa-fxX,\s]/.test(text.replace(/#.*/g, ''));

  // the derived functions, which are not carried, from code 02 on
  const DERIVED = ['SIN', 'COS', 'TAN', 'ASIN', 'ACOS', 'ATAN', 'LOG', 'LN', 'EXP', 'PWR'];
  const code = byte => {
    const name = CODES[byte & 127] || DERIVED[(byte & 127) - 2];
    return name ? name + (byte & 128 ? ' sr' : '') : `command ${hex(byte, 2)}`;
  };

  // The bits of a status: a short name for a lamp, the bit, and its name in words.
  const BITS = [['S', 0x40, 'sign'], ['Z', 0x20, 'zero'], ['÷0', 0x10, 'divide by zero'],
    ['√−', 0x08, 'root of a negative number'], ['UF', 0x04, 'underflow'], ['OF', 0x02, 'overflow'],
    ['C', 0x01, 'carry']];
  const said = byte => BITS.filter(([, bit]) => byte & bit).map(([, , name]) => name).join(', ');

  // Why a text has no word, by what the program tells of it.
  const noWord = (line, text) => {
    if (line === 'refused 11') return '2^63 or more, for which there is no word (refusal 11)';
    if (line === 'refused 12') return 'not zero and under 2^-65, for which there is no word (refusal 12)';
    const [, place, what] = line.split(' ');
    const said = { digit: 'a digit is wanted', point: `a point is wanted, as in ${text}.0`,
      digits: 'more digits than are taken', places: 'more than 27 places behind the point',
      end: 'nothing may stand behind the number' };
    return `character ${place}: ${said[what]}`;
  };

  return { MOST, BITS, hex, hexes, ascii, encoded, hexBytes, mistaken, isHexText, code, said, noWord };
})();
