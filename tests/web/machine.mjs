// node machine.mjs PAGE.html TOP: the page's own scripts and modules, without a screen, against the native programs and
// the scripts of the commands. START is a command that starts a native program. Ends with 0 only if nothing differs.
import { createHash } from 'node:crypto';
import { spawnSync } from 'node:child_process';
import { join } from 'node:path';
import { counter, drawnFile, drawnFormula, draws, examples, machine, native } from './parts.mjs';

const [page, top] = process.argv.slice(2), { count, is } = counter(), draw = draws(9511);
const parts = await machine(page), { runs, texts, sha256, FormulaReader, MODULES, CODES, WHY, FAULTS } = parts;
const codes = Object.keys(CODES).map(Number), PROGRAM = { list: 'buslist', sheets: 'sheetlist' };
const SETTINGS = [{}, { nearest: true }, { older: true }, { older: true, nearest: true }];
const words = ({ older, nearest }) => [...(older ? ['--am9511'] : []), ...(nearest ? ['--nearest'] : [])];
const many = (n, make) => Array.from({ length: n }, make);
const latin = bytes => Buffer.from(bytes).toString('latin1');

// ---- listings, and the state behind a record: what `records trace` tells of it; of a file with sheets what the native
// program pops behind it, and tells of status and errors

const ASKED = [3, 0, 2, 0, 16, 2, 0, 4, 0, 2, 0, 7, 0];
const stateBehind = (job, input, settings) => {
  const lines = latin(native(top, PROGRAM[job], Buffer.from([...input, ...ASKED]), words(settings))).split('\n');
  const at = lines.findIndex(line => line.startsWith('end '));
  return lines.slice(at - 3, at).map(line => line.split(' ').slice(3).join(' ')).join(' ');
};
const stateOf = state => texts.hexes([...state.slice(0, 16), state[17], state[19], state[20]]);

const listed = async (job, what, input, settings, every) => {
  const r = await runs.listing(job, input, settings);
  is(`${job} ${what}`, r.said, latin(native(top, PROGRAM[job], input, words(settings))));
  is(`${job} ${what}: rows and lines`, String(r.agree), 'true');
  const told = latin(native(top, 'records', input.subarray(0, r.taken), ['cut', 'read']));
  is(`${job} ${what}: words of records`, [...r.words, '', 'end', ''].join('\n'), told);
  const back = await runs.recordBytes(texts.encoded(r.words.join('\n')));
  is(`${job} ${what}: records of the words`, back, input.subarray(0, r.taken));
  if (job === 'list') {
    const states = r.rows.map((row, i) => `${i + 1} ${texts.hexes(row.state)}\n`).join('');
    is(`${job} ${what}: states`, `${states}end\n`, latin(native(top, 'records', input, ['trace', ...words(settings)])));
    return;
  }
  for (const [i, row] of r.rows.entries()) {
    const behind = row.at + row.record.length;
    if (i % every !== every - 1 || behind + ASKED.length > 12288) continue;
    const must = stateBehind(job, input.subarray(0, behind), settings);
    is(`${job} ${what}: the state behind record ${i + 1}`, stateOf(row.state), must);
  }
};
for (const { name, hex } of examples(top)) {
  const input = texts.hexBytes(hex), job = name.startsWith('sheets') ? 'sheets' : 'list';
  for (const settings of SETTINGS) await listed(job, name, input, settings, settings === SETTINGS[0] ? 2 : 16);
  await listed(job === 'list' ? 'sheets' : 'list', name, input, {}, 64);
}
for (let i = 0; i < 160; i++) {
  await listed(i % 2 ? 'list' : 'sheets', `drawn ${i}`, drawnFile(draw, codes), SETTINGS[i >> 1 & 3], 40);
}
const long = Uint8Array.from({ length: 12289 }, (_, i) => [2, 0, 4, 0][i % 4]);
for (const n of [0, 12288, 12289]) {
  for (const job of ['list', 'sheets']) await listed(job, `${n} bytes`, long.subarray(0, n), {}, 4000);
}

// ---- formulas, steps, decimals

const odd = ['', 'a', '(a-b)/c*#01800000', 'a+(b+(c+(d+e)))', 'a'.repeat(300), `${'('.repeat(17)}a${')'.repeat(17)}`,
  `${'a+a*('.repeat(16)}#01800000${')'.repeat(16)}`, 'é', 'a b'];
const refusals = new Set();
for (const text of [...odd, ...many(150, () => drawnFormula(draw))]) {
  const letters = many(8, () => draw(20) ? draw(256) * 2 ** 24 + 0x800000 + draw(0x800000) : 0x01400000);
  const input = Buffer.alloc(32), got = await runs.formula(letters, texts.encoded(text));
  letters.forEach((word, i) => input.writeUInt32BE(word, 4 * i));
  refusals.add(got.refusal);
  is(`formula ${text}`, got.refusal ? `refused ${got.refusal}\nend\n` : `${latin(got.file)}end\n`,
    latin(native(top, 'formulas', Buffer.concat([input, Buffer.from(text)]))));
}
is('formulas of each refusal', [...refusals].sort().join(' '), '0 30 31 32');

// where a formula is wrong: what is said is what scripts/formula.awk says, and the refusal is the program's
const broken = () => {
  const text = drawnFormula(draw), at = draw(text.length + 1);
  const pieces = ['', ' ', 'i', ')', '(', '-', '#', '+*', '#0', '2.5', '1.', '.5', '7', '0.1'];
  return draw(4) ? text.slice(0, at) + pieces[draw(pieces.length)] + text.slice(at + draw(2)) : text;
};
for (const text of [...odd, ...many(150, broken)]) {
  const letters = many(8, () => draw(12) ? '01800000' : '01400000'), reader = new FormulaReader(text, letters);
  const env = { ...process.env, LC_ALL: 'C', TEXT: text, WORDS: letters.join(' ') }, fault = reader.fault();
  const said = latin(spawnSync('awk', ['-f', join(top, 'scripts/formula.awk')], { env }).stdout);
  is(`where ${text} is wrong`, fault ? `${fault.number} ${fault.reason}\n` : '', said);
  const plain = reader.withWords(() => '01800000');
  const got = await runs.formula(letters.map(word => parseInt(word, 16)), texts.encoded(plain));
  is(`the refusal of ${text}`, String(fault ? fault.number : 0), String(got.refusal));
}

const digits = n => many(n, () => '0123456789ABCDEF'[draw(16)]).join('');
const calls = [[], ['6F'], ['6F', 'FFF9', '0002'], ['6F', 'fff9', '0002'], ['6F', 'FFF9', '0002', '--nearest', 'x'],
  ['zz', 'FFF9', '0002'], ['6F', '12345678901234567', '0002'], ['12', '01400000', '01800000'], ['6F', '', '']];
for (const code of ['6E', '76', '6F']) for (let i = 0; i < 12; i++) calls.push([code, digits(4), digits(4)]);
for (const code of ['2E', '36', '2F', '12', '13']) {
  for (let i = 0; i < 20; i++) calls.push([code, digits(8), digits(8), ...(i % 2 ? ['--nearest'] : [])]);
}
for (const call of calls) is(`steps ${call}`, await runs.steps(call), latin(native(top, 'steps', '', call)));

const decimal = () => `${draw(2) ? '-' : ''}${draw(10 ** draw(10))}.${draw(10 ** draw(10))}`;
const numbers = ['2.5', '0.1', '-0.001', '2', '2.', '.5', '-.5', '+2.5', '2.5.1', '2.5e', '123ABCD',
  '12345678901234567890.0', '9'.repeat(100), '9223372036854775808.0', '0.00000000000000000002', `0.${'0'.repeat(27)}1`,
  '02a00000', '00400000', '3FFFFFFF', '40800000', ...many(1500, () => digits(8)), ...many(500, decimal)];
const lines = (list, rule, form) => {
  const input = list.map(text => `${text}\n`).join('');
  return latin(native(top, 'word', input, [rule, form])).split('\n').slice(0, -2);
};
for (const nearest of [false, true]) for (const exact of [false, true]) {
  const rule = nearest ? 'nearest' : 'cut', form = exact ? 'exact' : 'short';
  const got = await runs.told(numbers, { nearest, form });
  const must = [0, 700, 1400].flatMap(from => lines(numbers.slice(from, from + 700), rule, form));
  numbers.forEach((text, i) => is(`word ${text}`, got[i], must[i]));
}
for (const text of numbers.slice(0, 16)) {
  const [line] = await runs.told([text], {});
  if (!/^(refused|wrong)/.test(line)) continue;
  const said = spawnSync(join(top, 'word'), ['--', text]).stderr.toString();
  is(`why ${text} has no word`, String(said.includes(texts.noWord(line, text))), 'true');
}

const sums = many(200, () => '+-'[draw(2)] + digits(48)), sumLines = await runs.told(sums, { form: 'sum' });
lines(sums, 'cut', 'sum').forEach((line, i) => is(`sum ${sums[i]}`, sumLines[i], line));

// ---- records in words: right lines and wrong ones, each with its place

const said = ['push 7.5 2.5', 'push 02A00000 0003 05', 'push', 'push 2', 'push 0.1', 'push 2.5x', 'FMUL', 'FMUL sr',
  'fmul', 'SIN', 'command 0C', 'command', 'pop 4', 'pop 0', 'pop 241', 'pop x', 'status', 'status 1', 'reset', 'open 42',
  'open 4294967296', 'keep 4', 'close', '# nothing', '', `push ${'00 '.repeat(241)}`, 'push 9223372036854775808.0',
  '\tPUPI # pi', 'pop 4\r'];
for (const text of [...said, ...many(150, () => many(1 + draw(6), () => said[draw(said.length)]).join('\n'))]) {
  for (const nearest of [false, true]) {
    const wrote = latin(native(top, 'records', Buffer.from(text), [nearest ? 'nearest' : 'cut', 'text']));
    const wrong = /\nwrong (\d+) (\d+) (\d+)\n$/.exec(wrote), reason = wrong && FAULTS[wrong[3]];
    const must = wrong ? `line ${wrong[1]}, character ${Number(wrong[2]) + 1}: ${reason}` : wrote.slice(0, -5);
    const got = await runs.recordBytes(texts.encoded(text), nearest).then(latin, error => error.message);
    is(`records ${text}`, got, must);
    is(`records ${text}: a reason`, String(reason !== undefined), 'true');
  }
}

// ---- what no program tells: hex text against scripts/hex.awk, SHA-256, reasons for refusals

const pieces = ['00', '1f', 'A', ' ', '\t', '\n', '\r', '\r\n', '#', 'g', '# c\n', 'FF', '0x01', '0X', 'x', ',', ':',
  'S', '02 ', '03\n', '\0'];
const hexTexts = ['', '0', '0 0', '00\r\n01\r02\n03', '# only', '\ufeff0102', 'zz', '00 0x', '0x0102,03', '0x0x01',
  '00x01', ':10', 'S1', '00\n:', 'é', '01'.repeat(12289) + 'zz', '01'.repeat(13000), [0xFF, 0xFE, 0x30, 0],
  [0xFE, 0xFF, 0, 0x30], [0x30, 0x31, 0xEF, 0xBB, 0xBF],
  ...many(120, () => many(1 + draw(9), () => pieces[draw(pieces.length)]).join(''))];
for (const text of hexTexts.map(given => Buffer.from(given))) {
  const command = `od -A n -v -t x1 | LC_ALL=C awk -v most=12289 -f '${top}/scripts/hex.awk'`;
  const said = spawnSync('sh', ['-c', command], { input: text }), escapes = latin(said.stdout);
  const bytes = (escapes.match(/\\\d{3}/g) || []).map(octal => parseInt(octal.slice(1), 8));
  const must = said.status ? escapes.split('\n').slice(-2)[0] : Buffer.from(bytes);
  let got;
  try { got = texts.hexBytes(text); } catch (error) { got = error.message; }
  is(`hex text ${JSON.stringify(latin(text).slice(0, 40))}`, got, must);
}
for (let n = 0; n < 600; n += 3) {
  const bytes = Uint8Array.from({ length: n }, () => draw(256));
  is(`SHA-256 of ${n} bytes`, sha256(bytes), createHash('sha256').update(bytes).digest('hex'));
}
is('refusals with a reason', Object.keys(WHY).join(' '), '1 2 3 4 5 6 7 8 9 20 21 22 23 24 25 30 31 32 33');

// ---- a wrong bit in a module is caught before it is run

for (const name in MODULES) {
  const bytes = Buffer.from(MODULES[name].bytes, 'base64');
  for (const at of [8, bytes.length >> 1, bytes.length - 1]) {
    bytes[at] ^= 1;
    const changed = data => data.replace(MODULES[name].bytes, bytes.toString('base64'));
    is(`${name} with a wrong bit`, await machine(page, changed).then(() => 'taken', error => error.message),
      `the program ${name} in this file is not as it was built`);
    bytes[at] ^= 1;
  }
}

console.log(`${count.compared} outputs, ${count.differ} differ`);
process.exitCode = count.differ ? 1 : 0;
