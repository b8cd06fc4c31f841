// node browser.mjs PAGE.html TOP FOLDER: the page in a headless Chromium, opened from disk and used as people use it,
// against the native programs; pictures of it to FOLDER. START is a command that starts a native program. Ends with 0
// only if nothing differs.
import { createHash } from 'node:crypto';
import { existsSync, readFileSync, statSync, writeFileSync } from 'node:fs';
import { join, resolve } from 'node:path';
import { chromium } from './chromium.mjs';
import { counter, examples, machine, native } from './parts.mjs';

const [page, top, folder] = process.argv.slice(2).map(path => resolve(path)), { count, is } = counter();
const { texts, EXAMPLES, MODULES, WHY } = await machine(page), PROGRAM = { list: 'buslist', sheets: 'sheetlist' };
const browser = await chromium(), { js, until, tell } = browser;
const latin = bytes => Buffer.from(bytes).toString('latin1'), quoted = value => JSON.stringify(value);
const sum = bytes => createHash('sha256').update(bytes).digest('hex');
const has = (what, text, part) => is(`${what}: "${part}" in "${text}"`, String(text.includes(part)), 'true');
const width = () => js('String(document.scrollingElement.scrollWidth <= innerWidth)');
const element = id => `document.getElementById('${id}')`;
const picture = name => browser.picture(join(folder, `${name}.png`));

// ---- what is seen, and what is done

const text = id => js(`${element(id)}.textContent`);
const listing = (job, bytes, words) => latin(native(top, PROGRAM[job], bytes, words));
const whys = () => js("[...document.querySelectorAll('tr.bad .why')].map(e => e.textContent).join('|')");
// does something in the page, and waits until the run that follows has ended
const after = async act => {
  await js('delete document.body.dataset.done; 0');
  await act();
  await until('document.body.dataset.done', String(act));
};
const tab = job => after(() => js(`${element(`tab-${job}`)}.click()`));
const set = (id, value, event = 'input') =>
  after(() => js(`{ const e = ${element(id)}; e.value = ${quoted(value)}; e.dispatchEvent(new Event('${event}')); }`));
const file = (name, bytes) => {
  const path = join(browser.folder, name);
  writeFileSync(path, bytes);
  return path;
};
const choose = path => after(async () => {
  await js(`${element('file')}.click()`); // a file of the same name may have changed
  await browser.choose('#file', path);
});
const drop = path => after(async () => {
  const given = { x: 300, y: 200, data: { items: [], files: [path], dragOperationsMask: 1 } };
  for (const type of ['dragEnter', 'dragOver', 'drop']) await tell('Input.dispatchDragEvent', { type, ...given });
});
const opened = async path => {
  await browser.open(`file://${path}`);
  await until(`document.body.dataset.done || ${element('sentence')}.textContent.includes('does not start')`, path);
};
const record = (kind, payload) => [payload.length + 2, 0, kind & 255, kind >> 8, ...payload];

// ---- the parts of the test

const files = async () => {
  for (const { name, hex } of examples(top)) {
    const bytes = texts.hexBytes(hex);
    for (const job of ['list', 'sheets']) {
      await tab(job);
      await choose(join(top, 'examples', name));
      is(`${job}, ${name} chosen`, await text('said'), listing(job, bytes));
    }
    const txt = join(top, 'examples', name.replace('.hex', '.txt'));
    if (name.startsWith('sheets')) is(`${name} and its text`, await text('said'), readFileSync(txt, 'latin1'));
    await tab('list');
    await choose(file('bytes.bin', bytes));
    is(`${name} as record bytes`, await text('said'), listing('list', bytes));
  }
  const unit = texts.hexBytes(readFileSync(join(top, 'examples/unit.hex')));
  await drop(file('unit.bin', unit));
  is('unit.bin dropped', await text('said'), listing('list', unit));
  await tab('formula');
  await drop(join(top, 'examples/root.hex'));
  is('root.hex dropped on another tab', await text('said'), readFileSync(join(top, 'examples/root.txt'), 'latin1'));
  for (const { name, text: must } of EXAMPLES) {
    await set('example', name, 'change');
    is(`the example ${name}`, await text('said'), Buffer.from(must, 'base64').toString('latin1'));
  }
};

const pasted = async () => {
  await tab('list');
  await set('text', '');
  await js(`${element('text')}.focus()`);
  await after(() => tell('Input.insertText', { text: readFileSync(join(top, 'examples/errors.hex'), 'latin1') }));
  is('errors.hex pasted', await text('said'), readFileSync(join(top, 'examples/errors.txt'), 'latin1'));
  has('it', await text('sentence'), '✗ pasted text: run to its end, 31 records in 156 bytes; 2 of them refused');
  await picture('listing_errors');
  for (const [bad, why] of [['06 00\n0x', 'line 2: "0x" has no digits behind it'], ['0', 'line 1: "0" is half a byte'],
    ['GG', 'line 1: "G" is no hex digit'], [':10', 'line 1: this is Intel HEX']]) {
    await set('text', bad);
    await set('form', 'hex', 'change');
    has('hex text', await text('sentence'), why);
    is('nothing else is shown', await text('said') + await text('rows'), '');
  }
  await choose(file('long.hex', Buffer.alloc(256 * 1024 + 1, '# ')));
  await until(`${element('sentence')}.textContent.includes('too long')`, 'a long hex text');
  await set('text', '');
  has('nothing to run', await text('sentence'), 'Drop a record file on this page');
  await choose(file('empty.bin', ''));
  has('an empty file', await text('sentence'), '✗ empty.bin holds no bytes');
  await choose(file('text.bin', '06 00 01 00\n'));
  has('text taken as bytes', await text('sentence'), 'If that was hex text, choose so');
  await set('form', 'hex', 'change');
  has('the same as hex text', await text('sentence'), 'stopped at byte 0 with 6: the file ends inside a record');
};

const inWords = async () => {
  await tab('list');
  const bytes = Buffer.from([record(1, [0, 0, 0xF0, 3, 0, 0, 0xA0, 2]), record(3, [0x92]), record(2, [4])].flat());
  const words = 'push 7.5 2.5 # two words\nFMUL sr\npop 4\n', rows = 'push 03F00000 02A00000|FMUL sr|pop 4';
  const shown = "[...document.querySelectorAll('#rows tr:not(:last-child) td.record')].map(e => e.textContent).join('|')";
  await set('text', words);
  is('records in words, pasted', await text('said'), listing('list', bytes));
  has('the words of each row', await js(shown), rows);
  is('the record file saved', await saved('save-record', 'pasted text.bin'), bytes);
  await picture('listing_in_words');
  await choose(file('unit.txt', words));
  is('the same in a file', await text('said'), listing('list', bytes));
  for (const [bad, why] of [['push 7.5\nFMULL', 'line 2, character 1: this names no record and no command'],
    ['push 7', 'line 1, character 7: this is neither two, four or eight hex digits'],
    ['pop 241', 'line 1, character 5: the number is not in its range']]) {
    await set('text', bad);
    has('records in words', await text('sentence'), `✗ pasted text, ${why}`);
    is('nothing else is shown', await text('said') + await text('rows'), '');
  }
  await set('text', 'FADD');
  await set('form', 'words', 'change');
  has('a name of hex digits', await text('sentence'), '✓ pasted text: run to its end, 1 record in 5 bytes');
};

const settings = async () => {
  await tab('list');
  // 1 / 3, two words pushed, a reset, all of it popped: each of mode and rule is seen in the listing
  const bytes = Buffer.from([record(1, [0, 0, 128, 1, 0, 0, 192, 2]), record(3, [0x13]), record(2, [4]), record(5, []),
    record(2, [16])].flat());
  await choose(file('third.bin', bytes));
  const seen = new Set();
  for (const part of ['', 'older']) for (const rule of ['', 'nearest']) {
    await set('part', part, 'change');
    await set('rule', rule, 'change');
    const words = [...(part ? ['--am9511'] : []), ...(rule ? ['--nearest'] : [])];
    is(`part ${part}, rule ${rule}`, await text('said'), listing('list', bytes, words));
    seen.add(await text('said'));
  }
  is('different listings', String(seen.size), '4');
  for (const [reading, must] of [['f', '≈0.33333334'], ['d', '2141891243'], ['s', '32682 · -21845']]) {
    await set('reading', reading, 'change');
    const word = "document.querySelector('#rows tr:nth-child(2) td:nth-child(4) small')";
    is(`read as ${reading}`, await js(`${word}.textContent`), must);
  }
  for (const id of ['part', 'rule', 'reading']) await set(id, '', 'change');
};

// a file for each refusal of a record and of a run, and where its reason stands
const refusals = async () => {
  const many = (n, part) => Array.from({ length: n }, () => part).flat(), half = record(1, [1]);
  const open = record(256, [1, 0, 0, 0]), keep = slot => record(257, [slot]), close = record(258, []);
  const sheet = [open, [0, 1, 2, 3].flatMap(keep), close].flat();
  const cases = { 1: [record(3, [0x0C])], 2: [record(3, [0x02])], 3: [half, record(3, [0])],
    4: [record(1, [0, 0, 64, 1]), record(3, [0x12])], 5: [record(9, [])], 6: [[3, 0, 2, 0]], 7: [[1, 0]],
    8: [half, many(300, record(2, [240]))], 9: [many(12289, [0])], 20: [open, open], 21: [close], 22: [open, keep(4)],
    23: [open, half, keep(0)], 24: [open, close], 25: [record(1, [0, 0, 128, 1]), many(65, sheet)] };
  for (const number of Object.keys(cases).map(Number)) {
    const bytes = Buffer.from(cases[number].flat()), job = number < 20 ? 'list' : 'sheets';
    await tab(job);
    await choose(file('refused.bin', bytes));
    is(`refusal ${number}`, await text('said'), listing(job, bytes));
    const ended = number > 4 && number < 10 ? 'stopped,' : 'refused';
    has(`why ${number}`, await whys(), `✗ ${ended} ${number}: ${WHY[number]}`);
    is(`the sentence of ${number}`, (await text('sentence'))[0], '✗');
    if (number === 7) await picture('listing_stopped');
  }
  await set('example', 'sheets_refused.hex', 'change');
  await picture('sheets_refused');
  await set('example', 'refusal_3.hex', 'change');
  await picture('listing_refused');
};

const saved = async (button, name) => {
  const path = join(browser.folder, name), there = () => existsSync(path) && statSync(path).size;
  await js(`${element(button)}.click()`);
  for (let i = 0; i < 200 && !there(); i++) await new Promise(next => setTimeout(next, 25));
  return existsSync(path) ? readFileSync(path) : Buffer.from('no file');
};

const downloads = async () => {
  await set('example', 'sheets.hex', 'change');
  const bytes = texts.hexBytes(readFileSync(join(top, 'examples/sheets.hex')));
  is('the text saved', await saved('save-text', 'sheets.txt'), readFileSync(join(top, 'examples/sheets.txt')));
  is('the record file saved', await saved('save-record', 'sheets.bin'), bytes);
  is('its hex text saved', texts.hexBytes(await saved('save-hex', 'sheets.hex')), bytes);
};

const printed = async () => {
  await set('example', 'sheets_figures.hex', 'change');
  const bytes = texts.hexBytes(readFileSync(join(top, 'examples/sheets_figures.hex')));
  const version = readFileSync(join(top, 'VERSION'), 'utf8').trim();
  await tell('Emulation.setEmulatedMedia', { media: 'print' });
  await browser.size(1032, 730);
  const seen = await js('document.body.innerText');
  for (const part of [`Pundaliket version ${version}, commit `, 'sheets_figures.hex, 160 bytes', sum(bytes),
    sum(await text('said')), 'Am9511A; float results truncated', 'run to its end', 'slot 0 adds up to 0.0, exactly',
    'Name', 'Date', 'Signature', 'Not proved']) has('on paper', seen, part);
  for (const id of ['inputs', 'tools']) is(`${id} on paper`, await js(`String(${element(id)}.offsetHeight)`), '0');
  is('the paper is as wide as its tables', await width(), 'true');
  await browser.picture(join(folder, 'paper_sheets.png'), true);
  await browser.paper(join(folder, 'paper_sheets.pdf'));
  await tell('Emulation.setEmulatedMedia', { media: '' });
  await browser.size(1366, 768);
  for (const id of ['origin', 'signing']) is(`${id} on screen`, await js(`String(${element(id)}.offsetHeight)`), '0');
  const called = `new Promise(done => { window.print = () => done('called'); ${element('print')}.click(); })`;
  is('print is called', await js(called), 'called');
};

const formulas = async () => {
  await tab('formula');
  const made = (letters, formula) => {
    const input = Buffer.concat([Buffer.from(letters.padEnd(64, '0'), 'hex'), Buffer.from(formula)]);
    return native(top, 'formulas', input).subarray(0, -4);
  };
  for (const [name, word] of [['a', '02C00000'], ['b', '01800000'], ['c', '02800000']]) await set(`word-${name}`, word);
  await set('formula', '(a-b)/c*#01800000');
  const must = made('02C000000180000002800000', '(a-b)/c*#01800000');
  is('its run', await text('said'), listing('list', must));
  has('its value', await text('sentence'), '✓ Formula: 01800000, that is 1.0; its file has 7 records, 47 bytes');
  is('its file saved', await saved('save-record', 'formula.bin'), must);
  await set('decimal-a', '0.1');
  is('a decimal gives the word', await js(`${element('word-a')}.value`), '7DCCCCCC');
  await set('formula', 'a*2.5');
  const decimal = latin(native(top, 'word', '', ['cut', 'short', '7EFFFFFF'])).split(' ')[1];
  has('a decimal in the text', await text('sentence'), `✓ Formula: 7EFFFFFF, that is ≈${decimal};`);
  is('its run', await text('said'), listing('list', made('7DCCCCCC', 'a*#02A00000')));
  await picture('formula');
  await set('word-a', '01400000');
  for (const [formula, why] of [
    ['a+', 'refused 30: character 3, the end: a letter a to h, a decimal'], ['', 'refused 30: character 1, the end'],
    ['b*2', 'refused 30: character 4, the end: a point is wanted here, as in 2.0'], ['d', 'd has no word'],
    ['b*a', 'refused 31: character 3, "a": its word 01400000'],
    ['b+(b+(b+(b+b)))', 'refused 32: character 2, "+": this operation needs 5 words'],
    ['b*99999999999999999999.0', 'character 3, 99999999999999999999.0: character 20: more digits']]) {
    await set('formula', formula);
    has(`formula ${formula}`, await text('sentence'), why);
    is('nothing else is shown', await text('said') + await text('rows'), '');
  }
};

const steps = async () => {
  await tab('steps');
  for (const call of ['6E FFF9 0002', '76 7FFF 7FFF', '6F FFF9 0002', '2E 00000007 00000005', '36 7FFFFFFF 7FFFFFFF',
    '2F 80000000 00000003', '12 01800000 02C00000 nearest', '13 01800000 02C00000', '13 01800000 02C00000 nearest',
    '12 01400000 01800000']) {
    const [code, b, a, rule = ''] = call.split(' '), words = [code, b, a, ...(rule ? ['--nearest'] : [])];
    await set('code', code, 'change');
    await set('rule', rule, 'change');
    await set('word-B', b);
    await set('word-A', a);
    is(`steps ${call}`, await text('said'), latin(native(top, 'steps', '', words)));
  }
  has('refused', await text('sentence'), `✗ FMUL: refused 4: ${WHY[4]}`);
  await set('rule', '', 'change');
  await set('code', '6F', 'change');
  await set('decimal-B', '-7');
  await set('decimal-A', '2');
  is('by decimals', await text('said'), latin(native(top, 'steps', '', ['6F', 'FFF9', '0002'])));
  has('the answer', await text('sentence'), '✓ SDIV: FFFD, that is -3, in 16 steps; status: sign');
  await picture('steps');
  await set('decimal-B', '40000');
  has('no 16-bit number', await text('operands'), 'a whole number from -32768 to 32767 is wanted');
  has('so no steps', await text('sentence'), '✗ SDIV: B and A are words of four hex digits');
};

const words = async () => {
  await tab('words');
  const given = ['2.5', '0.1', '-1.25', '02A00000', '00400000', '2', '9223372036854775808.0', '2.5x'];
  for (const [rule, exact] of [['', false], ['nearest', false], ['', true]]) {
    await set('rule', rule, 'change');
    await after(() => js(`{ const e = ${element('exact')}; if (e.checked !== ${exact}) e.click(); else run(); }`));
    await set('numbers', given.join(' '));
    const lines = given.map(number => `${number}\n`).join(''), words = [rule || 'cut', exact ? 'exact' : 'short'];
    is(`words ${rule} ${exact}`, await text('said'), latin(native(top, 'word', lines, words)));
  }
  has('no word', await text('sentence'), '✗ 3 of 8 have no word');
  const reasons = ['a point is wanted, as in 2.0', '2^63 or more', 'nothing may stand behind the number'];
  for (const why of reasons) has('why', await whys(), why);
  await picture('words');
  await js(`${element('exact')}.click()`);
};

const keys = async () => {
  await js(`${element('tab-list')}.focus()`);
  const press = async key => {
    const given = { key, code: key, windowsVirtualKeyCode: { ArrowRight: 39, End: 35, Tab: 9 }[key] };
    for (const type of ['keyDown', 'keyUp']) await tell('Input.dispatchKeyEvent', { type, ...given });
  };
  for (const [key, must] of [['ArrowRight', 'tab-sheets'], ['End', 'tab-words'], ['ArrowRight', 'tab-list']]) {
    await after(() => press(key));
    is(`${key} leads`, await js('document.activeElement.id'), must);
  }
  await press('Tab');
  is('Tab leads to the text', await js('document.activeElement.id'), 'text');
  const named = "e.labels.length || e.getAttribute('aria-label') || e.tagName === 'BUTTON' && e.textContent.trim()";
  const fields = "[...document.querySelectorAll('input, select, textarea, button')]";
  is('fields without a name', await js(`${fields}.filter(e => !(${named})).map(e => e.id).join(' ')`), '');
};

const sizes = async () => {
  await set('example', 'errors.hex', 'change');
  for (const [wide, high, mobile] of [[1366, 768, false], [1024, 768, true], [768, 1024, true]]) {
    await browser.size(wide, high, mobile);
    for (const job of ['list', 'sheets', 'formula', 'steps', 'words']) {
      await tab(job);
      is(`${job} at ${wide} is no wider`, await width(), 'true');
    }
    await tab('list');
    await picture(`listing_${wide}x${high}`);
  }
  await browser.size(1366, 768);
  await tell('Emulation.setEmulatedVisionDeficiency', { type: 'achromatopsia' });
  await picture('listing_without_colours');
  await tell('Emulation.setEmulatedVisionDeficiency', { type: 'none' });
};

// many changes at once: what stands there in the end is of the last one
const hurried = async () => {
  const typed = "e.value = v; e.dispatchEvent(new Event('input'));";
  const type = (id, values) => js(`for (const v of ${quoted(values)}) { const e = ${element(id)}; ${typed} }`);
  const look = 'if (document.body.dataset.done && seen === turn) done(0); else { seen = turn; setTimeout(look, 150); }';
  const settled = () => js(`new Promise(done => { let seen = -1; const look = () => { ${look} }; look(); })`);
  await tab('formula');
  await set('word-a', '01800000');
  await type('formula', Array.from({ length: 40 }, (_, i) => `a${'+a'.repeat(40 - i)}`));
  await type('decimal-a', ['2.', '2.5', '0.1', '7.', '7.5', '1.25']);
  await settled();
  has('the last formula', await text('sentence'), '✓ Formula: 02A00000, that is 2.5; its file has 3 records');
  is('the rows of it', await js("String(document.querySelectorAll('#rows tbody tr').length)"), '4');
  const bytes = quoted(Array.from({ length: 3000 }, () => record(4, [])).flat());
  const eight = `for (let i = 0; i < 8; i++) take('many.bin', Uint8Array.from(${bytes}), 'bytes');`;
  await js(`show('list', 'later'); ${eight} ${element('tab-steps')}.click()`);
  await type('decimal-B', ['-7', '6', '5']);
  await settled();
  has('the last steps', await text('sentence'), '✓ SDIV: 0002, that is 2');
  is('their text', await text('said'), latin(native(top, 'steps', '', ['6F', '0005', '0002'])));
  is('their rows', await js("String(document.querySelectorAll('#rows tbody tr').length)"), '16');
};

// the longest files: how long the page's own thread works, whatever else the machine does
const longest = async () => {
  await tell('Performance.enable', { timeDomain: 'threadTicks' });
  const worked = async () => (await tell('Performance.getMetrics')).metrics.find(m => m.name === 'TaskDuration').value;
  await tab('list');
  for (const one of [record(4, []), record(1, [7]), record(2, [1])]) {
    const number = Math.floor(12288 / one.length), records = Array.from({ length: number }, () => one);
    const bytes = Buffer.from(records.flat());
    const before = await worked();
    await choose(file('long.bin', bytes));
    const seconds = await worked() - before;
    is(`${number} records of ${one.length} bytes`, await text('said'), listing('list', bytes));
    is('a row each', await js("String(document.querySelectorAll('#rows tbody tr').length)"), String(number + 1));
    is(`under a second: ${seconds.toFixed(2)} s`, String(seconds < 1), 'true');
    console.log(`${number} records of ${one.length} bytes: ${seconds.toFixed(2)} s`);
  }
};

const closed = async () => {
  is('the network', await js("fetch('https://example.com/').then(() => 'went out', () => 'blocked')"), 'blocked');
  const came = "i.onload = () => done('came'); i.onerror = () => done('blocked'); i.src = 'https://example.com/a.png';";
  is('a picture from outside', await js(`new Promise(done => { const i = new Image(); ${came} })`), 'blocked');
  const stored = '[localStorage.length, sessionStorage.length, document.cookie.length, d.length]';
  is('what is stored', await js(`indexedDB.databases().then(d => ${stored}.join(' '))`), '0 0 0 0');
  const answered = browser.events.filter(e => e.method === 'Network.responseReceived').map(e => e.params.response.url);
  is('what was read from outside', answered.filter(url => !/^(file|blob|data):/.test(url)).join(' '), '');
};

// pages made wrong on purpose must not start
const wrong = async () => {
  is('errors of scripts so far', String(browser.events.filter(e => /exceptionThrown/.test(e.method)).length), '0');
  const html = readFileSync(page, 'utf8');
  const rehashed = changed => {
    const hash = ([, script]) => `'sha256-${createHash('sha256').update(script).digest('base64')}'`;
    const hashes = [...changed.matchAll(/<script id="\w+">([^]*?)<\/script>/g)].map(hash);
    return changed.replace(/script-src .*? 'wasm/, `script-src ${hashes.join(' ')} 'wasm`);
  };
  const says = async (what, changed, must) => {
    const path = file('wrong.html', changed);
    await browser.open(`file://${path}`);
    await new Promise(next => setTimeout(next, 300));
    await until(`document.body.dataset.done || ${element('sentence')}.textContent.includes(${quoted(must)})`, what);
    has(what, await text('sentence'), must);
    is(`${what}: no field to use`, await js(`String(${element('inputs')}.offsetHeight)`), '0');
  };
  is('the page itself, hashed anew', rehashed(html), html);
  for (const name in MODULES) {
    const bytes = Buffer.from(MODULES[name].bytes, 'base64');
    bytes[bytes.length >> 1] ^= 1;
    const changed = html.replace(MODULES[name].bytes, bytes.toString('base64'));
    await says(`${name} with a wrong bit`, rehashed(changed), `${name} in this file is not as it was built`);
    if (name === 'buslist') await says('a module changed, its hash not', changed, 'a part of this file was changed');
  }
  const script = html.replace('const MOST = 12289;', 'const MOST = 12289 ;');
  await says('a script changed, its hash not', script, 'This page has not started');
  const must = EXAMPLES.find(e => e.name === 'unit.hex').text, listing = Buffer.from(must, 'base64').toString();
  const other = Buffer.from(listing.replace('1 5 0', '1 5 1')).toString('base64');
  await says('an example that differs', rehashed(html.replace(must, other)), 'unit.hex came out otherwise');
  const source = 'delete globalThis.WebAssembly;';
  const { identifier } = await tell('Page.addScriptToEvaluateOnNewDocument', { source });
  await says('no WebAssembly', html, 'it has no WebAssembly');
  await picture('not_started');
  await tell('Page.removeScriptToEvaluateOnNewDocument', { identifier });
};

await browser.size(1366, 768);
await opened(page);
await picture('opened');
has('tried on opening', await text('tried'), `${EXAMPLES.length} examples and 6 programs, none differs`);
const parts = [files, pasted, inWords, settings, refusals, downloads, printed, formulas, steps, words, keys, sizes,
  hurried, longest, closed, wrong];
for (const part of parts) {
  const before = count.compared;
  await part();
  console.log(`${part.name}: ${count.compared - before}`);
}
console.log(`${browser.product}: ${count.compared} compared, ${count.differ} differ`);
await browser.close();
process.exitCode = count.differ ? 1 : 0;
