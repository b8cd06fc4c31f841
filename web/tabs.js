// The tabs: what each takes from the screen, and what it shows.
let job = 'list', turn = 0; // the tab that is shown, the number of the last run
let source = null, chosen = null; // the records that are listed; the file that they came from, until its text is edited
let result = null; // what can be saved
const LETTERS = 'abcdefgh', TEXT_MOST = 1 << 18;
const settings = () => ({ older: $('part').value === 'older', nearest: $('rule').value === 'nearest' });

const clear = () => {
  for (const id of ['sheets', 'rows', 'said', 'origin']) $(id).replaceChildren();
  $('plain').hidden = $('tools').hidden = true;
  result = null;
};

// ---- a word in two fields, in hex digits and in decimals; what is written in one fills the other

const wholeWord = (text, kind) => {
  const digits = kind === 's' ? 4 : 8, n = Number(text), most = 2 ** (4 * digits - 1);
  const good = /^-?\d+$/.test(text) && n >= -most && n < most;
  if (!good) return { why: `a whole number from ${-most} to ${most - 1} is wanted` };
  return { word: texts.hex(n < 0 ? n + 2 * most : n, digits) };
};
const wordOf = async (text, kind) => {
  if (kind !== 'f') return wholeWord(text, kind);
  const [line] = await runs.told([text], settings()), [word, , mark] = line.split(' ');
  if (/^(refused|wrong)/.test(line)) return { why: texts.noWord(line, text) };
  return { word, why: mark === 'cut' ? 'truncated' : mark === 'rounded' ? 'rounded' : '' };
};
const decimalOf = async (word, kind) => {
  const n = parseInt(word, 16);
  if (kind === 's') return String(n << 16 >> 16);
  if (kind === 'd') return String(n | 0);
  return (await runs.decimals([n], settings().nearest)).get(n);
};

// A pair of fields; `kind` gives what its words are: f float, d 32 bits, s 16 bits.
const pair = (name, kind, word) => {
  const digits = () => kind() === 's' ? 4 : 8;
  const hex = make('input', { value: word, placeholder: 'word', spellcheck: false, id: `word-${name}` });
  const decimal = make('input', { placeholder: 'decimal', spellcheck: false, id: `decimal-${name}` });
  const why = make('span', { className: 'why' });
  hex.setAttribute('aria-label', `${name}, word in hex digits`);
  decimal.setAttribute('aria-label', `${name}, decimal`);
  const good = () => new RegExp(`^[0-9A-Fa-f]{${digits()}}$`).test(hex.value.trim());
  // the last change counts: what was found for an earlier one is dropped
  let last = 0, written = hex;
  const fromWord = async () => {
    const mine = ++last, text = good() ? await decimalOf(hex.value.trim(), kind()) : '';
    if (mine !== last) return;
    why.textContent = hex.value.trim() && !good() ? `a word has ${digits()} hex digits` : '';
    decimal.value = text;
  };
  const fromDecimal = async () => {
    const mine = ++last, text = decimal.value.trim().replace('≈', ''), got = text ? await wordOf(text, kind()) : {};
    if (mine !== last) return;
    hex.value = got.word || '';
    why.textContent = got.why || '';
  };
  const renew = () => written === hex ? fromWord() : fromDecimal();
  for (const field of [hex, decimal]) field.addEventListener('input', () => { written = field; renew().then(run); });
  return {
    element: make('span', { className: 'pair' }, make('b', { className: 'mono' }, name), hex, decimal, why),
    word: () => good() ? hex.value.trim().toUpperCase() : '',
    renew,
    // where the kind of words changed, the decimal stays and its word is found anew
    rekind: () => decimal.value ? fromDecimal() : fromWord(),
  };
};
const STEP_KIND = { 6: 's', 7: 's', 2: 'd', 3: 'd', 1: 'f' };
const stepKind = () => STEP_KIND[$('code').value[0]];
const letters = Array.from(LETTERS, (c, i) => pair(c, () => 'f', ['03F00000', '01A00000', '02A00000'][i] || ''));
const operands = ['B', 'A'].map((name, i) => pair(name, stepKind, ['FFF9', '0002'][i]));

// ---- how a run ended

const plural = (n, what) => `${n.toLocaleString('en')} ${what}${n === 1 ? '' : 's'}`;
const ending = r => {
  const refused = r.rows.filter(row => row.refusal).length, done = plural(r.rows.length, 'record');
  const were = refused ? `${refused} of them refused` : 'none refused';
  if (!r.input.length) return `${source.name} holds no bytes.`;
  if (r.refusal) {
    const hint = source.form === 'bytes' && r.refusal === 7 && !r.taken ? texts.mistaken(r.input) : '';
    const before = r.rows.length ? `${done} done before it, ${were}.` : 'No record was done.';
    return `${source.name}: stopped at byte ${r.taken} with ${r.refusal}: ${WHY[r.refusal]}. ${before} ${hint}`;
  }
  const state = r.rows.length ? r.rows[r.rows.length - 1].state : new Uint8Array(21), errors = texts.said(state[19]);
  return `${source.name}: run to its end, ${done} in ${plural(r.taken, 'byte')}; ${were}` +
    (errors ? `; errors remembered: ${errors}, the first by ${texts.code(state[20])}.` : '.');
};

// ---- the jobs: each says its sentence and gives the program's text, and the record file where there is one

// The record bytes of what came in; throws where that is wrong.
const bytesOf = async ({ form, raw }) => {
  if (form !== 'bytes' && raw.length > TEXT_MOST) throw Error('over 256 kB: too long for the text of a run');
  if (form === 'hex') return texts.hexBytes(raw);
  return form === 'words' ? runs.recordBytes(raw, settings().nearest) : raw.subarray(0, texts.MOST);
};

const runFile = async wanted => {
  let input;
  if (!source) {
    invitation('Drop a record file on this page, choose one, paste its text, or take an example.');
    return null;
  }
  try {
    input = await bytesOf(source);
  } catch (error) {
    if (!wanted()) return null;
    sentence(`${source.name}, ${error.message}.`, true);
    return null;
  }
  return shown(input, job, source.name, ending, wanted);
};

// Lists a file, says how it ended and shows its rows.
const shown = async (input, by, name, says, wanted) => {
  const { nearest } = settings(), r = await runs.listing(by, input, settings());
  if (!wanted()) return null;
  const told = await says(r);
  if (!wanted()) return null;
  if (r.agree) sentence(told, r.refusal !== 0 || !r.rows.length || r.rows.some(row => row.refusal));
  else sentence('The states below are not those of the listing. Do not use this page, and tell its makers.', true);
  if (by === 'sheets') await sheetTable(r, nearest, wanted);
  await recordTable(r, nearest, wanted);
  return { said: r.said, file: input, name, agree: r.agree };
};

// The formula's text with each decimal as a word, and what was not exact; or why there is none.
const plainFormula = async (text, words) => {
  const reader = new FormulaReader(text, words), fault = reader.fault(), got = new Map(), notes = [];
  if (fault) return { why: `refused ${fault.number}: ${fault.reason}` };
  for (const { at, text: decimal } of reader.decimals) {
    const { word, why } = await wordOf(decimal, 'f');
    if (!word) return { why: `character ${at + 1}, ${decimal}: ${why}` };
    if (why) notes.push(`${decimal} is ${word}, ${why}`);
    got.set(decimal, word);
  }
  return { text: reader.withWords(decimal => got.get(decimal)), notes };
};

const runFormula = async wanted => {
  const text = $('formula').value, words = letters.map(l => l.word() || '00000000');
  const { why, text: plain, notes } = await plainFormula(text, words);
  const missing = Array.from(LETTERS).filter((c, i) => !letters[i].word() && text.includes(c));
  const lacks = `${missing.join(', ')} ${missing.length > 1 ? 'have' : 'has'} no word`;
  if (!wanted()) return null;
  if (why || missing.length) {
    sentence(`Formula: ${why || lacks}.`, true);
    return null;
  }
  const made = await runs.formula(words.map(word => parseInt(word, 16)), texts.encoded(plain));
  if (!wanted()) return null;
  if (made.refusal) {
    sentence(`Formula: refused ${made.refusal}: ${WHY[made.refusal]}.`, true);
    return null;
  }
  return shown(made.file, 'list', 'formula', r => valueOf(r, notes), wanted);
};

// The value of a formula is what its file leaves on top.
const valueOf = async (r, notes) => {
  const { state } = r.rows[r.rows.length - 1], word = texts.hex(new DataView(state.buffer).getUint32(0), 8);
  const told = [`its file has ${plural(r.rows.length, 'record')}, ${plural(r.taken, 'byte')}`];
  if (state[19]) told.push(`errors remembered: ${texts.said(state[19])}, the first by ${texts.code(state[20])}`);
  return `Formula: ${word}, that is ${await decimalOf(word, 'f')}; ${[...told, ...notes].join('; ')}.`;
};

const runSteps = async wanted => {
  const words = operands.map(o => o.word()), code = $('code').value, name = CODES[parseInt(code, 16)];
  if (words.includes('')) {
    sentence(`${name}: B and A are words of ${stepKind() === 's' ? 'four' : 'eight'} hex digits, or decimals.`, true);
    return null;
  }
  const said = await runs.steps([code, ...words, ...(settings().nearest ? ['--nearest'] : [])]);
  const lines = said.trim().split('\n'), answer = /^word (\w+) error \d status (\w\w)$/.exec(lines[lines.length - 1]);
  if (!answer && said !== 'refused 4\n') throw Error('what the program wrote is not whole');
  const value = answer ? await decimalOf(answer[1], stepKind()) : '';
  if (!wanted()) return null;
  if (answer) {
    const bits = texts.said(parseInt(answer[2], 16)), steps = plural(lines.length - 1, 'step');
    sentence(`${name}: ${answer[1]}, that is ${value}, in ${steps}${bits ? `; status: ${bits}` : ''}.`);
  } else sentence(`${name}: refused 4: ${WHY[4]}.`, true);
  await stepTable(lines.slice(0, -1), /^(6F|2F|13)$/.test(code), wanted);
  return { said, name: 'steps', agree: true };
};

const runWords = async wanted => {
  const given = $('numbers').value.split(/\s+/).filter(text => text);
  if (!given.length) {
    invitation('Write decimals or words above, parted by blanks or lines.');
    return null;
  }
  const lines = await runs.told(given, { nearest: settings().nearest, form: $('exact').checked ? 'exact' : 'short' });
  if (!wanted()) return null;
  const bad = lines.filter(line => /^(refused|wrong)/.test(line)).length;
  if (bad) sentence(`${bad} of ${given.length} have no word.`, true);
  else sentence(`${plural(given.length, 'number')}, each with its word.`);
  await wordTable(given, lines, wanted);
  return { said: [...lines, 'end', ''].join('\n'), name: 'words', agree: true };
};

const JOBS = { list: runFile, sheets: runFile, formula: runFormula, steps: runSteps, words: runWords };

// ---- what is printed above and below: where it came from, by which version, with which sums

const originTable = found => {
  const rows = [[$(`tab-${job}`).textContent, `by Pundaliket version ${VERSION}, commit ${COMMIT}`]];
  if (found.file) {
    rows.push(['Record file', `${found.name}, ${plural(found.file.length, 'byte')}, SHA-256 ${sha256(found.file)}`],
      ['Run as', `${$('part').selectedOptions[0].text}; float results ${$('rule').selectedOptions[0].text}`]);
  }
  if (job === 'steps') rows.push(['Command', `${$('code').value}, B ${operands[0].word()}, A ${operands[1].word()}`]);
  if (job === 'formula') {
    const given = letters.map((l, i) => l.word() && `${LETTERS[i]} = ${l.word()}`).filter(text => text);
    rows.push(['Formula', $('formula').value], ['Letters', given.join(', ') || 'none']);
  }
  rows.push(['Program\'s text', `SHA-256 ${sha256(texts.encoded(found.said))}`]);
  const row = ([name, text]) => make('tr', {}, cell('', name), cell('', text));
  return make('table', {}, make('tbody', {}, ...rows.map(row)));
};

// ---- a run: the last one asked for counts

const run = async () => {
  const mine = ++turn, wanted = () => mine === turn;
  clear();
  delete document.body.dataset.done;
  try {
    const found = await JOBS[job](wanted);
    if (!wanted()) return;
    if (found) finish(found);
  } catch (error) {
    if (!wanted()) return;
    clear();
    sentence(`This page failed: ${error.message}. Nothing that it showed counts.`, true);
  }
  document.body.dataset.done = mine;
};

const finish = found => {
  result = found;
  $('said').textContent = found.said;
  $('plain').hidden = $('tools').hidden = false;
  $('save-record').hidden = $('save-hex').hidden = !found.file;
  $('print').hidden = !found.agree;
  $('origin').replaceChildren(originTable(found));
};

// ---- files and texts that come in

const take = (name, raw, form) => {
  source = { name, raw, form };
  $('form').value = form;
  $('example').value = EXAMPLES.some(example => example.name === name) ? name : '';
  return run();
};
const takeFile = async (file, form) => {
  if (!file) return;
  chosen = file;
  const as = form || (/\.hex$/i.test(file.name) ? 'hex' : /\.txt$/i.test(file.name) ? 'words' : 'bytes');
  const most = as === 'bytes' ? texts.MOST : TEXT_MOST;
  const raw = new Uint8Array(await file.slice(0, most + 1).arrayBuffer());
  if (chosen !== file) return;
  $('text').value = as === 'bytes' ? texts.hexes(raw) : new TextDecoder().decode(raw);
  if (job !== 'sheets') show('list', 'later');
  await take(file.name, raw, as);
};
const takeText = (name, text, form = texts.isHexText(text) ? 'hex' : 'words') => {
  chosen = null;
  $('file').value = '';
  return text.trim() ? take(name, texts.encoded(text), form) : (source = null, run());
};
const takeExample = name => {
  const example = EXAMPLES.find(e => e.name === name);
  if (!example) return;
  const text = texts.ascii(programs.decoded(example.hex));
  $('text').value = text;
  show(name.startsWith('sheets') ? 'sheets' : 'list', 'later');
  takeText(name, text);
};

// Shows the tab of a job, and runs it at once or later.
const show = (to, when) => {
  job = to;
  for (const tab of document.querySelectorAll('[role=tab]')) {
    tab.setAttribute('aria-selected', tab.dataset.job === job);
    tab.tabIndex = tab.dataset.job === job ? 0 : -1;
  }
  $('main').setAttribute('aria-labelledby', `tab-${job}`);
  for (const part of document.querySelectorAll('[data-for]')) part.hidden = !part.dataset.for.split(' ').includes(job);
  if (when !== 'later') run();
};
