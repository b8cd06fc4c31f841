// The tables: a listing's records, module sheets, steps, words.

// How the words behind each record are read: as the last command leaves them, and after a push as the next one takes
// them. The chip does not know what a word is for; this is a guess, and people can choose another reading.
const readings = rows => {
  const byCode = 'ffddffss', out = [];
  const takes = code => code === 0x1C ? 'd' : code === 0x1D ? 's' : byCode[code >> 4];
  const leaves = code => code === 0x1E ? 'd' : code === 0x1F ? 's' : code < 0x20 ? 'f' : takes(code);
  let next = null;
  for (let i = rows.length - 1; i >= 0; i--) {
    if (rows[i].kind === 3) next = takes(rows[i].payload[0] & 127);
    out[i] = rows[i].kind === 1 ? next : null;
  }
  let now = 'f';
  rows.forEach((row, i) => {
    if (row.kind === 3 && !row.refusal && row.payload[0] & 127) now = leaves(row.payload[0] & 127);
    now = out[i] || now;
    out[i] = now;
  });
  return out;
};

// A word in decimals, read as a float, a 32-bit number or two 16-bit numbers.
const readAs = (word, as, decimals) =>
  as === 'f' ? decimals.get(word) : as === 'd' ? String(word | 0) : `${word >> 16} · ${word << 16 >> 16}`;

// The words of a listing: A to D behind each record, how they are read, and the word that a pop of four bytes read.
const wordsOf = rows => {
  const chosen = $('reading').value, as = chosen ? rows.map(() => chosen) : readings(rows);
  return rows.map((row, i) => {
    const view = new DataView(row.state.buffer);
    const popped = row.kind === 2 && row.data.length === 4 ? new DataView(row.data.buffer).getUint32(0) : null;
    return { as: as[i], stack: [0, 4, 8, 12].map(at => view.getUint32(at)), half: row.state[16] === 1, popped };
  });
};

// The words whose float decimals are shown.
const floatsIn = words => words.filter(w => w.as === 'f').flatMap(w => [...(w.half ? [] : w.stack), w.popped || 0]);

const memory = state => {
  if (!state[19]) return cell('', '–');
  const names = texts.BITS.filter(([, bit]) => state[19] & bit).map(([name, , title]) => lit(name, title, true));
  return cell('lamps', ...names.flatMap(name => [name, ' ']), small(`first by ${texts.code(state[20])}`));
};

const recordRow = (r, words, i, decimals) => {
  const row = r.rows[i], { as, stack, half, popped } = words[i], before = i ? words[i - 1].stack : [0, 0, 0, 0];
  const record = cell('record proved', r.words[i]);
  if (row.refusal) record.append(make('span', { className: 'why' }, `✗ refused ${row.refusal}: ${WHY[row.refusal]}`));
  else if (half) record.append(small('half a word: bytes as they stand'));
  const line = cell('proved', r.lines[i]);
  if (popped !== null) line.append(small(`read ${readAs(popped, as, decimals)}`));
  return make('tr', { className: row.refusal ? 'bad' : '' }, cell('number', row.at), record, line,
    ...stack.map((word, k) => cell(`${half ? 'half' : ''}${word === before[k] ? '' : ' new'}`,
      texts.hex(word, 8), half ? '' : small(readAs(word, as, decimals)))),
    lamps(row.state), memory(row.state));
};

// The row of the line `end`, with the first bytes of the record that stopped the run.
const endRow = r => {
  const rest = r.input.subarray(r.taken, r.taken + 8), more = r.input.length > r.taken + 8 ? ' ..' : '';
  const end = cell('proved', r.lines[r.end]), number = cell('number', r.taken);
  if (!r.refusal) return make('tr', {}, number, cell(''), end, make('td', { colSpan: 6 }, 'the whole file'));
  const why = make('span', { className: 'why' }, `✗ stopped, ${r.refusal}: ${WHY[r.refusal]}`);
  const record = cell('record', texts.hexes(rest) + more);
  return make('tr', { className: 'bad' }, number, record, end, make('td', { colSpan: 6 }, why));
};

const RECORD_HEAD = ['byte', 'record (proved)', 'line (proved)', 'A (top)', 'B', 'C', 'D',
  'status, service, half word', 'error memory'];

const recordTable = async (r, nearest, wanted) => {
  const words = wordsOf(r.rows), decimals = await runs.decimals(floatsIn(words), nearest);
  const rows = [...r.rows.map((row, i) => () => recordRow(r, words, i, decimals)), () => endRow(r)];
  await table($('rows'), 'records', RECORD_HEAD, rows, wanted, 64);
};

// A slot holds whatever word was on top; one that is no proper float is shown as a 32-bit number too.
const slotText = (word, decimals) => {
  const as = $('reading').value || 'f', text = readAs(word, as, decimals);
  return text.endsWith('improper') ? `improper float; 32-bit number ${word | 0}` : text;
};

const sheetTable = async (r, nearest, wanted) => {
  const lines = r.lines.slice(r.end + 1).map(line => line.split(' ')), figures = Object.fromEntries(lines);
  const sheets = lines.filter(([name]) => name === 'sheet'), serials = sheets.map(line => line[1]);
  const words = sheets.map(line => line.slice(2).map(digits => parseInt(digits, 16)));
  const decimals = await runs.decimals(words.flat(), nearest);
  const rows = sheets.map((line, i) => () => make('tr', {}, cell('number', i + 1),
    cell('proved', line[1], serials.filter(serial => serial === line[1]).length > 1 ? small('repeated') : ''),
    ...line.slice(2).map((digits, k) => cell('proved', digits, small(slotText(words[i][k], decimals))))));
  if (figures.open) {
    const why = make('span', { className: 'why' }, '✗ still open: this sheet is not in the list');
    const open = cell('proved', figures.open);
    rows.push(() => make('tr', { className: 'bad' }, cell(''), open, make('td', { colSpan: 4 }, why)));
  }
  await table($('sheets'), '', ['sheet', 'serial', 'slot 0', 'slot 1', 'slot 2', 'slot 3'], rows, wanted);
  const [sum] = await runs.told([figures.sum], { form: 'sum' });
  if (wanted()) $('sheets').append(figureTable(figures, sum));
};

const figureTable = (figures, sum) => {
  const said = { lines: 'sheets closed', serials: 'different serials', repeated: 'serials on more than one sheet',
    improper: 'words of slot 0 that are no proper floats', sum: `slot 0 adds up to ${sum}, exactly` };
  const row = name => make('tr', {}, cell('proved', `${name} ${figures[name]}`), cell('long', said[name]));
  return make('table', {}, head(['figures (proved)', 'in words']), make('tbody', {}, ...Object.keys(said).map(row)));
};

const stepTable = async (lines, quotient, wanted) => {
  let before = quotient ? null : '0'.repeat(16);
  const rows = lines.map(line => () => {
    const [step, left, value] = line.split(' '), changed = before !== null && value !== before;
    const digit = quotient ? [cell('number', before === null ? '' : changed ? '1' : '0')] : [];
    before = value;
    return make('tr', {}, cell('proved', step), cell('proved', left), cell(`proved${changed ? ' new' : ''}`, value),
      cell('number', String(BigInt(`0x${value}`))), ...digit);
  });
  const names = quotient ? ['step', 'digits left', 'left of B', 'in decimal', 'digit'] :
    ['step', 'bits of A left', 'added up so far', 'in decimal'];
  await table($('rows'), '', names, rows, wanted);
};

const MARKS = { cut: 'that, truncated', rounded: 'that, rounded', undefined: 'exactly that',
  improper: 'exactly that, and no proper float: neither zero nor with bit 23 set' };
const wordTable = async (given, lines, wanted) => {
  const rows = given.map((text, i) => () => {
    const [word, decimal, mark] = lines[i].split(' '), bad = /^(refused|wrong)/.test(word);
    if (bad) return make('tr', { className: 'bad' }, cell('', text), cell('proved', lines[i]),
      make('td', { colSpan: 2 }, make('span', { className: 'why' }, `✗ ${texts.noWord(lines[i], text)}`)));
    return make('tr', {}, cell('', text), cell('proved', word), cell('proved long', decimal), cell('', MARKS[mark]));
  });
  await table($('rows'), '', ['given', 'word (proved)', 'decimal (proved)', 'the word is'], rows, wanted);
};
