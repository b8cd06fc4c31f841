'use strict';
// What the screen is made of: elements, tables, lamps, the sentence above a run, files to save.
const $ = id => document.getElementById(id);

const make = (tag, given, ...inside) => {
  const element = Object.assign(document.createElement(tag), given);
  element.append(...inside);
  return element;
};
const cell = (className, ...inside) => make('td', { className }, ...inside);
const small = text => make('small', {}, text);
const head = names => make('thead', {}, make('tr', {}, ...names.map(name => make('th', { scope: 'col' }, name))));

// A table, or several of `part` rows each, of which the browser lays out those in sight, so that a long file does not
// hold it up. `wanted` says whether the rows still are.
const table = async (to, className, names, rows, wanted, part = rows.length) => {
  const parts = make('div');
  if (wanted()) to.replaceChildren(parts);
  for (let at = 0; at < rows.length && wanted(); at += part) {
    const body = make('tbody', {}, ...rows.slice(at, at + part).map(row => row()));
    parts.append(make('div', { className: 'part' }, make('table', { className }, head(names), body)));
    if (at % (4 * part) === 3 * part) await new Promise(next => setTimeout(next));
  }
};

// The one sentence that says how a run ended; it begins with a mark, so that it is read without colours too.
const sentence = (text, bad) => {
  $('sentence').textContent = (bad ? '✗ ' : '✓ ') + text;
  $('sentence').className = bad ? 'bad' : '';
};
// The same before there is anything to run.
const invitation = text => {
  $('sentence').textContent = text;
  $('sentence').className = '';
};

// The lamps of a state in a row of letters of one width: those that are on stand out, those of errors in another shape.
const LAMPS = [...texts.BITS.map(([name, bit, title]) => [name, state => state[17] & bit, title, bit & 0x1E]),
  ['SV', state => state[18], 'service line'], ['HW', state => state[16], 'half a word pending']];
const lit = (name, title, error) => make('b', { className: error ? 'lamp error' : 'lamp', title }, name);
const lamps = state => {
  const row = cell('lamps', `${texts.hex(state[17], 2)} `), on = [];
  let off = '';
  const dark = () => { if (off) row.append(make('i', {}, off)); off = ''; };
  for (const [name, isOn, title, error] of LAMPS) {
    off += ' ';
    if (isOn(state)) {
      dark();
      row.append(lit(name, title, error));
      on.push(title);
    } else off += name;
  }
  dark();
  row.setAttribute('aria-label', `status ${texts.hex(state[17], 2)}: ${on.join(', ') || 'no lamp on'}`);
  return row;
};

const save = (bytes, name) => {
  const link = make('a', { href: URL.createObjectURL(new Blob([bytes])), download: name });
  link.click();
  setTimeout(() => URL.revokeObjectURL(link.href), 10000);
};
