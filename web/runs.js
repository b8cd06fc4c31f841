// What the page asks of the programs: a listing with the state behind each record, a formula's file, steps, decimals.
const runs = (() => {
  const STATE = 21, SHEETS = 1303, REPORT = 9, ROOM = 65536; // bytes, as in include/
  const NONE = new Uint8Array(0);
  const settingsOf = ({ older, nearest }) => [...(older ? ['--am9511'] : []), ...(nearest ? ['--nearest'] : [])];

  // A run of records from a state in place, by the library of the job: what it gave, and where its bytes lie.
  const runner = async (job, { older, nearest }) => {
    const name = job === 'sheets' ? 'sheets' : 'pundaliket';
    const { exports, base, bytes, view } = await programs.library(name, 131072);
    const sheets = base + 32, report = base + 1344, input = base + 1360, replies = base + 16384;
    const lent = n => [input, BigInt(n), replies, BigInt(ROOM), report, BigInt(REPORT)];
    const first = [older ? 1 : 0, nearest ? 1 : 0, base, BigInt(STATE)];
    return {
      fresh: () => bytes.fill(0, base, report),
      take: part => {
        bytes.set(part, input);
        if (job === 'sheets') return exports.sheets_run(...first, sheets, BigInt(SHEETS), ...lent(part.length));
        return exports.pundaliket_run(...first, ...lent(part.length));
      },
      state: () => bytes.slice(base, base + STATE),
      reply: () => {
        const kind = view.getUint16(replies + 2, true);
        const data = bytes.slice(replies + 5, replies + 2 + view.getUint16(replies, true));
        return { kind: kind & 32768 ? kind - 32768 : kind - 128, refusal: bytes[replies + 4], data };
      },
    };
  };

  // Each record that the listing tells, with its reply and the state behind it, and whether the run of the whole file
  // ends in the same state.
  const rowsOf = async (job, input, taken, settings) => {
    const run = await runner(job, settings), rows = [];
    run.fresh();
    for (let at = 0; at < taken;) {
      const record = input.slice(at, at + 2 + input[at] + 256 * input[at + 1]), refusal = run.take(record);
      if (refusal !== 0) throw Error(`the record at byte ${at} alone ends with ${refusal}`);
      rows.push({ at, record, payload: record.subarray(4), ...run.reply(), state: run.state() });
      at += record.length;
    }
    const last = run.state();
    run.fresh();
    run.take(input.subarray(0, taken));
    const whole = run.state();
    return { rows, same: last.every((byte, i) => byte === whole[i]) };
  };

  // The records of a file in words, a line each.
  const recordWords = async input => {
    const said = texts.ascii(await programs.run('records', input, ['cut', 'read']));
    if (!said.endsWith('\nend\n')) throw Error('a record that was done has no words');
    return said.split('\n').slice(0, -3);
  };

  // The record file of records in words; throws the line, the character and the reason where one is wrong.
  const recordBytes = async (text, nearest) => {
    const written = await programs.run('records', text, [nearest ? 'nearest' : 'cut', 'text']);
    const said = texts.ascii(written);
    if (said.endsWith('\nend\n')) return written.slice(0, -5);
    const wrong = /\nwrong (\d+) (\d+) (\d+)\n$/.exec(said);
    if (!wrong) throw Error('what the program wrote is not whole');
    throw Error(`line ${wrong[1]}, character ${Number(wrong[2]) + 1}: ${FAULTS[wrong[3]]}`);
  };

  const lineOf = (row, i) => [i + 1, row.kind, row.refusal, texts.hexes(row.data)].join(' ').trim();

  // The listing of a file, and its rows; `agree` where each row says what the program's line says.
  const listing = async (job, input, settings) => {
    const program = job === 'sheets' ? 'sheetlist' : 'buslist';
    const said = texts.ascii(await programs.run(program, input, settingsOf(settings)));
    const lines = said.split('\n').slice(0, -1), end = lines.findIndex(line => line.startsWith('end '));
    if (end < 0 || !said.endsWith('\n')) throw Error('what the program wrote is not whole');
    const [, refusal, taken] = lines[end].split(' ').map(Number);
    const { rows, same } = await rowsOf(job, input, taken, settings);
    const words = await recordWords(input.subarray(0, taken)), number = rows.length === end && words.length === end;
    const agree = same && number && rows.every((row, i) => lineOf(row, i) === lines[i]);
    return { input, said, lines, words, end, refusal, taken, rows, agree };
  };

  // The record file of a formula, or the refusal.
  const formula = async (letters, text) => {
    const input = new Uint8Array(32 + text.length), view = new DataView(input.buffer);
    letters.forEach((word, i) => view.setUint32(4 * i, word));
    input.set(text, 32);
    const written = await programs.run('formulas', input), said = texts.ascii(written);
    if (!said.endsWith('end\n')) throw Error('what the program wrote is not whole');
    const refused = /^refused (\d+)\nend\n$/.exec(said);
    return refused ? { refusal: Number(refused[1]) } : { refusal: 0, file: written.slice(0, -4) };
  };

  const steps = async words => texts.ascii(await programs.run('steps', NONE, words));

  // What the program tells of each text, in the form `short` or `exact` for a decimal or a word, `sum` for a sum of the
  // figures: a line each. It reads 65,536 bytes at a time.
  const told = async (list, { nearest, form = 'short' }) => {
    const lines = [];
    for (let at = 0; at < list.length; at += 900) {
      const part = list.slice(at, at + 900).map(text => text.slice(0, 65).replace(/[^ -~]/g, '?') + '\n').join('');
      const said = texts.ascii(await programs.run('word', texts.encoded(part), [nearest ? 'nearest' : 'cut', form]));
      if (!said.endsWith('end\n')) throw Error('what the program wrote is not whole');
      lines.push(...said.split('\n').slice(0, -2));
    }
    if (lines.length !== list.length) throw Error('what the program wrote is not whole');
    return lines;
  };

  // The decimals of float words: the fewest places that give the word back, ≈ in front where that is not its value.
  const decimals = async (words, nearest) => {
    const list = [...new Set(words)];
    const lines = await told(list.map(word => texts.hex(word, 8)), { nearest });
    return new Map(list.map((word, i) => {
      const [, text, mark] = lines[i].split(' ');
      return [word, mark === 'improper' ? `${text} improper` : mark ? `≈${text}` : text];
    }));
  };

  return { listing, recordBytes, formula, steps, told, decimals };
})();
