// How the page starts: it tries the programs in this browser, and only then lets people use them.

// Every example and every program's trial run, here and now; the names of those that differ.
const tried = async () => {
  const differ = [];
  for (const { name, input, words, text } of TRIALS) {
    const list = texts.ascii(programs.decoded(words)).split('\n').filter(word => word);
    const wrote = await programs.run(name, programs.decoded(input), list);
    if (texts.ascii(wrote) !== texts.ascii(programs.decoded(text))) differ.push(name);
  }
  for (const { name, hex, text } of EXAMPLES) {
    const input = texts.hexBytes(programs.decoded(hex));
    const r = await runs.listing(name.startsWith('sheets') ? 'sheets' : 'list', input, {});
    if (r.said !== texts.ascii(programs.decoded(text)) || !r.agree) differ.push(name);
  }
  return differ;
};

const tabKeys = event => {
  const tabs = [...document.querySelectorAll('[role=tab]')], at = tabs.indexOf(event.target);
  const step = { ArrowRight: 1, ArrowLeft: tabs.length - 1, Home: -at, End: tabs.length - 1 - at }[event.key];
  if (step === undefined) return;
  event.preventDefault();
  const to = tabs[(at + step) % tabs.length];
  show(to.dataset.job);
  to.focus();
};

const listen = () => {
  for (const tab of document.querySelectorAll('[role=tab]')) {
    tab.addEventListener('click', () => show(tab.dataset.job));
    tab.addEventListener('keydown', tabKeys);
  }
  $('text').addEventListener('input', () => takeText('pasted text', $('text').value));
  $('file').addEventListener('click', event => { event.target.value = ''; }); // the same file may have changed
  $('file').addEventListener('change', event => takeFile(event.target.files[0]));
  $('form').addEventListener('change', event => {
    if (chosen) takeFile(chosen, event.target.value);
    else takeText('pasted text', $('text').value, event.target.value === 'words' ? 'words' : 'hex');
  });
  $('example').addEventListener('change', event => takeExample(event.target.value));
  $('code').addEventListener('change', () => Promise.all(operands.map(o => o.rekind())).then(run));
  $('rule').addEventListener('change', () => Promise.all([...letters, ...operands].map(l => l.renew())).then(run));
  for (const id of ['part', 'reading', 'exact']) $(id).addEventListener('change', run);
  for (const id of ['formula', 'numbers']) $(id).addEventListener('input', run);
  for (const type of ['dragenter', 'dragover', 'dragleave', 'drop']) {
    addEventListener(type, event => {
      event.preventDefault();
      document.body.classList.toggle('drop', type === 'dragover' || type === 'dragenter');
      if (type === 'drop') takeFile(event.dataTransfer.files[0]);
    });
  }
  listenTools();
};

const listenTools = () => {
  const name = () => result.name.replace(/\.[^.]*$/, '');
  $('save-text').addEventListener('click', () => save(result.said, `${name()}.txt`));
  $('save-record').addEventListener('click', () => save(result.file, `${name()}.bin`));
  $('save-hex').addEventListener('click', () => save(`${texts.hexes(result.file)}\n`, `${name()}.hex`));
  $('print').addEventListener('click', () => print());
};

const start = async () => {
  if (typeof MODULES === 'undefined') throw Error('a part of this file was changed on its way here');
  $('version').textContent = `Version ${VERSION}, commit ${COMMIT}.`;
  if (typeof WebAssembly !== 'object' || typeof BigInt64Array !== 'function') {
    throw Error('this browser is too old: it has no WebAssembly with 64-bit numbers');
  }
  await programs.load();
  const differ = await tried();
  if (differ.length) throw Error(`in this browser ${differ.join(', ')} came out otherwise than must be. Use another`);
  const number = `${EXAMPLES.length} examples and ${TRIALS.length} programs`;
  $('tried').textContent = `Tried in this browser when it was opened: ${number}, none differs.`;
  for (const { name } of EXAMPLES) $('example').append(make('option', { value: name }, name));
  $('letters').append(...letters.map(l => l.element));
  $('operands').append(...operands.map(o => o.element));
  await Promise.all([...letters, ...operands].map(l => l.renew()));
  listen();
  for (const tab of document.querySelectorAll('[role=tab]')) tab.disabled = false;
  $('inputs').hidden = false;
  show('list');
};

start().catch(error => sentence(`This page does not start: ${error.message}.`, true));
