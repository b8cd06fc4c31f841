// What the tests of the page share: its parts, the native programs, drawn inputs, a count of what was compared.
import { readFileSync, readdirSync } from 'node:fs';
import { spawnSync } from 'node:child_process';
import { join } from 'node:path';
import vm from 'node:vm';

// Modules are compiled at once here: beside the main thread Node was seen to wait for ever on a busy machine.
const atOnce = {
  compile: async bytes => new WebAssembly.Module(bytes),
  instantiate: async (module, imports) => new WebAssembly.Instance(module, imports),
};

// The page's scripts without a screen, as they stand in the file, run here.
export const machine = async (path, change = data => data) => {
  const html = readFileSync(path, 'utf8'), part = id => new RegExp(`<script id="${id}">([^]*?)</script>`).exec(html)[1];
  const world = vm.createContext({ WebAssembly: atOnce, atob, TextEncoder });
  const names = 'programs, texts, runs, sha256, FormulaReader, MODULES, EXAMPLES, TRIALS, WHY, FAULTS, CODES';
  vm.runInContext(`${change(part('data'))}\n${part('machine')}\nglobalThis.parts = { ${names} };`, world);
  await world.parts.programs.load();
  return world.parts;
};

// START and a folder of programs: what a native program writes.
export const native = (top, name, input, words = []) => {
  const program = join(top, 'crates', name, 'out', name), given = { input, maxBuffer: 1 << 25 };
  const { stdout, status, error } = spawnSync(process.env.START, [program, ...words], given);
  if (error || status !== 0) throw Error(`${name} ended with ${error || status}`);
  return stdout;
};

export const examples = top => readdirSync(join(top, 'examples')).filter(name => name.endsWith('.hex'))
  .map(name => ({ name, hex: readFileSync(join(top, 'examples', name)) }));

// Numbers drawn from a seed, the same everywhere.
export const draws = seed => {
  let state = seed >>> 0;
  const next = () => {
    state = state + 0x6D2B79F5 >>> 0;
    let t = Math.imul(state ^ state >>> 15, state | 1);
    t ^= t + Math.imul(t ^ t >>> 7, t | 61);
    return (t ^ t >>> 14) >>> 0;
  };
  return n => next() % n;
};

const record = (kind, payload) => [payload.length + 2, 0, kind & 255, kind >> 8, ...payload];

// A drawn file: mostly whole records that do something, one in ten with a byte lost.
export const drawnFile = (draw, codes) => {
  const out = [], bytes = n => Array.from({ length: n }, () => draw(256));
  for (let n = 1 + draw(60); n--;) {
    out.push(...[
      () => record(1, [draw(256), draw(256), 128 | draw(256), draw(2) * 128 + (draw(8) - 4 & 127)]),
      () => record(1, bytes(1 + draw(6))), () => record(2, [1 + draw(8)]), () => record(4 + draw(5), []),
      () => record(256, [draw(3), 0, 0, 0]), () => record(257, [draw(5)]), () => record(258, []),
      () => record(3, [draw(256)]), () => record(3, [codes[draw(codes.length)] | draw(2) * 128]),
    ][[0, 0, 0, 1, 2, 3, 4, 5, 6, 7, 8, 8, 8][draw(13)]]());
  }
  if (draw(10) === 0) out.splice(draw(out.length), 1);
  return Uint8Array.from(out);
};

// A drawn formula.
export const drawnFormula = (draw, depth = 0) => {
  const two = least => (least + draw(256 - least)).toString(16).toUpperCase().padStart(2, '0');
  const inner = () => drawnFormula(draw, depth + 1), joined = () => inner() + '+-*/'[draw(4)] + inner();
  const constant = () => `#${two(0)}${two(128)}${two(0)}${two(0)}`;
  const ways = [() => 'abcdefgh'[draw(8)], constant, () => `-${inner()}`, () => `(${inner()})`, joined, joined];
  return ways[draw(depth > 3 ? 2 : 6)]();
};

// Counts what is compared, and names what differs.
export const counter = () => {
  const count = { compared: 0, differ: 0 };
  const is = (what, got, wanted) => {
    count.compared++;
    const [a, b] = [got, wanted].map(x => typeof x === 'string' ? x : Buffer.from(x).toString('latin1'));
    if (a === b) return;
    count.differ++;
    const [shown, must] = [a, b].map(x => JSON.stringify(x.slice(0, 200)));
    console.log(`differs: ${what}\n  is   ${shown}\n  must ${must}`);
  };
  return { count, is };
};
