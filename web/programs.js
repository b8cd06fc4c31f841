// The proved programs and calls, run. Nothing here has to do with the screen, nor with what the bytes mean.
const programs = (() => {
  const compiled = {};
  const decoded = base64 => Uint8Array.from(atob(base64), c => c.charCodeAt(0));

  // Compiles every module, if it is the one that was built.
  const load = async () => {
    for (const name in MODULES) {
      const bytes = decoded(MODULES[name].bytes);
      if (sha256(bytes) !== MODULES[name].sum) throw Error(`the program ${name} in this file is not as it was built`);
      compiled[name] = await WebAssembly.compile(bytes).catch(() => {
        throw Error('this browser is too old, or set to run no WebAssembly');
      });
    }
  };

  const joined = parts => {
    const all = new Uint8Array(parts.reduce((sum, part) => sum + part.length, 0));
    parts.reduce((at, part) => { all.set(part, at); return at + part.length; }, 0);
    return all;
  };

  // What a program asks of its machine: input to read, output to write, and the words of its call.
  const machine = (input, words, written, memory) => {
    let at = 0, errno = 0;
    const bytes = (from, n) => new Uint8Array(memory(), from, Number(n));
    return {
      read: (file, to, n) => {
        const part = input.subarray(at, at + Number(n));
        bytes(to, n).set(part);
        at += part.length;
        return BigInt(part.length);
      },
      write: (file, from, n) => { written.push(bytes(from, n).slice()); return n; },
      rattle_arg: (i, to, n) => {
        if (i >= BigInt(words.length)) return -1n;
        const word = new TextEncoder().encode(words[Number(i)]);
        bytes(to, n).set(word.subarray(0, Number(n)));
        return word.length > Number(n) ? -2n : BigInt(word.length);
      },
      rattle_errno: () => errno,
      rattle_set_errno: error => { errno = error; },
    };
  };

  // Runs a program from nothing: the bytes that it writes.
  const run = async (name, input, words = []) => {
    const written = [];
    let exports = null;
    const env = machine(input, [name, ...words], written, () => exports.memory.buffer);
    exports = (await WebAssembly.instantiate(compiled[name], { env })).exports;
    exports.main();
    return joined(written);
  };

  // A library of its own, and `room` bytes behind its stack to lend.
  const library = async (name, room) => {
    const { exports } = await WebAssembly.instantiate(compiled[name], {});
    const base = exports.__heap_base.value;
    exports.memory.grow(Math.ceil(room / 65536));
    return { exports, base, bytes: new Uint8Array(exports.memory.buffer), view: new DataView(exports.memory.buffer) };
  };

  return { load, run, library, decoded };
})();
