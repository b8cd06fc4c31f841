// node wasm.mjs PROGRAM.wasm: runs a program for wasm32, its standard input and output those of node; ends with what main gave
import { readFileSync, writeSync } from 'node:fs';
const input = readFileSync(0);
let given = 0, text = [];
const flush = () => { for (let b = Buffer.from(text), at = 0; at < b.length;) at += writeSync(1, b, at); text = []; };
const host = {
    put: byte => { text.push(byte); if (text.length === 65536) flush(); },
    get: () => given < input.length ? input[given++] : -1,
};
const program = new WebAssembly.Instance(new WebAssembly.Module(readFileSync(process.argv[2])), { host }).exports;
process.exitCode = program.main();
flush();
