// Runs a program in WebAssembly, whose library is in it, or is a module of its own that has the memory:
// node [--experimental-wasm-memory64] run.mjs PROGRAM.wasm [LIBRARY.wasm]
import { readFileSync, writeSync } from 'node:fs';

const [program, library] = process.argv.slice(2);
let memory;
const text = (at) => {
  const bytes = new Uint8Array(memory.buffer), start = Number(at);
  return bytes.subarray(start, bytes.indexOf(0, start));
};
const calls = { put: (at) => writeSync(1, text(at)), end: (status) => process.exit(status) };
const env = library ? (await WebAssembly.instantiate(readFileSync(library), {})).instance.exports : {};
const { instance } = await WebAssembly.instantiate(readFileSync(program), { console: calls, env });
memory = env.memory ?? instance.exports.memory;
const start = instance.exports.bare_main;
process.exit(start.length > 1 ? start(0, library ? 0n : 0) : start());
