// Runs a test program over blocktree.wasm:      node wasm.mjs BLOCKTREE.wasm PROGRAM.wasm WORDS..
// The program calls the exports of the module itself and shares its memory. Before anything runs, the module's imports and exports are compared with the
// header.
import { readFileSync, writeFileSync, writeSync } from "node:fs";

const [, , library, program, ...words] = process.argv;
const module = new WebAssembly.Module(readFileSync(library));
const header = readFileSync(new URL("../../include/blocktree.h", import.meta.url), "utf8");
const due = [...header.matchAll(/^uint\d+_t (bt_\w+)\(/gm)].map((match) => match[1]).concat("memory", "__heap_base").sort();
const exported = WebAssembly.Module.exports(module).map((item) => item.name).sort();
if (WebAssembly.Module.imports(module).length || exported.join() !== due.join()) {
  console.error(`${library}: imports ${WebAssembly.Module.imports(module).length} items; exports ${exported}; due are ${due}`);
  process.exit(9);
}
const calls = new WebAssembly.Instance(module).exports;
const memory = calls.memory;
// The program's own memory starts at 1 MiB (test-targets links it so): above the library's.
if (calls.__heap_base.value > 1 << 20) throw new Error(`the library takes ${calls.__heap_base.value} bytes of memory, the program starts at 1 MiB`);
const compiled = new WebAssembly.Module(readFileSync(program));
memory.grow(1024);

const bytes = () => new Uint8Array(memory.buffer);
const text = (at) => Buffer.from(bytes().subarray(at, bytes().indexOf(0, at))).toString();
let input, from = 0, printed = [];
const os = {
  line(at, room) {
    input ??= readFileSync(0);
    if (from >= input.length) return -1;
    const newline = input.indexOf(10, from), end = newline < 0 ? input.length : newline;
    const line = input.subarray(from, Math.min(end, from + room - 1));
    from = end + 1;
    bytes().set(line, at);
    bytes()[at + line.length] = 0;
    return line.length;
  },
  out: (at, n) => void printed.push(Buffer.from(bytes().slice(at, at + n))),
  read(path, at, room) {
    try {
      const file = readFileSync(text(path)).subarray(0, room);
      bytes().set(file, at);
      return file.length;
    } catch {
      return -1;
    }
  },
  write: (path, at, n) => (writeFileSync(text(path), bytes().slice(at, at + n)), 0),
};
const started = new WebAssembly.Instance(compiled, { env: calls, os }).exports;
bytes().set(Buffer.from(["program", ...words].map((word) => word + "\0").join("")), started.words_at());
const status = started.start(words.length + 1);
const all = Buffer.concat(printed);
for (let at = 0; at < all.length; ) at += writeSync(1, all, at);
process.exitCode = status;
