// Runs the programs against ergo.wasm, and prints their lines:
//
//     node run.mjs ergo.wasm programs.wasm CRATES    all but the stack; the lists are looked for in the folder CRATES
//     node run.mjs ergo.wasm programs.wasm           the stack, of a module that exports its stack pointer
//
// The programs are a module of their own, which takes memory and functions from ergo.wasm. Their data stand from PROGRAMS on, and the lists behind them.
import { readFileSync, writeSync } from 'node:fs';

const PROGRAMS = 1 << 20;
const [, , libraryFile, programsFile, crates] = process.argv;

const libraryModule = new WebAssembly.Module(readFileSync(libraryFile));
if (WebAssembly.Module.imports(libraryModule).length !== 0) throw new Error('ergo.wasm asks for imports');
const library = new WebAssembly.Instance(libraryModule, {}).exports;
if (library.__heap_base && library.__heap_base.value > PROGRAMS) throw new Error('ergo.wasm takes the memory of the programs');

const memory = library.memory;
memory.grow(64 * 16); // 64 MiB

function text(at) {
  const bytes = new Uint8Array(memory.buffer);
  return Buffer.from(bytes.subarray(at, bytes.indexOf(0, at))).toString();
}

const stackPointer = library.__stack_pointer;
const programs = new WebAssembly.Instance(new WebAssembly.Module(readFileSync(programsFile)), {
  env: {
    ...library,
    put: (at) => writeSync(1, text(at)),
    module_stack_pointer: () => stackPointer.value,
  },
}).exports;

// Puts a list behind the programs' own memory, and has it replayed.
function replay(name, by) {
  const list = readFileSync(`${crates}/${name}/stdin`);
  const at = programs.__heap_base.value;
  new Uint8Array(memory.buffer).set(list, at);
  by(at, at + list.length);
}

if (crates) {
  programs.run_limit();
  replay('replay', programs.replay_scripts);
  replay('roll_replay', programs.replay_rolls);
  replay('line_replay', programs.replay_lines);
  programs.run_answers();
} else {
  programs.run_stack();
}
writeSync(1, 'end\n');
