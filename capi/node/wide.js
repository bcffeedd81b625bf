'use strict';
// WebAssembly with a memory of 64 bits, in Node.
const v8 = require('node:v8');

// A module that has nothing but such a memory.
const WIDE = Uint8Array.of(0, 0x61, 0x73, 0x6d, 1, 0, 0, 0, 5, 3, 1, 4, 1);

// What V8 is told, and what takes it back, since workers would not take Node's own compiled code under other
// flags. Node before 24 has such memories behind a flag, which may still be set here.
const MEMORY = ['--experimental-wasm-memory64', '--no-experimental-wasm-memory64'];
// V8 before 12 optimizes a function once so many bytes of it have run: by itself after a millisecond or so,
// though that takes twenty for a long one. Here it has run for about as long by then.
const BUDGET = ['--wasm-tiering-budget=30000000', '--wasm-tiering-budget=1800000'];

function withFlags(ask) {
  const flags = [];
  if (!WebAssembly.validate(WIDE)) flags.push(MEMORY);
  if (parseInt(process.versions.v8, 10) < 12) flags.push(BUDGET);
  for (const [flag] of flags) v8.setFlagsFromString(flag);
  try {
    return ask();
  } finally {
    for (const [, usual] of flags) v8.setFlagsFromString(usual);
  }
}

/** Whether there is such a memory here. */
const hasWide = () => typeof WebAssembly === 'object' && withFlags(() => WebAssembly.validate(WIDE));

/** A module of these bytes. */
const compile = bytes => withFlags(() => new WebAssembly.Module(bytes));

module.exports = { WIDE, compile, hasWide };
