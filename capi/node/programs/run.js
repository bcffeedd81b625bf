'use strict';
// The programs as WebAssembly, in this process: for systems that smap has no package for.
const fs = require('node:fs');
const path = require('node:path');
const { compile, hasWide } = require('../wide.js');
const { run } = require('./host.js');
const { nodeSystem } = require('./system-node.js');

const MODULE = path.join(__dirname, 'smap-programs.wasm');
// The status of a program that ended by abort().
const ABORTED = 134;

/** Whether the programs can run in this process. */
function canRun() {
  return fs.existsSync(MODULE) && hasWide();
}

/** The words of the command line as bytes. Node has them as text, without what isn't UTF-8, but Linux has it. */
function wordsGiven() {
  const words = process.argv.slice(2);
  if (process.platform === 'win32') return words.map(word => Buffer.from(word.replaceAll('\\', '/')));
  if (words.every(word => !word.includes('\ufffd')) || process.platform !== 'linux') {
    return words.map(word => Buffer.from(word));
  }
  const all = fs.readFileSync('/proc/self/cmdline', 'latin1').split('\0').slice(0, -1);
  return all.slice(-words.length).map(word => Buffer.from(word, 'latin1'));
}

/** Runs a program, by its name, over the machine's files and streams. The process ends with its status. */
function runHere(name) {
  const words = [Buffer.from(name), ...wordsGiven()];
  try {
    process.exitCode = run(compile(fs.readFileSync(MODULE)), words, nodeSystem(MODULE));
  } catch (error) {
    if (!(error instanceof WebAssembly.RuntimeError || error instanceof RangeError)) throw error;
    process.stderr.write(`${name}: ${error.message}\n`);
    process.exitCode = ABORTED;
  }
}

module.exports = { MODULE, canRun, runHere, wordsGiven };
