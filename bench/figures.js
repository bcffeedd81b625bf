'use strict';
// What the scripts that time the package for Node have in common.
const fs = require('node:fs');
const os = require('node:os');
const path = require('node:path');
const { execFileSync } = require('node:child_process');

const TOP = path.dirname(__dirname);

// ---- what is timed

/** A file of the package, over what is built. */
const ours = name => require(path.join(TOP, 'capi', 'node', name));

/** The same over the addon. Without it there would be WebAssembly, or the package that a layer replaces. */
function addon(name) {
  if (ours('native.js').isWasm) throw new Error('no addon is built');
  return ours(name);
}

/** The same over WebAssembly, in a process that has loaded nothing of the package. */
function wasm(name) {
  fs.accessSync(ours('wasm.js').file);
  process.env.SMAP_WASM = '1';
  try {
    return ours(name);
  } finally {
    delete process.env.SMAP_WASM;
  }
}

/** The names of those that can be loaded. Of others it says why not. */
function thoseThere(loaders) {
  return Object.keys(loaders).filter(name => {
    try {
      return Boolean(loaders[name]());
    } catch (error) {
      console.error(`left out: ${name} (${error.message.split('\n')[0]})`);
      return false;
    }
  });
}

/** The text of a map that make_map.py makes. */
function mapText(options) {
  const words = Object.entries(options).flatMap(([option, n]) => [`--${option}`, String(n)]);
  const script = path.join(__dirname, 'make_map.py');
  return execFileSync('python3', ['-B', script, ...words], { encoding: 'utf8', maxBuffer: 2 ** 30 });
}

/** A function of numbers below 2^32 that look random, the same each time. */
function numbers() {
  let state = 1;
  return () => (state = (Math.imul(state, 1664525) + 1013904223) >>> 0);
}

// ---- times

/** What a call answers, how many milliseconds of the processor it takes, of all threads, and how many pass. */
function timed(call) {
  const from = process.cpuUsage(), start = performance.now();
  const answer = call();
  const passed = performance.now() - start, { user, system } = process.cpuUsage(from);
  return { answer, took: (user + system) / 1000, passed };
}

/** What a script prints as JSON, run by a process of its own. */
const answerOf = (script, ...words) =>
  JSON.parse(execFileSync(process.execPath, ['--expose-gc', script, ...words.map(String)]));

// ---- the table

const shown = n => (n === null ? '' : n.toPrecision(n >= 100 ? Math.ceil(Math.log10(n + 1)) : 2));

function measuredWith() {
  const [{ model }, ...more] = os.cpus();
  const on = `Node ${process.versions.node} on ${more.length + 1} processors (${model})`;
  return `Measured with ${on}, at a load of ${os.loadavg()[0].toFixed(1)} when it was done.`;
}

/** The value of an option of this process, or null. */
function option(name) {
  const i = process.argv.indexOf(name);
  return i < 0 ? null : process.argv[i + 1];
}

/** Puts a text between the two lines that hold a mark, in the file that --into names. */
function putInto(mark, text) {
  const file = option('--into');
  if (!file) return;
  const lines = fs.readFileSync(file, 'utf8').split('\n');
  const marks = lines.flatMap((line, i) => (line.includes(mark) ? [i] : []));
  if (marks.length !== 2) throw new Error(`${file} hasn't two lines with ${mark}`);
  const kept = [...lines.slice(0, marks[0] + 1), '', text, '', ...lines.slice(marks[1])];
  fs.writeFileSync(file, kept.join('\n'));
}

module.exports = {
  TOP, ours, addon, wasm, thoseThere, mapText, numbers, timed, answerOf, shown, measuredWith, option, putInto,
};
