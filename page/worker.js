'use strict';
// The worker of the page: it has the module and the files, and runs a program over both when it is asked to.
const { run } = require('./host.js');
const { MemorySystem, newFolder, put } = require('./system-memory.js');

const WORK = '/work';
const LOG = '/log/';
const MOST_LINES = 20_000;
const MOST_COMPARED = 2 ** 25; // bytes of a log whose lines are told from those that were translated
const TOLD_EACH = 100; // milliseconds
// A module with a memory of 64 bits, and nothing else.
const WIDE = Uint8Array.of(0, 0x61, 0x73, 0x6d, 1, 0, 0, 0, 5, 3, 1, 4, 1);

const root = newFolder();
let module = null;

const encode = text => new TextEncoder().encode(text);
const folderOf = name => root.kids.set(name, newFolder());
folderOf('work');
folderOf('log');

/** What a text of Base64 holds, compressed by gzip. */
async function unpacked(text) {
  const packed = Uint8Array.from(atob(text), one => one.charCodeAt(0));
  const stream = new Blob([packed]).stream().pipeThrough(new DecompressionStream('gzip'));
  return new Uint8Array(await new Response(stream).arrayBuffer());
}

async function start({ wasm, template }) {
  if (!WebAssembly.validate(WIDE)) throw new Error('it has no WebAssembly with 64-bit memory');
  module = await WebAssembly.compile(await unpacked(wasm));
  put(root, 'programs/smap-view.html', await unpacked(template));
  return {};
}

/** Adds files to the build, each with its path, or takes all out. */
function hold({ files }) {
  if (!files) folderOf('work');
  else for (const [path, file] of files) put(root, WORK + '/' + path, file);
  return {};
}

const linesOf = text => {
  const lines = text.split('\n');
  if (lines.at(-1) === '') lines.pop();
  return lines;
};

/** The first lines of an output, and of each whether it isn't a line of the log. */
async function firstLines(output, log) {
  const before = new Set(log.size <= MOST_COMPARED ? linesOf(await log.text()) : []);
  const start = output.slice(0, 1000 * MOST_LINES);
  const lines = linesOf(await start.text());
  const shown = lines.slice(0, MOST_LINES).map(line => [line, before.size > 0 && !before.has(line)]);
  return { shown, isAll: shown.length === lines.length && start.size === output.size };
}

/** Says how many bytes were read, now and then. */
function teller(id) {
  let read = 0;
  let last = performance.now();
  return size => {
    read += size;
    if (performance.now() - last < TOLD_EACH) return;
    last = performance.now();
    postMessage({ id, read });
  };
}

/** Runs a program in the folder of the build, with a log if one is given, which is its last word. */
async function ask({ id, words, log, type }) {
  if (log) {
    folderOf('log');
    put(root, LOG + log.name, log);
    words = [...words, LOG + log.name];
  }
  const began = performance.now();
  const system = new MemorySystem(root, { here: WORK, told: teller(id) });
  const status = run(module, words.map(encode), system);
  const time = performance.now() - began;
  const output = system.output.blob(type);
  const lines = log && await firstLines(output, log);
  return { status, errors: system.errors.text(), time, output, ...lines };
}

const answers = { start, hold, ask };

// One message after another, in the order in which they came.
let last = Promise.resolve();
onmessage = ({ data }) => {
  last = last.then(async () => {
    try {
      postMessage({ id: data.id, answer: await answers[data.to](data) });
    } catch (error) {
      postMessage({ id: data.id, fault: String(error.message || error) });
    }
  });
};
