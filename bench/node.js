'use strict';
// Times the package for Node beside other readers of source maps.
//
//     capi/node/build.sh capi/out && tools/build-wasm
//     NODE_PATH=/usr/share/nodejs node bench/node.js [--runs N] [--into docs/PERFORMANCE.md]
//
// The package is timed over its addon, and over WebAssembly. The others are @jridgewell/trace-mapping and
// source-map, where NODE_PATH has them, and Node's own module.SourceMap. What isn't there is left out. For
// maps of three sizes, made by make_map.py, it prints a table: opening with the first lookup, since others
// decode then, in a fresh process and in a warm one; lookups at random positions and at rising ones, after
// 150,000 others; all mappings; and how much the process grows up to the first lookup. Each figure is the
// best of N processes, 3 unless given. A second table, in wall-clock time, has the parts of opening the
// smallest map. With --into the first, without that map, is put between the two lines of that file that hold
// `figures of node.js`. Its time is processor time. Let nothing else run meanwhile.
const fs = require('node:fs');
const os = require('node:os');
const path = require('node:path');
const {
  ours, addon, wasm, thoseThere, mapText, numbers, timed, answerOf, shown, measuredWith, option, putInto,
} = require('./figures.js');

const URL_OF_MAP = 'http://h/m/out.js.map';
const SIZES = [
  ['10 KB', 550, 4, 1300],
  ['1 MB', 50_000, 100, 6500],
  ['20 MB', 1_000_000, 1000, 13_000],
];
const BUDGET = 300; // milliseconds for a rate
const ROUNDS = 3; // of 50,000 lookups, before they are timed: readers may make something for many of them
const WARM = 1000; // and for opening again, within which the collector of each reader runs several times

// ---- readers: how each opens a map, looks a position up (lines and columns from 0), lists all mappings, and
// closes a map, where it has a call for that

const lookups = ({ SourceMap }) => ({
  open: (text, bytes) => new SourceMap(bytes, URL_OF_MAP),
  lookup: (map, line, column) => map.lookup(line, column),
  all: (map, call) => map.forEach(call),
  close: map => map.close(),
});

function traceMapping(T) {
  return {
    open: text => new T.TraceMap(text, URL_OF_MAP),
    lookup: (map, line, column) => T.originalPositionFor(map, { line: line + 1, column }),
    all: (map, call) => T.eachMapping(map, call),
  };
}

function sourceMap({ SourceMapConsumer }) {
  return {
    open: text => new SourceMapConsumer(text, URL_OF_MAP),
    lookup: (map, line, column) => map.originalPositionFor({ line: line + 1, column }),
    all: (map, call) => map.eachMapping(call),
    close: map => map.destroy?.(),
  };
}

const READERS = {
  '`smap`, `lookup`': () => lookups(addon('index.js')),
  '`smap`, `lookup`, as WebAssembly': () => lookups(wasm('index.js')),
  '`smap`, `table().find`': () => {
    const { SourceMap } = addon('index.js');
    return {
      open: (text, bytes) => new SourceMap(bytes, URL_OF_MAP),
      lookup: (map, line, column) => map.table().find(line, column),
      all: (map, call) => {
        const { length, column } = map.table();
        for (let i = 0; i < length; i++) call(column[i]);
      },
      close: map => map.close(),
    };
  },
  '`smap/trace-mapping`': () => traceMapping(addon('trace-mapping.js')),
  '`@jridgewell/trace-mapping`': () => traceMapping(require('@jridgewell/trace-mapping')),
  '`smap/source-map`': () => sourceMap(addon('source-map.js')),
  '`source-map`': () => sourceMap(require('source-map')),
  "Node's own": () => {
    const { SourceMap } = require('node:module');
    return {
      open: text => new SourceMap(JSON.parse(text)),
      lookup: (map, line, column) => map.findEntry(line, column),
      all: null,
    };
  },
};

// ---- one process: a reader and a map

// Calls with each of these positions.
function round(call, positions) {
  for (let i = 0; i < positions.length; i += 2) call(positions[i], positions[i + 1]);
}

// How often a second a call can be made with each of these positions.
function rate(call, positions) {
  let count = 0, took = 0;
  while (took < BUDGET) {
    took += timed(() => round(call, positions)).took;
    count += positions.length / 2;
  }
  return (count / took) * 1000;
}

function best(call, budget, after = () => {}) {
  let least = Infinity;
  for (let took = 0, i = 0; i < 3 || took < budget; i++) {
    const { took: one } = timed(call);
    took += Math.max(one, 0.01);
    least = Math.min(least, one);
    after();
  }
  return least;
}

// Positions as line, column, line, column: at random, and in order.
function positionsOf(lines, columns) {
  const next = numbers(), random = [];
  for (let i = 0; i < 50_000; i++) {
    const draw = next();
    random.push(draw % lines, (draw >>> 8) % columns);
  }
  const rising = Array.from({ length: 50_000 }, (_, i) => [Math.floor((i * lines) / 50_000), i % columns]);
  rising.sort((a, b) => a[0] - b[0] || a[1] - b[1]);
  return [Uint32Array.from(random), Uint32Array.from(rising.flat())];
}

function measure(name, file, lines, columns) {
  const { open, lookup, all, close = () => {} } = READERS[name]();
  const bytes = fs.readFileSync(file);
  const text = bytes.toString();
  const before = process.memoryUsage().rss;
  let map;
  const openFirst = () => lookup((map = open(text, bytes)), lines - 1, 0);
  const { took: first } = timed(openFirst);
  global.gc();
  const memory = (process.memoryUsage().rss - before) / 1e6;
  const [random, rising] = positionsOf(lines, columns);
  const look = (line, column) => lookup(map, line, column);
  for (let i = 0; i < ROUNDS; i++) round(look, random);
  const rates = [rate(look, random) / 1e6, rate(look, rising) / 1e6];
  let count = 0;
  const mappings = all ? best(() => all(map, () => count++), BUDGET) : null;
  const again = best(openFirst, WARM, () => close(map));
  return { first, again, random: rates[0], rising: rates[1], mappings, memory };
}

// ---- the parts of opening a map, in microseconds, each the least of many

function least(call) {
  const nanoseconds = () => process.hrtime.bigint();
  let found = Infinity;
  for (let i = 0; i < 3000; i++) {
    const from = nanoseconds();
    for (let k = 0; k < 10; k++) call();
    found = Math.min(found, Number(nanoseconds() - from) / 10_000);
  }
  return found;
}

function parts(file) {
  const { SourceMap } = ours('index.js');
  const bytes = fs.readFileSync(file);
  const text = bytes.toString();
  const empty = Buffer.from('{"version":3,"mappings":""}');
  const opened = bytes => new SourceMap(bytes, URL_OF_MAP);
  const withLookup = map => {
    map.lookup(0, 0);
    map.close();
  };
  return [
    ['the string made bytes, where a string is given', least(() => Buffer.from(text))],
    ['an empty map opened and closed: two calls, a handle, the URL', least(() => opened(empty).close())],
    ['the map opened and closed', least(() => opened(bytes).close())],
    ['the same with a lookup', least(() => withLookup(opened(bytes)))],
    ['the map opened, and left to the collector', least(() => opened(bytes))],
  ];
}

// ---- all of them

function makeMap(folder, [name, segments, sources, content]) {
  const file = path.join(folder, `${segments}.map`);
  fs.writeFileSync(file, mapText({ segments, sources, content, names: Math.floor(segments / 10) }));
  const map = new (ours('index.js').SourceMap)(fs.readFileSync(file), URL_OF_MAP);
  const columns = map.table().column.reduce((most, column) => Math.max(most, column), 0) + 1;
  const { lines, mappings } = map.counts;
  return { name, file, lines, columns, count: mappings };
}

// One process: what a reader takes for a map.
const measured = (name, { file, lines, columns }) =>
  answerOf(__filename, '--measure', name, file, lines, columns);

// The best of several processes.
function bestOf(all) {
  const { min, max } = Math;
  const picks = { first: min, again: min, random: max, rising: max, mappings: min, memory: min };
  const of = (key, pick) => (all[0][key] === null ? null : pick(...all.map(one => one[key])));
  return Object.entries(picks).map(([key, pick]) => of(key, pick));
}

function table(runs, maps) {
  const lines = [
    '| map | reader | open, first / again (ms) | random lookups (million/s) | rising | all mappings (ms) |' +
      ' memory (MB) |',
    '|---|---|---|---|---|---|---|',
  ];
  const names = thoseThere(READERS);
  for (const map of maps) {
    // In turn, since what else runs on the machine changes.
    const rounds = Array.from({ length: runs }, () => names.map(name => measured(name, map)));
    for (const [i, name] of names.entries()) {
      const [first, again, ...rest] = bestOf(rounds.map(round => round[i])).map(shown);
      const columns = [i ? '' : `${map.name}, ${map.count} mappings`, name, `${first} / ${again}`, ...rest];
      lines.push(`| ${columns.join(' | ')} |`);
    }
  }
  lines.push('', measuredWith());
  return lines.join('\n');
}

function tableOfParts(map) {
  const all = answerOf(__filename, '--parts', map.file);
  const lines = all.map(([part, took]) => `| ${part} | ${shown(took)} |`);
  return [`| ${map.name}, ${map.count} mappings | µs |`, '|---|---|', ...lines].join('\n');
}

// A table without the rows of its first map.
const ofLarger = text => text.replace(/(\|---.*\n)\| .*\n(?:\|  \|.*\n)*/, '$1');

function main(words) {
  if (words[0] === '--measure') {
    console.log(JSON.stringify(measure(words[1], words[2], +words[3], +words[4])));
    return;
  }
  if (words[0] === '--parts') {
    console.log(JSON.stringify(parts(words[1])));
    return;
  }
  const folder = fs.mkdtempSync(path.join(os.tmpdir(), 'smap-bench-'));
  try {
    const maps = SIZES.map(size => makeMap(folder, size));
    console.log(`${tableOfParts(maps[0])}\n`);
    const text = table(+(option('--runs') ?? 3), maps);
    console.log(text);
    putInto('figures of node.js', ofLarger(text));
  } finally {
    fs.rmSync(folder, { recursive: true });
  }
}

main(process.argv.slice(2));
