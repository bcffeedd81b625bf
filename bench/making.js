'use strict';
// Times making and composing maps by the package for Node, and by others.
//
//     capi/node/build.sh capi/out && tools/build-wasm
//     NODE_PATH=/usr/share/nodejs node bench/making.js [--runs N] [--into docs/PERFORMANCE.md]
//
// The package is timed over its addon, and over WebAssembly. The others are @jridgewell/gen-mapping,
// source-map and @ampproject/remapping, where NODE_PATH has them, and the program crates/smap/out/smap, or
// the one that SMAP names. What isn't there is left out. Each figure is processor time, the best of N fresh
// processes, 3 unless given: from the first mapping or the texts of the maps to the text that is made, or of
// the program's whole run. Below the table is how much time passes in the program, from its start to its end,
// and in the package that it is compared with. It fails where answers differ. With --into this is put between
// the two lines of that file that hold `figures of making.js`. Let nothing else run meanwhile.
const crypto = require('node:crypto');
const fs = require('node:fs');
const { SourceMap } = require('node:module');
const path = require('node:path');
const { spawnSync } = require('node:child_process');
const {
  TOP, addon, wasm, thoseThere, mapText, numbers, timed, answerOf, shown, measuredWith, option, putInto,
} = require('./figures.js');

const PROGRAM = path.resolve(process.env.SMAP ?? path.join(TOP, 'crates/smap/out/smap'));
const list = (count, itemAt) => Array.from({ length: count }, (_, i) => itemAt(i));

// ---- making: of eight mappings one has no original, and three have a name

const SOURCES = list(100, i => `src/module${i}.ts`), NAMES = list(1000, i => `identifier${i}`);

const inOrder = count => [count, i => ({ line: 1 + Math.floor(i / 40), column: 10 * (i % 40) })];
const falling = count => [count, i => ({ line: 1, column: 10 * (count - i) })];

function eachMapping([count, positionOf], call) {
  const next = numbers();
  for (let i = 0; i < count; i++) {
    const draw = next(), kind = draw >>> 29, generated = positionOf(i);
    const original = { line: 1 + ((i >>> 3) % 2000), column: (draw >>> 20) % 80 };
    const source = SOURCES[(draw >>> 8) % SOURCES.length];
    const name = kind > 4 ? NAMES[(draw >>> 12) % NAMES.length] : null;
    call(kind ? { generated, original, source, name } : { generated });
  }
}

const genMapping = ({ GenMapping, addMapping, toEncodedMap }) => mappings => timed(() => {
  const map = new GenMapping();
  eachMapping(mappings, mapping => addMapping(map, mapping));
  return toEncodedMap(map).mappings;
});

const generator = ({ SourceMapGenerator }) => mappings => timed(() => {
  const map = new SourceMapGenerator();
  eachMapping(mappings, mapping => map.addMapping(mapping));
  return map.toJSON().mappings;
});

const MAKERS = {
  '`smap/gen-mapping`': () => genMapping(addon('gen-mapping.js')),
  '`smap/gen-mapping`, as WebAssembly': () => genMapping(wasm('gen-mapping.js')),
  '`@jridgewell/gen-mapping`': () => genMapping(require('@jridgewell/gen-mapping')),
  '`smap/source-map`': () => generator(addon('source-map.js')),
  '`source-map`': () => generator(require('source-map')),
};

const digest = text => [crypto.createHash('sha256').update(text).digest('hex')];

// ---- composing: a bundle's map with those of its modules, which have one text and lead to files beside them

function chain(count) {
  const outer = mapText({ segments: count, sources: 40, names: 1000, content: 0 });
  const inner = mapText({ segments: 5125, sources: 1, names: 500, content: 0, 'segments-in-a-line': 3 })
    .replace('../src/part0/module0.ts', 'original.ts');
  return { outer, maps: new Map(JSON.parse(outer).sources.map(name => [name, inner])) };
}

const remaps = remap => ({ outer, maps }) => timed(() => String(remap(outer, name => maps.get(name))));

// Node doesn't tell the processor time of another process that has ended.
function program() {
  fs.accessSync(PROGRAM, fs.constants.X_OK);
  const command = 'LC_ALL=C TIMEFORMAT="%R %U %S"; time "$0" compose --relative --thin --used';
  const entry = (url, map) => `map ${url} ${url}.map ${Buffer.byteLength(map)}\n${map}\n`;
  return ({ outer, maps }) => {
    const script = 'http://h/m/out.js';
    const others = Array.from(maps, ([name, map]) => entry(new URL(name, script).href, map));
    const input = [entry(script, outer), ...others, 'end\n'].join('');
    const ran = spawnSync('bash', ['-c', command, PROGRAM], { input, encoding: 'utf8', maxBuffer: 2 ** 30 });
    if (ran.status !== 0) throw new Error(`${PROGRAM}: ${ran.stdout}${ran.stderr}`);
    const [passed, user, system] = ran.stderr.split(' ').map(seconds => 1000 * seconds);
    return { took: user + system, passed, answer: ran.stdout };
  };
}

const COMPOSE = '`smap compose --thin --used`', REMAPPING = '`@ampproject/remapping`';
const COMPOSERS = {
  '`smap/remapping`': () => remaps(addon('remapping.js')),
  '`smap/remapping`, as WebAssembly': () => remaps(wasm('remapping.js')),
  [REMAPPING]: () => remaps(require('@ampproject/remapping')),
  [COMPOSE]: program,
};

// Where some positions lead, by Node's own reader.
function originals(text) {
  const map = new SourceMap(JSON.parse(text));
  return list(20, i => {
    const { originalSource, originalLine, originalColumn } = map.findEntry(137 * i, 17 * i);
    return originalSource === undefined ? null : `${originalSource}:${originalLine}:${originalColumn}`;
  });
}

// ---- all of them: by which, of which sizes and inputs, and what of an answer has to be the same

const WORKS = [
  ['making 1,000,000 mappings in order', MAKERS, [1_000_000], inOrder, digest],
  ['10,000 / 20,000 / 40,000 on one line, from its end', MAKERS, [10_000, 20_000, 40_000], falling, digest],
  ['composing a map of 111,000 with 40 of 205,000 together', COMPOSERS, [111_000], chain, originals],
];

// In a process of its own.
function measure(work, name, size) {
  const [, by, , input, told] = WORKS[work];
  const { answer, ...times } = by[name]()(input(size));
  return { ...times, told: told(answer) };
}

const areAlike = (one, other) => one.every((at, i) => at === null || other[i] === null || at === other[i]);

// The least times of each. In turn, since what else runs on the machine changes.
function leastOf(work, names, size, runs) {
  const rounds = list(runs, () => names.map(name => answerOf(__filename, '--measure', work, name, size)));
  return names.map((name, i) => {
    if (!areAlike(rounds[0][0].told, rounds[0][i].told)) throw new Error(`${name} and ${names[0]} differ`);
    const least = time => Math.min(...rounds.map(round => round[i][time]));
    return { took: least('took'), passed: least('passed') };
  });
}

// How much time passes in the program and in the other package, of the figures of those that compose.
function besides(figures, names) {
  const [own, other] = [COMPOSE, REMAPPING].map(name => figures[names.indexOf(name)]?.passed);
  if (!own || !other) return [];
  const share = shown(own / other);
  return ['', `In ${COMPOSE} ${shown(own)} ms pass, in ${REMAPPING} ${shown(other)}: ${share} times as many.`];
}

function table(runs) {
  const lines = ['| what | by | ms |', '|---|---|---|'], notes = [];
  const there = thoseThere({ ...MAKERS, ...COMPOSERS });
  for (const [work, [what, by, sizes]] of WORKS.entries()) {
    const names = there.filter(name => name in by);
    const figures = sizes.map(size => leastOf(work, names, size, runs));
    names.forEach((name, i) => {
      lines.push(`| ${i ? '' : what} | ${name} | ${figures.map(all => shown(all[i].took)).join(' / ')} |`);
    });
    notes.push(...besides(figures[0], names));
  }
  return [...lines, ...notes, '', measuredWith()].join('\n');
}

function main([word, work, name, size]) {
  if (word === '--measure') return console.log(JSON.stringify(measure(work, name, +size)));
  const text = table(+(option('--runs') ?? 3));
  console.log(text);
  putInto('figures of making.js', text);
}

main(process.argv.slice(2));
