'use strict';
// The SourceMapGenerator and the SourceNode of smap/source-map.
const assert = require('node:assert');
const { test } = require('node:test');
const ours = require('smap/source-map');
const { join, relative } = require('../paths.js');
const { numbers } = require('./many-maps.js');
const { peer, needs } = require('./peers.js');
const { isQuick } = require('./quick.js');

const theirs = peer('source-map');
const is = needs('source-map', theirs);

const at = (line, column) => ({ line, column });

// What a generator writes that got these mappings.
function told({ SourceMapGenerator }, mappings, options) {
  const generator = new SourceMapGenerator(options);
  for (const mapping of mappings) generator.addMapping(mapping);
  return generator.toJSON();
}

// ---- what differs

// Mappings with a number that no map has, what is said of it, and the mappings there; null where it throws.
const original = { source: 'a', original: at(1, 0) };
const NUMBERS = [
  [{ generated: at(1, 1.5) }, /^generated.column must be a whole number from 0 to 2147483647, not 1.5$/, 'C'],
  [{ generated: at(1, 2 ** 31) }, /^generated.column must .*, not 2147483648$/, 'A'],
  [{ generated: at(1, '1') }, /^generated.column must .*, not string$/, 'C'],
  [{ generated: at(1, NaN) }, /^generated.column must .*, not NaN$/, null],
  [{ generated: at(1, -1) }, /^generated.column must .*, not -1$/, null],
  [{ generated: at(0, 0) }, /^generated.line must be a whole number from 1 to 16777216, not 0$/, null],
  [{ ...original, generated: at(1, 0), original: at(1.5, 0) }, /^original.line must .*, not 1.5$/, 'AAAA'],
  [{ ...original, generated: at(1, 0), original: at(1, 0.5) }, /^original.column must .*, not 0.5$/, 'AAAA'],
];

test('numbers that no map has are refused by name, and nothing is added', () => {
  for (const skipValidation of [false, true]) {
    for (const [mapping, message] of NUMBERS) {
      const generator = new ours.SourceMapGenerator({ skipValidation });
      assert.throws(() => generator.addMapping(mapping), { name: 'RangeError', message });
      assert.deepEqual(generator.toJSON(), told(ours, []));
    }
  }
});

const SEVERAL = [
  { generated: at(2, 0) }, { generated: at(1, 0), source: 'b', original: at(1, 0) },
  { generated: at(1, 0), ...original },
];
const ONE_NUMBER = { version: 3, sources: ['a'], names: [], mappings: 'AAAA,C' };
const EMPTY = { generated: at(1, 0), source: '', original: at(1, 0) };

test('mappings at one position stay in the order in which they were added', () => {
  assert.equal(told(ours, SEVERAL).mappings, 'AAAA,ACAA;A');
});

test('a mapping without an original is taken from a map', () => {
  const made = ours.SourceMapGenerator.fromSourceMap(new ours.SourceMapConsumer(ONE_NUMBER));
  assert.equal(made.toJSON().mappings, 'AAAA,C');
});

test('a source may be empty', () => {
  assert.deepEqual(told(ours, [EMPTY]), { version: 3, sources: [''], names: [], mappings: 'AAAA' });
});

// A source in a folder that is called like the root.
const BELOW = {
  version: 3, sourceRoot: 'src', sources: ['src/a'], sourcesContent: ['A'], names: [], mappings: 'AAAA',
};

test('a content is taken from a map', () => {
  const made = ours.SourceMapGenerator.fromSourceMap(new ours.SourceMapConsumer(BELOW));
  assert.deepEqual(made.toJSON(), BELOW);
  const outer = new ours.SourceMapGenerator({ sourceRoot: 'src' });
  outer.addMapping({ generated: at(1, 0), source: 'b', original: at(1, 0) });
  outer.applySourceMap(new ours.SourceMapConsumer(BELOW), 'b');
  assert.deepEqual(outer.toJSON(), BELOW);
});

test('code that ends before its map does', () => {
  const consumer = new ours.SourceMapConsumer({ ...ONE_NUMBER, mappings: 'AAAA;;A' });
  assert.equal(String(ours.SourceNode.fromStringWithSourceMap('f', consumer)), 'f');
});

test('the right end of nothing', () => {
  assert.equal(String(new ours.SourceNode().replaceRight(/^/, 'f')), 'f');
});

test('the other package has what the manual says', is, () => {
  for (const [mapping, message, mappings] of NUMBERS) {
    if (mappings === null) assert.throws(() => told(theirs, [mapping]), /^Error: Invalid mapping/);
    else assert.equal(told(theirs, [mapping]).mappings, mappings, message);
  }
  assert.equal(told(theirs, SEVERAL).mappings, 'ACAA,ADAA;A');
  const { SourceMapConsumer, SourceMapGenerator, SourceNode } = theirs;
  assert.throws(() => SourceMapGenerator.fromSourceMap(new SourceMapConsumer(ONE_NUMBER)), /are not numbers/);
  assert.throws(() => told(theirs, [EMPTY]), /Invalid mapping/);
  const made = SourceMapGenerator.fromSourceMap(new SourceMapConsumer(BELOW));
  assert.deepEqual(made.toJSON().sourcesContent, [null]);
  const consumer = new SourceMapConsumer({ ...ONE_NUMBER, mappings: 'AAAA;;A' });
  assert.equal(String(SourceNode.fromStringWithSourceMap('f', consumer)), 'fundefined');
  assert.throws(() => new SourceNode().replaceRight(/^/, 'f'), TypeError);
});

// ---- what is refused

test('mappings with parts that are missing', () => {
  const generator = new ours.SourceMapGenerator();
  const generated = at(1, 0);
  const rows = [[{}, /"generated" is a required argument/], [{ generated: null }, /Invalid mapping/],
    [{ generated: { line: 1 } }, /Invalid mapping/], [{ generated, original: at(1, 0) }, /Invalid mapping/],
    [{ generated, source: 'a' }, /Invalid mapping/], [{ generated, name: 'n' }, /Invalid mapping/],
    [{ generated, source: 'a', original: {} }, /^Error: original.line and original.column are not numbers/]];
  for (const [mapping, message] of rows) assert.throws(() => generator.addMapping(mapping), message);
  const consumer = new ours.SourceMapConsumer(ONE_NUMBER);
  assert.throws(() => generator.applySourceMap(consumer), /the name of a source, or a map with a file/);
});

// ---- the same calls at random

const NAMES = ['a.js', 'b.js', 'lib/c.js', '../d.js', '__proto__', 'http://h/e.js', '/f.js'];
const ROOTS = [undefined, null, '', 'src', '/root/', 'http://h/x'];

function randomMapping(next) {
  const generated = at(1 + next(3), next(9));
  if (next(4) === 0) return { generated };
  const name = [undefined, null, 'n', '', 8][next(5)];
  return { generated, source: NAMES[next(NAMES.length)], original: at(1 + next(3), next(3)), name };
}

// Mappings of which none is at the position of another one, in order or not, and some of them twice.
function randomMappings(next) {
  const key = ({ generated: { line, column } }) => 16 * line + column;
  const all = Array.from({ length: next(30) }, () => randomMapping(next));
  const alone = [...new Map(all.map(mapping => [key(mapping), mapping])).values()];
  if (next(2)) alone.sort((one, other) => key(one) - key(other));
  else alone.push(...alone.slice(next(30)));
  return alone.flatMap(mapping => (next(3) ? [mapping] : [mapping, mapping]));
}

function randomGenerator({ SourceMapGenerator }, next) {
  const options = { file: [undefined, null, 'f.js'][next(3)], sourceRoot: ROOTS[next(ROOTS.length)] };
  const generator = new SourceMapGenerator(next(9) ? options : undefined);
  for (const mapping of randomMappings(next)) generator.addMapping(mapping);
  for (let turn = next(5); turn > 0; turn--) {
    generator.setSourceContent(NAMES[next(NAMES.length)], next(3) ? `text ${next(9)}` : null);
  }
  return generator;
}

// A consumer of a map, the same one for both packages: that of source-map, where mappings have originals.
const consumerOf = generator => new theirs.SourceMapConsumer(generator.toJSON());
const isWhole = generator => !/(^|[;,])[^;,](?=$|[;,])/.test(generator.toJSON().mappings);

const FOLDERS = [undefined, null, '', '.', './', 'out', '../maps', 'http://h/y'];

test('the same calls make the same map', is, () => {
  for (let seed = 1; seed <= 400; seed++) {
    const made = () => [ours, theirs].map(package_ => randomGenerator(package_, numbers(seed)));
    const [one, other] = made();
    assert.equal(String(one), String(other), `seed ${seed}`);
    const next = numbers(seed + 1000);
    const inner = consumerOf(randomGenerator(theirs, next));
    const given = [NAMES[next(NAMES.length)], FOLDERS[next(FOLDERS.length)]];
    const applied = made();
    for (const generator of applied) generator.applySourceMap(inner, ...given);
    assert.equal(String(applied[0]), String(applied[1]), `seed ${seed}, applied`);
    if (!isWhole(other)) continue;
    const [again, there] = [ours, theirs].map(package_ =>
      package_.SourceMapGenerator.fromSourceMap(consumerOf(other)));
    assert.equal(String(again), String(there), `seed ${seed}, again`);
  }
});

// ---- nodes

const PIECES = ['f', '', '\n', 'a\nb', 'x\r\n', '\n\ny', ' = ', '1;'];

function randomNode({ SourceNode }, next, deep) {
  const where = next(3) ? [1 + next(3), next(3), NAMES[next(2)]] : [null, null, null];
  const pieces = () => Array.from({ length: next(4) }, () => PIECES[next(PIECES.length)]);
  const node = new SourceNode(...where, pieces(), next(3) ? null : 'n');
  for (let turn = next(4); turn > 0; turn--) {
    const child = deep && next(2) ? randomNode({ SourceNode }, next, deep - 1) : pieces();
    if (next(3)) node.add(child);
    else node.prepend(child);
  }
  if (next(9) === 0) node.join(',');
  if (next(9) === 0 && typeof node.children.at(-1) === 'string') node.replaceRight(/\W/, '');
  if (next(3) === 0) node.setSourceContent(NAMES[next(4)], `text ${next(9)}`);
  return node;
}

// What a node tells of its pieces and contents.
function walked(node) {
  const pieces = [];
  node.walk((code, { source, line, column, name }) => pieces.push([code, source, line, column, name]));
  const contents = [];
  node.walkSourceContents((source, content) => contents.push([source, content]));
  return [pieces, contents];
}

test('the same calls make the same nodes', is, () => {
  for (let seed = 1; seed <= 400; seed++) {
    const [one, other] = [ours, theirs].map(package_ => randomNode(package_, numbers(seed), 3));
    assert.deepEqual(walked(one), walked(other), `seed ${seed}`);
    assert.equal(String(one), String(other));
    const [here, there] = [one, other].map(node => node.toStringWithSourceMap({ file: 'f.js' }));
    assert.equal(here.code, there.code);
    assert.equal(String(here.map), String(there.map), `seed ${seed}`);
    const folder = FOLDERS[numbers(seed)(FOLDERS.length)];
    const [again, same] = [ours, theirs].map(({ SourceNode }) =>
      SourceNode.fromStringWithSourceMap(there.code, consumerOf(there.map), folder));
    assert.equal(String(again), there.code);
    const maps = [again, same].map(node => String(node.toStringWithSourceMap().map));
    assert.equal(maps[0], maps[1], `seed ${seed}`);
  }
});

// ---- paths

const util = peer('source-map/lib/util');
const PARTS = ['', '.', '..', '/', '//', 'a', 'b.js', 'http:', 'http://', 'h', 'data:x,y', 'http://u:p@h',
  'http://h:80', '?', 'é'];

test('paths are put together as by source-map', needs('source-map/lib/util', util), () => {
  for (let seed = 1; seed <= 20000; seed++) {
    const next = numbers(seed);
    const parts = () => Array.from({ length: next(6) }, () => PARTS[next(PARTS.length)]);
    const path = () => parts().join(next(3) ? '/' : '');
    const [one, other] = [path(), path()];
    assert.equal(join(one, other), util.join(one, other), JSON.stringify([one, other]));
    assert.equal(relative(one, other), util.relative(one, other), JSON.stringify([one, other]));
  }
});

test('a million mappings are made at once', () => {
  const generator = new ours.SourceMapGenerator();
  isQuick(() => {
    for (let i = 0; i < 1e6; i++) {
      const generated = at(1 + (i >> 5), i & 31);
      generator.addMapping({ generated, source: 'a', original: at(1 + i, 0), name: 'n' });
    }
  }, 10);
});
