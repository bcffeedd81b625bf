'use strict';
const assert = require('node:assert');
const { test } = require('node:test');
const ours = require('smap/source-map');
const { encode } = require('./vlq.js');
const { makeMap } = require('./many-maps.js');
const { peer, needs } = require('./peers.js');
const { isQuick } = require('./quick.js');

const { SourceMapConsumer } = ours;
const map = {
  version: 3, sourceRoot: 'src', sources: ['a.js', './my b.js', 'webpack:///c d.js'], sourcesContent: ['A'],
  names: ['n'], mappings: 'AAAAA,CCAC;ECCA,A,AAAA',
};

test('the consumer', () => {
  const consumer = new SourceMapConsumer(map);
  const found = consumer.originalPositionFor({ line: 1, column: 0 });
  assert.deepEqual(found, { source: 'src/a.js', line: 1, column: 0, name: 'n' });
  assert.equal(consumer.hasContentsOfAllSources(), false);
  assert.equal(consumer.sourceContentFor('src/a.js'), 'A');
  assert.equal(consumer.sourceContentFor('a.js'), 'A');
  assert.throws(() => consumer.sourceContentFor('nothing.js'), /is not in the SourceMap/);
  assert.equal(consumer.sourceContentFor('nothing.js', true), null);
  assert.throws(() => consumer.originalPositionFor({ line: 1 }), /"column" is a required argument/);
  assert.throws(() => consumer.originalPositionFor({ line: 0, column: 0 }), /Line must be greater/);
  assert.throws(() => consumer.eachMapping(() => 0, null, 3), /Unknown order of iteration/);
  const all = [];
  consumer.eachMapping(function (m) { all.push([this.x, m.source]); }, { x: 1 });
  // The standard puts the root before each source, an absolute URL too.
  const last = 'src/webpack:///c d.js';
  assert.deepEqual(all.map(one => one[1]), ['src/a.js', 'src/my b.js', last, null, last]);
  assert.equal(all[0][0], 1);
});

test('column spans, and the end', () => {
  const consumer = new SourceMapConsumer(map);
  const needle = { source: 'a.js', line: 1, column: 0 };
  assert.deepEqual(consumer.generatedPositionFor(needle), { line: 1, column: 0, lastColumn: null });
  consumer.computeColumnSpans();
  assert.deepEqual(consumer.generatedPositionFor(needle), { line: 1, column: 0, lastColumn: 0 });
  const last = { source: 'src/my b.js', line: 1, column: 1 };
  assert.deepEqual(consumer.generatedPositionFor(last), { line: 1, column: 1, lastColumn: Infinity });
  consumer.destroy();
  assert.throws(() => new SourceMapConsumer({ ...map, mappings: '!' }), { code: 'SMAP_REFUSED' });
});

test('all positions of a line', () => {
  // 0:0 and 0:2 come from a:1:0, 0:4 from a:3:1, 1:0 from b:3:0.
  const text = { version: 3, sources: ['a', 'b'], names: [], mappings: 'AACA,EAAA,EAEC;ACAD' };
  const consumer = new SourceMapConsumer(text);
  const all = (line, column) => consumer.allGeneratedPositionsFor({ source: 'a', line, column });
  const columns = (...at) => all(...at).map(position => position.column);
  assert.deepEqual([1, 2, 3, 4, 5].map(line => columns(line)), [[0, 2], [0, 2], [4], [4], []]);
  assert.deepEqual([columns(2, 0), columns(2, 1), columns(4, 0), columns(4, 2)], [[0, 2], [], [4], []]);
});

test('flat and indexed maps', () => {
  const indexed = new SourceMapConsumer({ version: 3, sections: [{ offset: { line: 1, column: 2 }, map }] });
  assert.ok(indexed instanceof ours.IndexedSourceMapConsumer && indexed instanceof SourceMapConsumer);
  assert.ok(new SourceMapConsumer(map) instanceof ours.BasicSourceMapConsumer);
  assert.equal(indexed.originalPositionFor({ line: 2, column: 2 }).source, 'src/a.js');
  assert.equal(indexed.sourceContentFor('src/a.js'), 'A');
});

test('each of many sources is found at once, by each of its names', () => {
  const sources = Array.from({ length: 10000 }, (_, i) => `src/${i}.js`);
  const mappings = encode([sources.map((_, i) => [i, i, 0, 0])]);
  const many = { version: 3, sources, names: [], sourcesContent: sources, mappings };
  const consumer = new SourceMapConsumer(many, 'http://h/out.js.map');
  isQuick(() => sources.forEach((source, i) => {
    for (const name of [source, `./${source}`, `/${source}`, `http://h/${source}`]) {
      assert.equal(consumer.sourceContentFor(name), source);
      assert.equal(consumer.generatedPositionFor({ source: name, line: 1, column: 0 }).column, i);
      assert.equal(consumer.allGeneratedPositionsFor({ source: name, line: 1 })[0].column, i);
    }
    assert.equal(consumer.sourceContentFor(`no/${source}`, true), null);
  }));
});

test('of many mappings at one position the one with the first original is found at once', () => {
  const count = 300000;
  const segments = Array.from({ length: count }, (_, i) => [7, 0, count - i, 3]);
  const map = { version: 3, sources: ['a.js'], names: [], mappings: encode([segments]) };
  const consumer = new SourceMapConsumer(map);
  isQuick(() => {
    for (let i = 0; i < 3000; i++) assert.equal(consumer.originalPositionFor({ line: 1, column: 7 }).line, 2);
  });
});

// ---- beside source-map

const theirs = peer('source-map');
const MAPS = 400;
const URLS = [undefined, 'http://h/x/y.map'];

function both(ask) {
  let count = 0;
  for (let seed = 1; seed <= MAPS; seed++) {
    const text = makeMap(seed);
    const url = URLS[seed % URLS.length];
    const all = [ours, theirs].map(({ SourceMapConsumer }) => new SourceMapConsumer(text, url));
    const both = call => {
      const [has, wants] = all.map(call);
      assert.deepEqual(has, wants, `${call} of ${JSON.stringify(text)} at ${url}`);
      return has;
    };
    count += ask(both, ...all, text);
  }
  assert.ok(count > MAPS, `${count} answers`);
}

// The mappings that have an original, in order of these.
function originals(map) {
  const all = [];
  map.eachMapping(m => all.push({ ...m }), null, SourceMapConsumer.ORIGINAL_ORDER);
  return all;
}

// All generated positions of an original one, by the mappings that the two agree on: source-map itself goes on
// into the next source where that has the same line and column.
function allAt(all, source, line, column) {
  const isBehind = m => m.originalLine > line || (m.originalLine === line && m.originalColumn >= column);
  const behind = all.filter(m => m.source === source && isBehind(m));
  return behind.filter(m => m.originalLine === line && m.originalColumn === behind[0].originalColumn)
    .filter(() => behind[0].originalLine === line)
    .map(m => ({ line: m.generatedLine, column: m.generatedColumn, lastColumn: null }));
}

test('the sources are those of source-map', needs('source-map', theirs), () => {
  both(ask => ask(map => map.sources).length);
});

test('contents are those of source-map', needs('source-map', theirs), () => {
  both(ask => ask(map => map.sources).map(source => ask(map => map.sourceContentFor(source, true))).length);
});

// source-map doesn't find all of these.
test('by a name in the map a source is that of source-map', needs('source-map', theirs), () => {
  both((_, consumer, other, { sources }) => sources.filter(source => {
    const needle = { source, line: 9, column: 9 };
    const wants = other.generatedPositionFor(needle);
    if (wants.line === null) return false;
    assert.deepEqual(consumer.generatedPositionFor(needle), wants);
    return true;
  }).length);
});

test('lookups are those of source-map', needs('source-map', theirs), () => {
  both(ask => {
    let found = 0;
    for (let at = 0; at < 7 * 20; at++) {
      const place = { line: 1 + Math.floor(at / 20), column: at % 20 };
      for (const bias of [SourceMapConsumer.GREATEST_LOWER_BOUND, SourceMapConsumer.LEAST_UPPER_BOUND]) {
        found += ask(map => map.originalPositionFor({ ...place, bias })).source !== null;
      }
    }
    return found;
  });
});

test('the way back is that of source-map', needs('source-map', theirs), () => {
  both((ask, consumer) => {
    let found = 0;
    const sources = ask(map => map.sources);
    const all = ask(originals);
    for (let at = 0; at < sources.length * 5 * 9; at++) {
      const source = sources[Math.floor(at / 45)];
      const [line, column] = [1 + (at % 5), Math.floor(at / 5) % 9];
      found += ask(map => map.generatedPositionFor({ source, line, column })).line !== null;
      if (sources.indexOf(source) !== sources.lastIndexOf(source)) continue;
      const wants = allAt(all, source, line, column);
      found += wants.length;
      assert.deepEqual(consumer.allGeneratedPositionsFor({ source, line, column }), wants);
    }
    return found;
  });
});

test('a map that source-map writes is read', needs('source-map', theirs), () => {
  const generator = new theirs.SourceMapGenerator({ file: 'o.js' });
  const original = { line: 3, column: 4 };
  generator.addMapping({ generated: { line: 2, column: 1 }, original, source: 'x y.js', name: 'n' });
  const consumer = SourceMapConsumer.fromSourceMap(generator);
  const found = consumer.originalPositionFor({ line: 2, column: 9 });
  assert.deepEqual(found, { source: 'x y.js', ...original, name: 'n' });
  assert.equal(consumer.file, 'o.js');
});
