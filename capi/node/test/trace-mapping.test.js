'use strict';
const assert = require('node:assert');
const { test } = require('node:test');
const ours = require('smap/trace-mapping');
const { encode } = require('./vlq.js');
const { makeMap, numbers } = require('./many-maps.js');
const { peer, needs } = require('./peers.js');
const { isQuick } = require('./quick.js');

const map = {
  version: 3, sourceRoot: 'src', sources: ['a.js', './my b.js', 'webpack:///c d.js', null],
  sourcesContent: ['A'], names: ['n'], mappings: 'AAAAA,CCAC;ECCA,A,AAAA', ignoreList: [1],
};

test('sources are told as the map writes them', () => {
  const traced = new ours.TraceMap(JSON.stringify(map));
  assert.deepEqual(traced.sources, map.sources);
  assert.deepEqual(traced.resolvedSources.slice(0, 2), ['src/a.js', 'src/my b.js']);
  assert.equal(traced.resolvedSources[3], null);
  const { resolvedSources } = new ours.TraceMap(map, 'http://h/x/out.js.map');
  assert.deepEqual(resolvedSources.slice(0, 2), ['http://h/x/src/a.js', 'http://h/x/src/my%20b.js']);
});

test('positions and segments', () => {
  const traced = new ours.TraceMap(map);
  const found = ours.originalPositionFor(traced, { line: 1, column: 5 });
  assert.deepEqual(found, { source: 'src/my b.js', line: 1, column: 1, name: null });
  assert.deepEqual(ours.traceSegment(traced, 0, 0), [0, 0, 0, 0, 0]);
  assert.deepEqual(ours.traceSegment(traced, 9, 0), null);
  assert.deepEqual(ours.decodedMappings(traced)[0], [[0, 0, 0, 0, 0], [1, 1, 0, 1]]);
  const back = ours.generatedPositionFor(traced, { source: 'src/my b.js', line: 1, column: 1 });
  assert.deepEqual(back, { line: 1, column: 1 });
  assert.equal(ours.sourceContentFor(traced, 'src/a.js'), 'A');
  assert.equal(ours.isIgnored(traced, './my b.js'), true);
  assert.equal(ours.isIgnored(traced, 'a.js'), false);
  assert.throws(() => ours.originalPositionFor(traced, { line: 0, column: 0 }), /greater than 0/);
  assert.throws(() => ours.originalPositionFor(traced, { line: 1, column: -1 }), /than or equal to 0/);
});

// The library is asked for the first lookups, and a table for the others.
test('the first lookups find what the others do', () => {
  const lines = ['AAAAA,A,AACA,EAAC', '', 'A', ';CACA,CAAC,AAAC,AAACA'];
  const text = JSON.stringify({ ...map, mappings: lines.join(';') });
  const asked = [-1, 0, 1, 2, 3, 4, 1.5, NaN, Infinity, 2 ** 32];
  const later = new ours.TraceMap(text);
  ours.decodedMappings(later);
  for (const line of [0, 1, 2, 3, 4, 5, 0.5, 2 ** 32]) {
    for (const column of asked) {
      const first = new ours.TraceMap(text);
      assert.deepEqual(ours.traceSegment(first, line, column), ours.traceSegment(later, line, column));
      if (column < 0) continue;
      for (const bias of [undefined, ours.GREATEST_LOWER_BOUND, ours.LEAST_UPPER_BOUND]) {
        const at = { line: line + 1, column, bias };
        const found = ours.originalPositionFor(new ours.TraceMap(text), at);
        assert.deepEqual(found, ours.originalPositionFor(later, at), JSON.stringify(at));
      }
    }
  }
});

// Segments that have up to `most` at each position, told apart by their original lines.
function crowded(next, most) {
  let count = 0;
  let column = 0;
  const group = size => Array.from({ length: size }, () => [column, 0, count++, 0]);
  const groups = () => {
    column = 0;
    return Array.from({ length: next(6) }, () => ((column += next(3)), group(1 + next(most)))).flat();
  };
  return Array.from({ length: 1 + next(4) }, groups);
}

const tracedOf = lines =>
  new ours.TraceMap({ version: 3, sources: ['a.js'], names: [], mappings: encode(lines) });

// From a lookup with this bias on the library isn't asked, but a table.
const useTable = traced =>
  ours.originalPositionFor(traced, { line: 1, column: 0, bias: ours.LEAST_UPPER_BOUND });

test('of many mappings at one position the first is found', () => {
  const next = numbers(17);
  for (let turn = 0; turn < 60; turn++) {
    const lines = crowded(next, 1 + turn);
    const later = tracedOf(lines);
    useTable(later);
    for (const [line, segments] of lines.entries()) {
      for (let column = 0; column < 12; column++) {
        const there = segments.find(one => one[0] === column);
        const wants = there ?? segments.findLast(one => one[0] < column) ?? null;
        for (const traced of [tracedOf(lines), later]) {
          assert.deepEqual(ours.traceSegment(traced, line, column), wants);
        }
      }
    }
  }
});

test('that takes no longer than where there are few', () => {
  const traced = tracedOf([Array.from({ length: 400000 }, (_, i) => [7, 0, i, 3])]);
  const look = count => isQuick(() => {
    for (let i = 0; i < count; i++) assert.equal(ours.traceSegment(traced, 0, 7)[2], 0);
  });
  look(4000);
  useTable(traced);
  look(20000);
});

test('each of many sources is found at once', () => {
  const sources = Array.from({ length: 20000 }, (_, i) => `src/${i}.js`);
  const mappings = encode([sources.map((_, i) => [i, i, 0, 0])]);
  const many = { version: 3, sources, names: [], sourcesContent: sources, mappings };
  const traced = new ours.TraceMap(many, 'http://h/out.js.map');
  isQuick(() => sources.forEach((name, i) => {
    for (const source of [name, `http://h/${name}`]) {
      assert.equal(ours.sourceContentFor(traced, source), name);
      assert.equal(ours.generatedPositionFor(traced, { source, line: 1, column: 0 }).column, i);
    }
  }));
});

test('lists that a program has changed are told as it changed them', () => {
  const traced = new ours.TraceMap(map);
  assert.equal(ours.sourceContentFor(traced, 'a.js'), 'A');
  traced.names[0] = 'm';
  traced.resolvedSources[0] = 'z.js';
  const found = ours.originalPositionFor(traced, { line: 1, column: 0 });
  assert.deepEqual(found, { source: 'z.js', line: 1, column: 0, name: 'm' });
  assert.equal(ours.sourceContentFor(traced, 'z.js'), 'A');
  assert.equal(ours.sourceContentFor(traced, 'src/a.js'), null);
});

test('mappings may be segments, and the map a map that was read', () => {
  const traced = new ours.TraceMap(map);
  assert.equal(new ours.TraceMap(traced), traced);
  assert.equal(ours.encodedMappings(traced), map.mappings);
  const decoded = new ours.TraceMap({ ...map, mappings: ours.decodedMappings(traced) });
  assert.deepEqual(ours.decodedMappings(decoded), ours.decodedMappings(traced));
  assert.equal(ours.encodedMap(decoded).mappings, map.mappings);
  const lines = [[[1], [2, 0, 0, 0]], [], []];
  assert.deepEqual(ours.decodedMappings(new ours.TraceMap({ ...map, mappings: lines })), lines);
  const turned = [lines[0].slice().reverse()];
  assert.deepEqual(ours.decodedMappings(new ours.TraceMap({ ...map, mappings: turned })), [lines[0]]);
  assert.deepEqual(ours.decodedMap(traced).sources, map.sources);
});

test('a map with sections', () => {
  const inner = { version: 3, sources: ['b'], names: ['n'], mappings: 'AAAAA' };
  const sections = [{ offset: { line: 0, column: 0 }, map }, { offset: { line: 2, column: 3 }, map: inner }];
  const any = ours.AnyMap({ version: 3, sections });
  // The word is looked for in the text, which may have a line before the map, with anything in it.
  for (const before of ['', ")]}'\n", ")]}'\0\n"]) {
    const { sources, sourceRoot } = new ours.TraceMap(before + JSON.stringify({ version: 3, sections }));
    assert.deepEqual([sources, sourceRoot], [any.resolvedSources, undefined]);
  }
  const { sources } = new ours.TraceMap({ ...map, names: ['"sections"'] });
  assert.deepEqual(sources, map.sources);
  assert.deepEqual(any.names, ['n', 'n']);
  assert.deepEqual(ours.traceSegment(any, 2, 3), [3, 4, 0, 0, 1]);
  assert.deepEqual(ours.decodedMappings(any).at(-1), [[3, 4, 0, 0, 1]]);
  const flat = new ours.TraceMap({ ...map, sources: any.sources, names: any.names, sourceRoot: undefined,
    sourcesContent: undefined, mappings: ours.encodedMappings(any) });
  assert.deepEqual(ours.decodedMappings(flat), ours.decodedMappings(any));
});

test('what the reader refuses is thrown when the map is opened', () => {
  const changes = [[{ version: '3' }, 'Version'], [{ names: [1] }, 'Names'], [{ mappings: 'A,' }, 'Empty']];
  for (const [change, kind] of changes) {
    assert.throws(() => new ours.TraceMap({ ...map, ...change }), { code: 'SMAP_REFUSED', kind });
  }
});

// ---- beside trace-mapping

const theirs = peer('@jridgewell/trace-mapping');
const MAPS = 400;
const BIASES = [undefined, ours.GREATEST_LOWER_BOUND, ours.LEAST_UPPER_BOUND];
const URLS = [undefined, 'http://h/x/y.map', 'out/y.map'];

// Each question to both, about maps that are made at random.
function both(ask) {
  let count = 0;
  for (let seed = 1; seed <= MAPS; seed++) {
    const text = makeMap(seed);
    const url = URLS[seed % URLS.length];
    const [one, other] = [[ours, new ours.TraceMap(text, url)], [theirs, new theirs.TraceMap(text, url)]];
    count += ask(call => {
      const has = call(...one);
      assert.deepEqual(has, call(...other), `${call} of ${JSON.stringify(text)} at ${url}`);
      return has;
    });
  }
  assert.ok(count > MAPS, `${count} answers`);
}

test('the mappings are those of trace-mapping', needs('@jridgewell/trace-mapping', theirs), () => {
  both(ask => {
    ask((_, map) => [map.sources, map.names, map.file, map.sourceRoot, map.version]);
    // No contents are as good as none of them, and empty lines at the end as none.
    ask((_, map) => (map.sourcesContent?.some(content => content !== null) ? map.sourcesContent : null));
    ask((T, map) => T.encodedMappings(map).replace(/;+$/, ''));
    const all = ask((T, map) => {
      const all = [];
      T.eachMapping(map, m => all.push({ ...m }));
      return all;
    });
    return all.length;
  });
});

test('sources are told as by trace-mapping', needs('@jridgewell/trace-mapping', theirs), () => {
  both(ask => ask((_, map) => map.resolvedSources).length);
});

test('lookups are those of trace-mapping', needs('@jridgewell/trace-mapping', theirs), () => {
  both(ask => {
    let found = 0;
    for (let at = 0; at < 7 * 20; at++) {
      const [line, column] = [Math.floor(at / 20), at % 20];
      ask((T, map) => T.traceSegment(map, line, column));
      const needles = BIASES.map(bias => ({ line: line + 1, column, bias }));
      const told = needles.map(needle => ask((T, map) => T.originalPositionFor(map, needle)));
      found += told.filter(one => one.source !== null).length;
    }
    return found;
  });
});

test('the way back is that of trace-mapping', needs('@jridgewell/trace-mapping', theirs), () => {
  both(ask => {
    let found = 0;
    const sources = ask((_, map) => map.resolvedSources);
    for (let at = 0; at < sources.length * 5 * 9; at++) {
      const source = sources[Math.floor(at / 45)];
      const needle = { source, line: 1 + (at % 5), column: Math.floor(at / 5) % 9 };
      for (const bias of BIASES) {
        ask((T, map) => T.generatedPositionFor(map, { ...needle, bias }));
        found += ask((T, map) => T.allGeneratedPositionsFor(map, { ...needle, bias })).length;
      }
    }
    return found;
  });
});
