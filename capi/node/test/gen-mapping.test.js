'use strict';
const assert = require('node:assert');
const { test } = require('node:test');
const ours = require('smap/gen-mapping');
const { numbers } = require('./many-maps.js');
const { peer, needs } = require('./peers.js');
const { isQuick } = require('./quick.js');

const theirs = peer('@jridgewell/gen-mapping');
const is = needs('@jridgewell/gen-mapping', theirs);

// What a map comes to that these calls make.
function told(package_, ...calls) {
  const map = new package_.GenMapping();
  for (const [name, ...args] of calls) package_[name](map, ...args);
  const { mappings, sources, names } = package_.toEncodedMap(map);
  return [mappings, sources, names];
}

// What the manual says to differ: calls, and the mappings, sources and names here and there.
const CASES = {
  'an empty source': [[['addSegment', 0, 0, '', 0, 0]], ['AAAA', [''], []], ['A', [], []]],
  'an empty name': [[['addSegment', 0, 0, 'a', 0, 0, '']], ['AAAAA', ['a'], ['']], ['AAAA', ['a'], []]],
};

for (const [name, [calls, here]] of Object.entries(CASES)) {
  test(`what differs: ${name}`, () => assert.deepStrictEqual(told(ours, ...calls), here));
}

// Calls with a number that no map has, what is said of it, and the mappings there; null where it throws.
const NUMBERS = [
  ['addSegment', [0, -1], /^genColumn must be a whole number from 0 to 2147483647, not -1$/, 'D'],
  ['addSegment', [0, 1.5], /^genColumn must .*, not 1.5$/, 'C'],
  ['addSegment', [0, NaN], /^genColumn must .*, not NaN$/, 'A'],
  ['addSegment', [0, 2 ** 31], /^genColumn must .*, not 2147483648$/, 'A'],
  ['addSegment', [0, '1'], /^genColumn must .*, not string$/, 'C'],
  ['addSegment', [-1, 0], /^genLine must be a whole number from 0 to 16777215, not -1$/, null],
  ['maybeAddSegment', [0, 0, 'a', -1, 0], /^sourceLine must .*, not -1$/, 'AADA'],
  ['addSegment', [0, 0, 'a', 0, undefined], /^sourceColumn must .*, not undefined$/, 'AAAA'],
  ['addMapping', [{ generated: { line: 0, column: 0 } }],
    /^generated.line must be a whole number from 1 to 16777216, not 0$/, null],
  ['maybeAddMapping', [{ generated: { line: 1, column: -1 } }], /^generated.column must .*, not -1$/, ''],
  ['addMapping', [{ generated: { line: 1, column: 0 }, source: 'a', original: { line: 0, column: 0 } }],
    /^original.line must be a whole number from 1 to 2147483648, not 0$/, 'AADA'],
  ['addMapping', [{ generated: { line: 1, column: 0 }, source: 'a', original: { line: 1, column: 1e999 } }],
    /^original.column must .*, not Infinity$/, 'AAAA'],
];

test('numbers that no map has are refused by name, and nothing is added', () => {
  for (const [call, args, message] of NUMBERS) {
    const map = new ours.GenMapping();
    assert.throws(() => ours[call](map, ...args), { name: 'RangeError', message });
    assert.deepStrictEqual(ours.toEncodedMap(map), ours.toEncodedMap(new ours.GenMapping()));
  }
});

test('the other package has what the manual says', is, () => {
  for (const [name, [calls, , there]] of Object.entries(CASES)) {
    assert.deepStrictEqual(told(theirs, ...calls), there, name);
  }
  for (const [call, args, message, there] of NUMBERS) {
    if (there === null) assert.throws(() => told(theirs, [call, ...args]), TypeError);
    else assert.equal(told(theirs, [call, ...args])[0], there, message);
  }
});

// ---- the same calls at random

const NAMES = ['a.js', 'b.js', '__proto__', '1'];

// A mapping of a small map, which may be anywhere in it: lines count from `first`.
function randomMapping(next, first) {
  const generated = { line: first + next(3), column: next(9) };
  if (next(4) === 0) return { generated, source: next(2) ? null : undefined };
  const original = { line: first + next(3), column: next(3) };
  const name = [undefined, null, 'n', 'toString'][next(4)];
  const content = [undefined, null, 'text'][next(3)];
  return { generated, source: NAMES[next(NAMES.length)], original, name, content };
}

function randomCall(next) {
  const maybe = next(2) ? 'maybeAdd' : 'add';
  const text = next(3) ? `text ${next(9)}` : null;
  if (next(9) === 0) return ['setSourceContent', NAMES[next(NAMES.length)], text];
  if (next(2)) return [`${maybe}Mapping`, randomMapping(next, 1)];
  const { generated: { line, column }, source, original, name, content } = randomMapping(next, 0);
  return [`${maybe}Segment`, line, column, source, original?.line, original?.column, name, content];
}



test('the same calls make the same map', is, () => {
  for (let seed = 1; seed <= 400; seed++) {
    const next = numbers(seed);
    const file = [undefined, null, '', 'f.js'][next(4)];
    const options = { file, sourceRoot: [undefined, '', 'src'][next(3)] };
    let [one, other] = [ours, theirs].map(({ GenMapping }) => new GenMapping(options));
    for (let turn = next(60); turn >= 0; turn--) {
      const [name, ...args] = randomCall(next);
      ours[name](one, ...args);
      theirs[name](other, ...args);
      // A map without sources has no root when it is read.
      if (next(30) === 0 && ours.toEncodedMap(one).sources.length > 0) {
        [one, other] = [ours.fromMap(ours.toEncodedMap(one)), theirs.fromMap(theirs.toDecodedMap(other))];
      }
    }
    assert.deepStrictEqual(ours.toDecodedMap(one), theirs.toDecodedMap(other), `seed ${seed}`);
    assert.equal(JSON.stringify(ours.toEncodedMap(one)), JSON.stringify(theirs.toEncodedMap(other)));
    assert.deepStrictEqual(ours.allMappings(one), theirs.allMappings(other));
  }
});

test('so do many on a line, in any order', is, () => {
  for (let seed = 1; seed <= 3; seed++) {
    const next = numbers(seed);
    const [one, other] = [ours, theirs].map(({ GenMapping }) => new GenMapping());
    for (let i = 0; i < 4000; i++) {
      const original = next(3) ? ['a', next(2), 0] : [];
      const call = next(3) ? 'maybeAddSegment' : 'addSegment';
      const column = next(seed * 1000);
      ours[call](one, 0, column, ...original);
      theirs[call](other, 0, column, ...original);
    }
    assert.deepStrictEqual(ours.toDecodedMap(one), theirs.toDecodedMap(other));
  }
});

// ---- what the other package has only in later versions, or loses

test('sources that are ignored', () => {
  const map = new ours.GenMapping();
  ours.addSegment(map, 0, 0, 'a.js', 0, 0);
  ours.setIgnore(map, 'b.js');
  ours.setIgnore(map, 'a.js', true);
  assert.deepStrictEqual(ours.toEncodedMap(map).ignoreList, [1, 0]);
  ours.setIgnore(map, 'a.js', false);
  const { ignoreList, sources, sourcesContent } = ours.toDecodedMap(map);
  assert.deepStrictEqual([ignoreList, sources, sourcesContent], [[1], ['a.js', 'b.js'], [null, null]]);
  assert.deepStrictEqual(ours.toEncodedMap(ours.fromMap(ours.toEncodedMap(map))), ours.toEncodedMap(map));
  ours.setIgnore(map, 'b.js', false);
  assert.ok(!('ignoreList' in ours.toEncodedMap(map)));
});

test('a map that lists a source or a name twice keeps its mappings', () => {
  const map = { version: 3, sources: ['a', 'a', null], names: ['n', 'n'], mappings: 'ACAAC,CCAAD' };
  const made = ours.fromMap(map);
  const { mappings, sources, names } = ours.toEncodedMap(made);
  assert.deepStrictEqual({ version: 3, sources, names, mappings }, map);
  ours.addSegment(made, 0, 2, 'a', 0, 0, 'n');
  assert.equal(ours.toEncodedMap(made).mappings, 'ACAAC,CCAAD,CFAAA');
});

test('the other package takes another source', is, () => {
  const map = { version: 3, sources: ['a', 'a', 'b'], names: [], mappings: 'ACAA' };
  const { mappings, sources } = theirs.toEncodedMap(theirs.fromMap(map));
  assert.deepStrictEqual([mappings, sources], ['ACAA', ['a', 'b']]);
});

test('lists that were told stay as they were', () => {
  const map = new ours.GenMapping();
  const before = ours.toDecodedMap(map);
  ours.addSegment(map, 0, 0, 'a', 0, 0, 'n');
  assert.deepStrictEqual([before.sources, before.names, before.mappings], [[], [], []]);
});

test('many mappings in falling columns of a line are made at once', () => {
  for (const call of [ours.addSegment, ours.maybeAddSegment]) {
    const map = new ours.GenMapping();
    isQuick(() => {
      for (let column = 200000; column > 0; column--) call(map, 0, column, 'a', column, 0);
    });
    assert.deepStrictEqual(ours.toDecodedMap(map).mappings[0].length, 200000);
  }
});
