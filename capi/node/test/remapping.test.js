'use strict';
const assert = require('node:assert');
const { test } = require('node:test');
const remapping = require('smap/remapping');
const { SmapError } = require('smap');

const loadPeer = () => {
  try {
    return require('@ampproject/remapping');
  } catch {
    return null;
  }
};
const peer = loadPeer();
const is = { skip: peer ? false : 'no package @ampproject/remapping here' };

const map = (sources, mappings, more = {}) => ({ version: 3, sources, names: [], mappings, ...more });
const byName = maps => file => maps[file];
const told = made => [made.mappings, made.sources];

// What the manual says to differ: a map, those of its sources, and the mappings and sources here and there.
const CASES = {
  'code without an original': [map(['m.js'], 'AAAA,IACA'), { 'm.js': map(['a.ts'], 'AAAA') },
    ['AAAA,I', ['a.ts']], ['AAAA', ['a.ts']]],
  'several at one position': [map(['m.js'], 'AAAA'), { 'm.js': map(['a.ts'], 'AAAA,AAOC') },
    ['AAOC', ['a.ts']], ['AAAA', ['a.ts']]],
  'the name alone': [map(['a.ts'], 'AAAAA,CAAAC', { names: ['f', 'g'] }), {},
    ['AAAAA,CAAAC', ['a.ts']], ['AAAAA', ['a.ts']]],
  'an empty name': [map(['a.ts'], 'AAAAA', { names: [''] }), {}, ['AAAAA', ['a.ts']], ['AAAA', ['a.ts']]],
  'a null source': [map([null], 'AAAA'), {}, ['AAAA', [null]], ['A', []]],
  'other contents': [map(['m.js', 'n.js'], 'AAAA,CCAA'), {
    'm.js': map(['a.ts'], 'AAAA', { sourcesContent: ['A'] }),
    'n.js': map(['a.ts'], 'AAAA', { sourcesContent: ['B'] }),
  }, ['AAAA,CCAA', ['a.ts', 'a.ts']], ['AAAA', ['a.ts']]],
  'the order': [map(['a.ts', 'b.ts'], 'ACAA,CDAA'), {},
    ['ACAA,CDAA', ['a.ts', 'b.ts']], ['AAAA,CCAA', ['b.ts', 'a.ts']]],
};

for (const [name, [outer, inner, here]] of Object.entries(CASES)) {
  test(`what differs: ${name}`, () => assert.deepEqual(told(remapping(outer, byName(inner))), here));
}

test('the other package has what the manual says', is, () => {
  for (const [name, [outer, inner, , there]] of Object.entries(CASES)) {
    assert.deepEqual(told(peer(outer, byName(inner))), there, name);
  }
});

test('what stands for an ignored source is ignored', () => {
  const outer = map(['m.js', 'b.js'], 'AAAA,CCAA', { ignoreList: [0] });
  assert.deepEqual(remapping(outer, byName({ 'm.js': map(['a.ts'], 'AAAA') })).ignoreList, [0]);
  const flip = (file, given) => void (given.ignore = file === 'b.js');
  assert.deepEqual(remapping(outer, flip).ignoreList, [1]);
  assert.ok(!('ignoreList' in remapping(outer, (file, given) => void (given.ignore = false))));
  assert.deepEqual(remapping([outer, map(['m.js'], 'AAAA')].reverse(), () => null).ignoreList, [0]);
});

test('maps that lead on for ever are refused', () => {
  assert.throws(() => remapping(map(['a.js'], 'AAAA'), () => map(['a.js'], 'AAAA')), RangeError);
});

test('a loader is told of each source, and may change it', () => {
  const outer = map(['m.js', 'v.js'], 'AAAA,CCAA', { file: 'out.js', sourcesContent: ['M', 'V'] });
  const seen = [];
  const load = (file, given) => {
    seen.push([file, given.importer, given.depth, given.source, given.content, given.ignore]);
    if (file === 'm.js') return given.source = 'x/m.js', map(['a.ts', 'b.ts'], 'ACAA', { sourcesContent: ['A', 'B'] });
    if (file === 'x/b.ts') [given.source, given.content] = ['b', 'C'];
    return null;
  };
  const made = remapping(outer, load);
  assert.deepEqual(seen, [
    ['m.js', '', 1, 'm.js', undefined, undefined],
    ['x/a.ts', 'x/m.js', 2, 'x/a.ts', undefined, undefined],
    ['x/b.ts', 'x/m.js', 2, 'x/b.ts', undefined, undefined],
    ['v.js', '', 1, 'v.js', undefined, undefined],
  ]);
  assert.equal(String(made), '{"version":3,"file":"out.js","mappings":"AAAA,CCAA","names":[],' +
    '"sources":["b","v.js"],"sourcesContent":["C","V"]}');
  assert.ok(!('sourcesContent' in remapping(outer, load, true)));
  assert.ok(!('sourcesContent' in remapping(outer, load, { excludeContent: true })));
  assert.deepEqual(remapping(outer, load, { decodedMappings: true }).mappings, [[[0, 0, 0, 0], [1, 1, 0, 0]]]);
});

test('the mappings of a text, wherever and however they are written', () => {
  const text = '"version":3,"sources":["AAAAA"],"names":["AAAAA"],"mappings" :"AAAAA"}';
  const texts = [`{${text}`, `)]}'\n{${text}`, `{"mappings":"AAAAA",${text}`, `{"mappings":"A",${text}`,
    `{"x":{"mappings":"AAAAA"},${text}`, `{${text.replace(/"AAAAA"}/, '"AAAA\\u0041"}')}`];
  for (const one of texts) {
    const { mappings, names, sources } = remapping(one, () => null);
    assert.deepEqual([mappings, names, sources], ['AAAAA', ['AAAAA'], ['AAAAA']], one);
  }
  const wrong = { '"AAAAA"}': '"AAAAA!"}', '"mappings"': '"none"', '3,': '3.0,', '"}': '"', 'A"]': 'A",7]' };
  for (const [good, bad] of Object.entries(wrong)) {
    assert.throws(() => remapping(`{${text.replace(good, bad)}`, () => null), SmapError, bad);
  }
});

test('sources that a loader calls alike are one', () => {
  const outer = map(['a', 'b', 'c'], 'AAAA,CCAA,CCAA,C');
  const same = (file, given) => void (given.source = file === 'b' ? 'b' : 'a');
  const made = remapping(outer, same);
  assert.deepEqual(told(made), ['AAAA,CCAA,CDAA,C', ['a', 'b']]);
  assert.deepEqual(remapping(outer, same, { decodedMappings: true }).mappings,
    [[[0, 0, 0, 0], [1, 1, 0, 0], [2, 0, 0, 0], [3]]]);
  const alike = (file, given) => void (given.source = 'a');
  assert.deepEqual(told(remapping(map(['a', 'b'], 'AAAA,CCAA'), alike)), ['AAAA', ['a']]);
  assert.deepEqual(told(remapping(map(['a', 'b'], 'AAAA,CCAA', { ignoreList: [1] }), alike)),
    ['AAAA,CCAA', ['a', 'a']]);
  const last = (file, given) => (file === 'm.js' ? map(['n.ts'], 'AACA') : alike(file, given));
  assert.deepEqual(told(remapping(map(['a', 'b', 'm.js'], 'AAAA,CCAA,CCAA'), last)), ['AAAA,EACA', ['a']]);
});

test('of several maps all but the last have one source', () => {
  const two = map(['a', 'b'], 'AAAA');
  assert.throws(() => remapping([two, map(['c'], 'AAAA')], () => null), /^Error: Transformation map 0 must have/);
  assert.deepEqual(told(remapping([map(['a'], 'AAAA'), two], () => null)), ['AAAA', ['a']]);
  assert.deepEqual(told(remapping([map([], ''), two], () => null)), ['', []]);
});

test('a map with an error is refused', () => {
  assert.throws(() => remapping(map(['a'], '!'), () => null), SmapError);
  assert.throws(() => remapping(map(['a'], 'AAAA'), () => map(['b'], '!')), SmapError);
  assert.throws(() => remapping([], () => null), TypeError);
});

test('a text, an index map and mappings in arrays', () => {
  const inner = { version: 3, sections: [{ offset: { line: 0, column: 0 }, map: map(['a.ts'], 'AAAA') }] };
  const text = JSON.stringify(map(['m.js'], 'AAAA'));
  assert.deepEqual(told(remapping(text, byName({ 'm.js': inner }))), ['AAAA', ['a.ts']]);
  assert.deepEqual(told(remapping(map(['a.ts'], [[[0, 0, 1, 0]]]), () => null)), ['AACA', ['a.ts']]);
});
