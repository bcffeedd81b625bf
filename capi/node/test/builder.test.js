'use strict';
const assert = require('node:assert');
const { test } = require('node:test');
const { Builder, SourceMap, SmapError, spell } = require('smap');
const { numbers } = require('./many-maps.js');

const BASE = 'http://h/m/out.js.map';
const NONE = 2 ** 32 - 1;
// At 1:4 there are two: they keep their order.
const ROWS = [[1, 4, 1, 0, 0, NONE], [0, 0, 0, 2, 1, 0], [1, 4, 0, 5, 0, NONE]];
const MAPPINGS = 'AAECA;ICFD,ADKA';

function begun(limits) {
  const builder = new Builder(BASE, { limits });
  builder.setFile('out.js');
  assert.equal(builder.source('a.ts'), 0);
  assert.equal(builder.source('b.ts', { content: 'B', ignored: true }), 1);
  assert.equal(builder.name('f'), 0);
  return builder;
}

const flat = builder => JSON.parse(builder.finish().flatten());

test('a map is built', () => {
  const builder = begun();
  builder.add(1, 4, 1, 0, 0);
  builder.add(0, 0, 0, 2, 1, 0);
  builder.add(1, 4, 0, 5, 0, null);
  const map = builder.finish();
  assert.ok(map instanceof SourceMap);
  assert.equal(map.flatten(), `{"file":"out.js","ignoreList":[1],"mappings":"${MAPPINGS}","names":["f"],` +
    '"sources":["http://h/m/a.ts","http://h/m/b.ts"],"sourcesContent":[null,"B"],"version":3}');
  const text = { version: 3, file: 'out.js', sources: ['a.ts', 'b.ts'], sourcesContent: [null, 'B'],
    ignoreList: [1], names: ['f'], mappings: MAPPINGS };
  assert.ok(map.same(new SourceMap(text, BASE)));
  assert.deepEqual(map.writtenSources[0], { source: 'http://h/m/a.ts', root: null });
  assert.equal(map.lookup(1, 9).sourceLine, 5);
  assert.ok(map.heldBytes > 200);
});

test('mappings are added many at once, in their order among those that are added one by one', () => {
  const all = ROWS.flat(), words = Uint32Array.from(all);
  const shared = new Uint32Array(new SharedArrayBuffer(words.byteLength));
  shared.set(words);
  const within = Uint32Array.from([9, ...all, 9]).subarray(1, -1);
  for (const given of [all, words, shared, within]) {
    const builder = begun();
    builder.addAll(given);
    builder.addAll([]);
    words.fill(0).set(all);
    assert.equal(flat(builder).mappings, MAPPINGS);
  }
  const builder = begun();
  builder.add(1, 4, 1, 0, 0);
  builder.addAll([...ROWS[1], ...ROWS[2]]);
  builder.add(1, 4);
  assert.equal(flat(builder).mappings, `${MAPPINGS},A`);
});

test('more mappings than are collected, in any order', () => {
  const next = numbers(5);
  const builder = begun({ lines: 40 });
  const rows = Array.from({ length: 4000 }, () => {
    const original = next(4) ? [next(2), next(90), next(90), next(2) ? NONE : 0] : [NONE, NONE, NONE, NONE];
    return [next(40), next(30), ...original];
  });
  for (const row of rows) builder.add(...row.map(n => (n === NONE ? undefined : n)));
  assert.equal(flat(builder).mappings, spell(Uint32Array.from(rows.flat())));
});

test('a source and a name have one number, and keep what was given last', () => {
  const builder = new Builder(new URL(BASE));
  const sources = ['a.ts', 'http://h/m/./a.ts', new URL('http://h/m/a.ts'), null, null, 'b'];
  assert.deepEqual(sources.map(url => builder.source(url)), [0, 0, 0, 1, 1, 2]);
  const given = ['f', '', 'f', Buffer.from('f'), '\u{1f600}'];
  assert.deepEqual(given.map(name => builder.name(name)), [0, 1, 0, 0, 2]);
  const empty = { sources: ['http://h/m/a.ts', null, 'http://h/m/b'], names: ['f', '', '\u{1f600}'] };
  builder.source('a.ts', { content: 'A', ignored: true });
  builder.source('a.ts', { content: undefined });
  builder.source(null, { content: 'x', ignored: true });
  builder.source(null, { content: null, ignored: false });
  builder.source('b', { content: Buffer.from('\u00e9'.repeat(3000)) });
  builder.setFile('x');
  builder.setFile(Buffer.from('y'));
  builder.setFile(null);
  // the numbers that were given out before are still known
  assert.deepEqual([builder.source('a.ts'), builder.name('f')], [0, 0]);
  builder.add(0, 0, 2, 0, 0, 2);
  assert.deepEqual(flat(builder), { version: 3, ...empty, mappings: 'AEAAE', ignoreList: [0],
    sourcesContent: ['A', null, '\u00e9'.repeat(3000)] });
  assert.deepEqual(flat(new Builder(BASE)), { version: 3, sources: [], names: [], mappings: '' });
});

// ---- what is refused

const MOST = 2 ** 31 - 1;

test('a number that no mapping has is named, and nothing is added', () => {
  const builder = begun();
  const wrong = [1.5, NaN, -1, 2 ** 31, Infinity, NONE, '0', null, undefined, 0n, {}, Symbol('x')];
  const names = ['line', 'column', 'source', 'sourceLine', 'sourceColumn', 'name'];
  names.forEach((name, i) => wrong.forEach(n => {
    if (name === 'name' && n == null) return;
    const row = [0, 0, 0, 0, 0, 0];
    row[i] = n;
    const shown = typeof n === 'number' ? n : typeof n;
    const message = `${name} must be a whole number from 0 to ${MOST}, not ${shown}`;
    assert.throws(() => builder.add(...row), { name: 'RangeError', message });
  }));
  for (const n of [1.5, NaN, -1, 2 ** 31, 2 ** 32, '0', null, undefined]) {
    const message = /^numbers\[8\] must be a whole number from 0 to 2147483647, not /;
    assert.throws(() => builder.addAll([...ROWS[0], 0, 0, n, 0, 0, 0]), { name: 'RangeError', message });
  }
  // a part of an original
  const parts = { sourceLine: [[0], [0, null, 0]], sourceColumn: [[0, 0], [0, 0, null, 0]],
    source: [[null, 1], [undefined, null, 1], [null, null, null, 0]] };
  for (const [missing, rows] of Object.entries(parts)) {
    const message = new RegExp(`^${missing} must be `);
    for (const row of rows) assert.throws(() => builder.add(0, 0, ...row), { name: 'RangeError', message });
  }
  builder.add(0, MOST, 0, MOST, MOST);
  assert.equal(flat(builder).mappings, '+/////DA+/////D+/////D');
});

test('a line, a source and a name that there is not', () => {
  const builder = begun({ lines: 2 });
  const none = [NONE, NONE, NONE, NONE];
  const wrong = { 'line 2': [2, 0, ...none], 'source 2': [0, 0, 2, 0, 0, NONE], 'name 1': [0, 0, 0, 0, 0, 1],
    [`source ${MOST}`]: [0, 0, MOST, 0, 0, NONE], [`line ${MOST}`]: [MOST, 0, ...none] };
  for (const [what, row] of Object.entries(wrong)) {
    const range = { name: 'SmapError', code: 'SMAP_RANGE' };
    const refused = { ...range, message: `${what}: number out of range`, number: null };
    assert.throws(() => builder.add(...row.map(n => (n === NONE ? undefined : n))), refused);
    const second = { ...range, message: 'mapping 1: number out of range', number: 1 };
    assert.throws(() => builder.addAll([0, 0, ...none, ...row]), second);
  }
  // what else only an array of words can have
  const words = [[2 ** 31, 0, ...none], [0, NONE, ...none], [NONE, 0, ...none], [0, 0, 0, NONE, 0, NONE],
    [0, 0, NONE, 0, 0, NONE], [0, 0, NONE, NONE, NONE, 0], [0, 0, 0, 0, 2 ** 31, NONE]];
  for (const row of words) {
    assert.throws(() => builder.addAll(Uint32Array.from(row)), { code: 'SMAP_RANGE', number: 0 });
  }
  builder.add(1, 0);
  assert.equal(builder.source('c.ts'), 2);
  builder.add(0, 0, 2, 0, 0);
  assert.equal(flat(builder).mappings, 'AEAA;A');
  assert.throws(() => new Builder(BASE).add(2 ** 24, 0), { code: 'SMAP_RANGE' });
  new Builder(BASE).add(2 ** 24 - 1, 0);
});

test('the other codes of the library', () => {
  const code = (code, call) => assert.throws(call, error => {
    assert.deepEqual([error instanceof SmapError, error.code, error.number], [true, code, null], error.stack);
    return true;
  });
  for (const url of ['no url', '', '/a', '\ud800']) code('SMAP_NOT_URL', () => new Builder(url));
  code('SMAP_LIMITS', () => new Builder(BASE, { limits: { items: 2 ** 31 } }));
  code('SMAP_LIMITS', () => new Builder(BASE, { limits: { lines: 2 ** 24 + 1 } }));
  const builder = begun({ items: 2 });
  code('SMAP_NOT_URL', () => builder.source('http://['));
  code('SMAP_TOO_MANY', () => builder.source('c.ts'));
  code('SMAP_TOO_MANY', () => builder.source(null));
  assert.deepEqual([builder.source('b.ts'), builder.name('')], [1, 1]);
  code('SMAP_TOO_MANY', () => builder.name('g'));
  for (const text of ['\ud800', 'x\udfff', Buffer.of(0xff)]) {
    code('SMAP_NOT_UTF8', () => builder.setFile(text));
    code('SMAP_NOT_UTF8', () => builder.name(text));
    code('SMAP_NOT_UTF8', () => builder.source('b.ts', { content: text }));
  }
  code('SMAP_NOT_UTF8', () => builder.source('\ud800'));
  const { file, sources, sourcesContent, names } = flat(builder);
  assert.deepEqual([file, sources.length, sourcesContent[1], names], ['out.js', 2, 'B', ['f', '']]);
});

test('what is no URL, text, limit or list of numbers is a TypeError', () => {
  const builder = begun();
  for (const bad of [12, undefined, true, Symbol('x'), {}, 1n]) {
    const calls = [() => new Builder(bad), () => builder.setFile(bad), () => builder.source(bad),
      () => builder.name(bad), () => builder.addAll(bad)];
    for (const call of calls) assert.throws(call, TypeError, String(call));
    if (bad !== undefined) assert.throws(() => builder.source('c.ts', { content: bad }), TypeError);
  }
  for (const bad of [null, '0', [0], new Uint32Array(5), new Int32Array(6), { length: 6 }]) {
    assert.throws(() => builder.addAll(bad), TypeError);
  }
  for (const bad of [-1, 0.5, NaN, null, 2 ** 32, '1', true]) {
    for (const limits of [{ items: bad }, { lines: bad }]) {
      assert.throws(() => new Builder(BASE, { limits }), TypeError);
    }
  }
  assert.throws(() => builder.name(null), TypeError);
  assert.throws(() => new Builder(null), TypeError);
  assert.throws(() => Builder(BASE), TypeError);
  assert.deepEqual(flat(builder).sources.length, 2);
});

test('a closed builder throws, and can be closed again', () => {
  const closed = begun(), finished = begun();
  closed.add(0, 0);
  closed.close();
  finished.add(0, 0);
  finished.finish();
  const calls = [b => b.setFile('x'), b => b.source('a.ts'), b => b.name('f'), b => b.add(0, 0),
    b => b.add(0, 0, 0, 0, 0, 0), b => b.addAll(ROWS[0]), b => b.addAll([]), b => b.finish()];
  for (const builder of [closed, finished]) {
    for (const call of calls) assert.throws(() => call(builder), { code: 'SMAP_CLOSED' }, String(call));
    builder.close();
  }
  const disposed = begun();
  (disposed[Symbol.dispose] ?? disposed.close).call(disposed);
  assert.throws(() => disposed.finish(), { code: 'SMAP_CLOSED' });
});

test('numbers that close the builder while they are read', () => {
  const builder = begun();
  const evil = [...ROWS[0]];
  Object.defineProperty(evil, 2, { get() { builder.close(); return 0; } });
  assert.throws(() => builder.addAll(evil), { code: 'SMAP_CLOSED' });
  const source = { get content() { closing.close(); return 'x'; } }, closing = begun();
  assert.throws(() => closing.source('a.ts', source), { code: 'SMAP_CLOSED' });
});
