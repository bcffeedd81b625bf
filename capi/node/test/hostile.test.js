'use strict';
// Calls that nobody should make: each has to throw, and none may end the process or read what isn't its own.
const assert = require('node:assert');
const { test } = require('node:test');
const { SourceMap, Scripts, respell, translate } = require('smap');
const { TraceMap, decodedMap, decodedMappings } = require('smap/trace-mapping');
const { spelled } = require('../halves.js');
const { numbers } = require('./many-maps.js');
const { isQuick } = require('./quick.js');
const native = require('../native.js');

const BASE = 'http://h/m/out.js.map';
const text = '{"version":3,"sources":["a.js"],"names":["n"],"mappings":"AAUE,IAEAA"}';
const map = () => native.open(Buffer.from(text), BASE, 0, 0);
const builder = () => native.builderOpen(BASE, 0, 0);

test('the addon is given anything', () => {
  const words = () => [
    undefined, null, true, 0, -1, 2 ** 32, NaN, '', 'x'.repeat(5000), Symbol('x'), 1n, {}, [], () => 0, map(),
    native.scripts(), builder(), Buffer.alloc(3), new Int32Array(6), new Float64Array(6),
    new SharedArrayBuffer(4),
  ];
  const rest = [[], [0, 0], [Buffer.alloc(1), 0], ['x', true]];
  let thrown = 0;
  for (const [name, call] of Object.entries(native)) {
    if (['start', 'limit'].includes(name)) continue;
    for (const one of words()) {
      for (const other of words()) {
        for (const more of rest) {
          try {
            // A promise that is refused is an answer as well.
            call(one, other, ...more)?.catch?.(() => 0);
          } catch (error) {
            assert.ok(error instanceof Error, `${name}: ${String(error)}`);
            thrown++;
          }
        }
      }
    }
  }
  assert.ok(thrown > 20 * 20 * 20, `${thrown} thrown`);
  assert.throws(() => native.start(Error, () => 0), { code: 'SMAP_INTERNAL' });
});

test('one kind of handle is not taken for another', () => {
  assert.throws(() => native.lookup(native.scripts(), 0, 0), TypeError);
  assert.throws(() => native.translate(map(), 'x', 0, false), TypeError);
  assert.throws(() => native.addScript(native.scripts(), 'x', native.scripts()), TypeError);
  assert.throws(() => native.builderFinish(map()), TypeError);
  assert.throws(() => native.close(builder()), TypeError);
  assert.throws(() => SourceMap.prototype.lookup.call({}, 0, 0), TypeError);
  assert.throws(() => Scripts.prototype.translate.call(new SourceMap(text, BASE), ''), TypeError);
});

test('memory that is taken away or shrinks', async () => {
  const taken = Uint8Array.from(Buffer.from(text));
  structuredClone(taken.buffer, { transfer: [taken.buffer] });
  assert.throws(() => new SourceMap(taken, BASE), e => e instanceof TypeError || e.kind === 'Json');
  const given = Uint8Array.from(Buffer.from(text));
  const later = SourceMap.open(given, BASE);
  structuredClone(given.buffer, { transfer: [given.buffer] });
  assert.equal((await later).lookup(0, 7).name, 'n');
  const written = Uint8Array.from(Buffer.from(text));
  const also = SourceMap.open(written, BASE);
  written.fill(0);
  assert.equal((await also).lookup(0, 7).name, 'n');
});

test('an object that changes while it is read', () => {
  const evil = { get version() { throw new RangeError('evil'); } };
  assert.throws(() => new SourceMap(evil, BASE), RangeError);
  const url = { toString: () => BASE };
  assert.throws(() => new SourceMap(text, url), TypeError);
  const view = Uint8Array.from(Buffer.from(text));
  Object.defineProperty(view, 'byteLength', { value: 2 ** 30 });
  assert.throws(() => new SourceMap(view, BASE), RangeError);
  const cycle = {};
  cycle.cycle = cycle;
  assert.throws(() => new SourceMap(cycle, BASE), TypeError);
});

test('a map that is closed while it is in use', () => {
  const one = new SourceMap(text, BASE);
  const seen = [];
  for (const mapping of one) {
    seen.push(mapping.column);
    one.close();
  }
  assert.deepEqual(seen, [0, 4]);
  const other = new SourceMap(text, BASE);
  const options = { get relative() { other.close(); return false; } };
  assert.throws(() => other.canonical(options), { code: 'SMAP_CLOSED' });
  const scripts = new Scripts();
  const closes = { get anywhere() { scripts.close(); return true; } };
  assert.throws(() => scripts.translate('x', closes), { code: 'SMAP_CLOSED' });
});

test('a table that there is no memory for', () => {
  const RealArray = globalThis.Int32Array;
  globalThis.Int32Array = class { constructor() { throw new RangeError('Array buffer allocation failed'); } };
  try {
    assert.throws(() => new SourceMap(text, BASE).table(), RangeError);
  } finally {
    globalThis.Int32Array = RealArray;
  }
  assert.equal(new SourceMap(text, BASE).table().length, 2);
});

test('a Buffer that there is no memory for', () => {
  const real = Buffer.allocUnsafeSlow;
  Buffer.allocUnsafeSlow = () => { throw new RangeError('no memory'); };
  try {
    assert.throws(() => new SourceMap(text, BASE).canonical({ buffer: true }), /no memory/);
    Buffer.allocUnsafeSlow = () => new Uint8Array(1);
    assert.throws(() => new SourceMap(text, BASE).flatten({ buffer: true }), { code: 'SMAP_INTERNAL' });
  } finally {
    Buffer.allocUnsafeSlow = real;
  }
  assert.ok(new SourceMap(text, BASE).canonical({ buffer: true }).length > 0);
});

// ---- what is large, or asks for much

test('half surrogate pairs are spelled by three bytes each, and in a time that grows with the text', () => {
  const rows = [['\ud800', 'eda080'], ['\udfff', 'edbfbf'], ['a\udc00\u00e9', '61edb080c3a9'],
    ['\ud800\u{10000}\udbff', 'eda080f0908080edafbf'], ['\udc00\ud800', 'edb080eda080']];
  for (const [text, bytes] of rows) assert.equal(spelled(text).toString('hex'), bytes);
  const many = '\ud800'.repeat(2e6);
  assert.throws(() => isQuick(() => respell(many)), { kind: 'Character' });
  assert.ok(isQuick(() => translate(many) === many));
});

test('what is spelled comes back', () => {
  const next = numbers(1);
  const units = [0, 0x61, 0x7f, 0x80, 0x7ff, 0x800, 0xd7ff, 0xd800, 0xdbff, 0xdc00, 0xdfff, 0xe000, 0xffff];
  for (let i = 0; i < 5000; i++) {
    const all = Array.from({ length: next(9) }, () => units[next(units.length)]);
    const text = String.fromCharCode(...all);
    assert.ok(translate(text) === text, JSON.stringify(text));
  }
});

test('mappings that are no segments are refused at once', () => {
  const segments = [[1e999], [-1e999, 0, 0, 0], [NaN], [0.5], ['1'], [1n], { length: 1e7 }, new Array(4),
    new Array(1e7), [], [0, 1], null];
  const lines = [[null], [{ length: 3 }], new Array(3), new Array(2 ** 24 + 1)];
  for (const mappings of [...segments.map(segment => [[segment]]), ...lines]) {
    const map = { version: 3, sources: ['a'], names: [], mappings };
    const sections = [{ offset: { line: 0, column: 0 }, map }];
    assert.throws(() => isQuick(() => new TraceMap(map)), { name: 'TypeError', message: /^mappings\[0\]/ });
    assert.throws(() => isQuick(() => new TraceMap({ version: 3, sections })), TypeError);
  }
  for (const mappings of [{ length: 1e7 }, 1e999, null, undefined]) {
    assert.throws(() => new TraceMap({ version: 3, mappings }), { kind: 'Mappings' });
  }
  for (const n of [2 ** 31, 2 ** 32, -1, 2 ** 53 - 1]) {
    const refused = { name: 'RangeError', message: /^a number in mappings\[0\]\[0\] must be / };
    assert.throws(() => new TraceMap({ version: 3, mappings: [[[n]]] }), refused);
  }
});

test('a map has as many decoded lines as its text has characters, or a million', () => {
  const inner = { version: 3, sources: ['a'], names: [], mappings: 'AAAA' };
  const far = line => new TraceMap({ version: 3, sections: [{ offset: { line, column: 0 }, map: inner }] });
  for (const call of [decodedMap, decodedMappings]) {
    const refused = { name: 'RangeError', code: 'SMAP_TOO_LONG' };
    for (const line of [2 ** 20, 16777214]) assert.throws(() => isQuick(() => call(far(line))), refused);
  }
  assert.equal(decodedMappings(far(2 ** 20 - 1)).length, 2 ** 20);
  const long = new TraceMap({ ...inner, mappings: ';'.repeat(2 ** 20) + 'AAAA' });
  assert.equal(decodedMappings(long).length, 2 ** 20 + 1);
});

test("the folder of a map's URL is found at once", () => {
  const map = { version: 3, sources: ['a.js'], names: [], mappings: 'AAAA' };
  const names = 'x'.repeat(80000);
  const { resolvedSources } = isQuick(() => new TraceMap(map, `/${names}/${names}`));
  assert.deepEqual(resolvedSources, [`/${names}/a.js`]);
});

const large = { skip: process.env.SMAP_LARGE ? false : 'it takes 3 GB, and runs if SMAP_LARGE is set' };

test('what is written may be longer than a string can be', large, () => {
  const content = Buffer.alloc(2 ** 29, 'x');
  const parts = ['{"version":3,"sources":["a"],"mappings":"","sourcesContent":["', content, '"]}'];
  const map = new SourceMap(Buffer.concat(parts.map(part => Buffer.from(part))), BASE);
  assert.throws(() => map.canonical(), { code: 'SMAP_TOO_LONG' });
  assert.throws(() => map.content(0), { code: 'SMAP_TOO_LONG' });
  assert.ok(map.canonical({ buffer: true }).length > 2 ** 29);
});
