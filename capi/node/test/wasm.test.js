'use strict';
// The library as WebAssembly: what the addon hasn't, or has otherwise. The other tests run over both.
const assert = require('node:assert');
const fs = require('node:fs');
const path = require('node:path');
const { test } = require('node:test');
const v8 = require('node:v8');
const { SmapError } = require('../errors.js');
const { file, instance, load } = require('../wasm.js');
const { WIDE } = require('../wide.js');

const BASE = 'http://h/m/out.js.map';
const text = '{"version":3,"sources":["a.js"],"names":["n"],"mappings":"AAUE,IAEAA"}';
const large = JSON.stringify({ version: 3, sources: ['a'], mappings: 'AAAA' + ',CAAC'.repeat(20000) });
const addon = path.join(__dirname, '..', 'out', 'smap.node');
const tests = path.join(__dirname, '..', 'out', 'smap-test.wasm');
const isHere = (file, maker) =>
  ({ skip: fs.existsSync(file) ? false : `no ${path.basename(file)} here: ${maker}` });
const is = isHere(file, 'tools/build-wasm makes it');
const isTest = isHere(tests, 'tools/build-wasm --test makes it');

function started() {
  const native = load();
  return { native, found: native.start(SmapError, n => Buffer.alloc(n)) };
}

test('the calls are those of the addon', { skip: is.skip || isHere(addon, 'build.sh makes it').skip }, () => {
  const { native } = started();
  const named = (name, one) => (typeof one === 'number' ? `${name} ${one}` : name);
  const calls = all => Object.entries(all).map(([name, one]) => named(name, one));
  // Each has one for tests.
  const of = (all, own) => calls(all).filter(name => !own.includes(name)).sort();
  assert.deepEqual(of(native, ['isWasm', 'limit']), of(require(addon), ['told']));
});

test("Node's flags are taken back", is, () => {
  // The tag tells of all flags.
  const flags = () => [WebAssembly.validate(WIDE), v8.cachedDataVersionTag()];
  const before = flags();
  load();
  assert.deepEqual(flags(), before);
});

test('the heap keeps what is in its blocks, and wastes little', isTest, () => {
  for (const seed of [7919, 104729, 1299709]) {
    const x = instance(tests);
    const before = x.memory.buffer.byteLength;
    assert.equal(x.js_test_heap(seed, 30000), 0);
    const grown = x.memory.buffer.byteLength - before;
    assert.ok(grown < 1.5 * x.js_test_most(), `${grown} bytes for ${x.js_test_most()}`);
  }
});

test('a stack that is overrun traps, and writes over nothing', isTest, () => {
  const x = instance(tests);
  const stack = x.__stack_pointer.value;
  assert.equal(x.js_test_stack(100), 101);
  assert.throws(() => x.js_test_stack(200), WebAssembly.RuntimeError);
  x.__stack_pointer.value = stack;
  assert.deepEqual([x.js_test_data(), x.js_test_stack(100)], [1, 101]);
});

test('memory that ends: each call says so, and works once there is more', is, () => {
  const { native, found } = started();
  const map = native.open(text, BASE, 0, 0);
  const rows = native.open(large, BASE, 0, 0);
  const scripts = native.scripts();
  native.addScript(scripts, 'http://h/m/out.js', map, -1);
  const long = '    at f (http://h/m/out.js:1:8)\n'.repeat(2000);
  const calls = {
    open: () => native.open(large, BASE, 0, 0),
    canonical: () => native.canonical(rows, false),
    flatten: () => native.flatten(rows, true),
    translate: () => native.translate(scripts, long, 0, false)[0],
    respell: () => native.respell(JSON.parse(large).mappings),
    spell: () => native.spell(new Uint32Array(6 * 20000)),
    build() {
      const builder = native.builderOpen(BASE, 0, 0);
      native.builderSource(builder, null);
      native.builderName(builder, '');
      native.builderAdd(builder, new Uint32Array(6 * 20000));
      native.close(native.builderFinish(builder));
    },
    table: () => native.table(rows, new Int32Array(6 * 20001)),
    link: () => native.fileUrl('/' + 'x'.repeat(200000)),
  };
  for (const [name, call] of Object.entries(calls)) {
    let refused = 0;
    // What was given back may be enough, so it is filled up.
    const held = [];
    native.limit(0);
    try {
      for (;;) held.push(native.fileUrl('/' + 'x'.repeat(1000)) && native.open(text, BASE, 0, 0));
    } catch (error) {
      assert.equal(error.code, 'SMAP_MEMORY', `${name}: ${error.stack}`);
    }
    try {
      call();
    } catch (error) {
      assert.deepEqual([error.name, error.code, error.kind], ['SmapError', 'SMAP_MEMORY', null], error.stack);
      refused++;
    }
    assert.equal(native.lookup(map, 0, 7), true);
    assert.equal(found[3], 12);
    native.limit(2 ** 32);
    for (const one of held) native.close(one);
    call();
    assert.equal(refused, 1, name);
  }
});

// Calls a function where JavaScript's stack has no room left, then where it has ever more. Gives the errors.
function whereStackEnds(call) {
  const errors = [];
  let calls = 0;
  (function deeper() {
    try {
      deeper();
    } catch {
      // there is none left
    }
    if (++calls > 500) return;
    try {
      call();
    } catch (error) {
      errors.push(error);
    }
  })();
  return errors;
}

test('a lookup for which there is no stack can be made again', is, () => {
  const { native, found } = started();
  const map = native.open(text, BASE, 0, 0);
  const errors = whereStackEnds(() => native.lookup(map, 0, 7));
  assert.ok(errors.every(error => error instanceof RangeError), String(errors.at(-1)));
  assert.deepEqual([native.lookup(map, 0, 7), found[3], found[1]], [true, 12, 4]);
});

test('after another call that did not return, all are refused', is, () => {
  const { native } = started();
  const errors = whereStackEnds(() => native.canonical(native.open(text, BASE, 0, 0), false));
  assert.ok(errors.every(error => error instanceof RangeError || error.code === 'SMAP_INTERNAL'));
  try {
    assert.equal(native.lookup(native.open(text, BASE, 0, 0), 0, 7), true);
  } catch (error) {
    assert.equal(error.code, 'SMAP_INTERNAL');
  }
});

test('answers are read where the memory has grown', is, () => {
  const { native, found } = started();
  const map = native.open(text, BASE, 0, 0);
  for (let i = 0; i < 20; i++) {
    const more = native.open(large, BASE, 0, 0);
    assert.deepEqual([native.lookup(map, 0, 7), found[3]], [true, 12]);
    assert.equal(native.text(map, native.LISTED_NAME, 0), 'n');
    assert.deepEqual([native.lookup(more, 0, 20000), found[0], found[1]], [true, 0, 20000]);
  }
});

test('a map is shared within its memory alone', is, () => {
  const { native } = started();
  const map = native.open(text, BASE, 0, 0);
  const number = native.share(map);
  assert.equal(native.lookup(native.take(number), 0, 7), true);
  assert.throws(() => native.take(number), { code: 'SMAP_CLOSED' });
  const { native: other } = started();
  assert.throws(() => other.take(native.share(map)), { code: 'SMAP_CLOSED' });
});
