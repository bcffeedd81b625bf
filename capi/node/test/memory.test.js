'use strict';
const assert = require('node:assert');
const { test } = require('node:test');
const { SourceMap, Builder, Scripts } = require('smap');
const native = require('../native.js');

const BASE = 'http://h/m/out.js.map';
const large = JSON.stringify({ version: 3, sources: ['a'], mappings: 'AAAA' + ',CAAC'.repeat(200000) });
const turn = () => new Promise(setImmediate);

// What the collector was told of. What other tests left may take it two runs to free.
async function told() {
  for (let i = 0; i < 2; i++) {
    global.gc();
    await turn();
  }
  return native.told();
}

const collects = { skip: global.gc ? false : 'no --expose-gc' };

// How much the process grows from the second third of the turns to the last one, in MB: from the least that it
// has in the one to the least in the other, since threads that free memory may be late.
async function growth(turns, call) {
  const sizes = [];
  for (let i = 0; i < turns; i++) {
    await call(i);
    global.gc();
    await turn();
    sizes.push(process.memoryUsage().rss / 1e6);
  }
  const third = Math.floor(turns / 3);
  return Math.min(...sizes.slice(-third)) - Math.min(...sizes.slice(third, 2 * third));
}

test('maps that are forgotten are freed', collects, async () => {
  const grown = await growth(12, () => { new SourceMap(large, BASE).lookup(0, 0); });
  assert.ok(grown < 20, `${grown} MB`);
});

test('maps that are closed in a loop are freed, without the event loop', collects, async () => {
  const grown = await growth(9, () => {
    for (let i = 0; i < 10; i++) {
      const map = new SourceMap(large, BASE);
      map.table();
      map.close();
    }
  });
  assert.ok(grown < 40, `${grown} MB`);
});

const turns = { skip: native.isWasm ? 'WebAssembly: handles are collected as the event loop turns' : false };

test('maps that are forgotten in a loop are freed, without the event loop', turns, () => {
  const sizes = [];
  for (let i = 0; i < 150; i++) {
    new SourceMap(large, BASE).lookup(0, 0);
    sizes.push(process.memoryUsage().rss / 1e6);
  }
  const grown = sizes.at(-1) - sizes[0];
  // All of them hold a gigabyte.
  assert.ok(new SourceMap(large, BASE).heldBytes * 150 > 9e8);
  assert.ok(grown < 300, `${grown} MB`);
});

test('what is refused, written and translated leaves nothing', collects, async () => {
  const map = new SourceMap(large, BASE);
  const broken = large.slice(0, -2) + '!"}';
  const log = '    at f (http://h/m/out.js:1:2)\n'.repeat(20000);
  const grown = await growth(15, async () => {
    assert.throws(() => new SourceMap(broken, BASE), { kind: 'Character' });
    await assert.rejects(SourceMap.open(broken, BASE), { kind: 'Character' });
    map.canonical();
    map.flatten({ buffer: true });
    map.translate(log, 'http://h/m/out.js');
  });
  assert.ok(grown < 30, `${grown} MB`);
});

const tells = { skip: native.isWasm ? 'WebAssembly: the collector is told nothing' : collects.skip };

test('the collector is told what a map holds, until it is closed', tells, async () => {
  const bytes = Buffer.from(large);
  const before = await told();
  const map = new SourceMap(bytes, BASE);
  const held = map.heldBytes;
  const open = (await told()) - before;
  assert.ok(held > 1e6 && Math.abs(open - held) < 2e5, `${open} for ${held}`);
  map.close();
  assert.equal(map.heldBytes, 0);
  assert.ok(Math.abs((await told()) - before) < 2e5);
});

test('the collector is told what scripts hold, once a map by itself is closed too', tells, async () => {
  const bytes = Buffer.from(large);
  const map = new SourceMap(bytes, BASE);
  const held = map.heldBytes;
  const scripts = new Scripts();
  const before = (await told()) - held;
  const isNear = async (wants, why) => {
    const has = (await told()) - before;
    assert.ok(Math.abs(has - wants) < 2e5, `${why}: ${has}, not ${wants}`);
  };
  const other = new SourceMap(bytes, BASE);
  const small = new SourceMap('{"version":3,"mappings":""}', BASE);
  scripts.add('http://h/a.js', map).add('http://h/a.js', map).add('http://h/b.js', other);
  map.close();
  other.close();
  await isNear(2 * held, 'two scripts, one of them given its map twice');
  scripts.add('http://h/b.js', small);
  await isNear(held, 'the second one has a small map now');
  scripts.close();
  scripts.close();
  await isNear(0, 'closed');
  assert.throws(() => scripts.add('http://h/a.js', small), { code: 'SMAP_CLOSED' });
  await isNear(0, 'a closed one takes nothing');
});

// Mappings without an original.
const many = new Uint32Array(6 * 200000).map((_, i) => (i % 6 ? (i % 6 === 1 ? i : 2 ** 32 - 1) : 0));

test('builders that are forgotten, closed, finished or refused leave nothing', collects, async () => {
  const content = 'x'.repeat(1e6);
  const ends = [() => 0, b => b.close(), b => b.finish(), b => b.finish().close(),
    b => assert.throws(() => b.addAll([...many.subarray(0, 600), 2 ** 24, 0, 0, 0, 0, 0]), { number: 100 })];
  const grown = await growth(15, i => {
    const builder = new Builder(BASE);
    builder.source('a', { content });
    builder.addAll(many);
    for (let k = 0; k < 2000; k++) builder.add(0, k);
    ends[i % ends.length](builder);
  });
  assert.ok(grown < 30, `${grown} MB`);
});

test('the collector is told what a builder was given, until it is closed or finished', tells, async () => {
  const content = 'x'.repeat(1e6);
  const before = await told();
  const isNear = async (wants, why) => {
    const has = (await told()) - before;
    assert.ok(Math.abs(has - wants) < 2e5, `${why}: ${has}, not ${wants}`);
  };
  const builder = new Builder(BASE), closed = new Builder(BASE);
  for (let i = 0; i < 3; i++) builder.source('a', { content });
  await isNear(1e6, 'one content, whichever');
  builder.addAll(many);
  await isNear(1e6 + 4 * many.length, 'mappings');
  closed.addAll(many);
  closed.close();
  await isNear(1e6 + 4 * many.length, 'one is closed');
  const map = builder.finish();
  await isNear(map.heldBytes, 'the map alone');
  map.close();
  await isNear(0, 'closed');
});

test('Symbol.dispose closes', { skip: Symbol.dispose ? false : 'no Symbol.dispose here' }, () => {
  const map = new SourceMap(large, BASE);
  map[Symbol.dispose]();
  map[Symbol.dispose]();
  assert.throws(() => map.counts, { code: 'SMAP_CLOSED' });
  const scripts = new Scripts();
  scripts[Symbol.dispose]();
  assert.throws(() => scripts.translate(''), { code: 'SMAP_CLOSED' });
});
