'use strict';
const assert = require('node:assert');
const { spawnSync } = require('node:child_process');
const { once } = require('node:events');
const { test } = require('node:test');
const { Worker } = require('node:worker_threads');
const { SourceMap, SmapError } = require('smap');
const native = require('../native.js');

const BASE = 'http://h/m/out.js.map';
const text = '{"version":3,"sources":["a.js"],"names":["n"],"mappings":"AAUE,IAEAA"}';
const large = JSON.stringify({ version: 3, sources: ['a'], mappings: 'AAAA' + ',CAAC'.repeat(300000) });
const HEAD = `const { parentPort, workerData } = require('worker_threads');
  const { SourceMap, SmapError } = require(${JSON.stringify(require.resolve('smap'))});\n`;
const start = (code, workerData) => new Worker(HEAD + code, { eval: true, workerData });

test('a map is opened on another thread', async () => {
  const map = await SourceMap.open(text, BASE);
  assert.equal(map.canonical(), new SourceMap(text, BASE).canonical());
  assert.ok(map.heldBytes > 0);
  const open = () => SourceMap.open(Buffer.from(text), new URL(BASE));
  const many = await Promise.all(Array.from({ length: 30 }, open));
  assert.ok(many.every(one => one.same(map)));
});

// More maps than the pool has threads, so that what is opened after them waits.
const keepBusy = () => Promise.all(Array.from({ length: 8 }, () => SourceMap.open(large, BASE)));

test('nothing that was passed is read once the call has returned', async () => {
  const busy = keepBusy();
  const given = [Buffer.from(text), Buffer.from(BASE)];
  const opened = native.openLater(...given, 0, 0);
  for (const bytes of given) bytes.fill(' ');
  assert.equal(native.text(await opened, 1, 0), 'http://h/m/a.js');
  await busy;
});

// In a process of its own, which would crash: memory of that size is given back to the system there.
const KEPT = process.env.ASAN_OPTIONS ? 'the sanitizers keep freed memory' : false;
const crashes = { skip: native.isWasm ? 'WebAssembly: no other thread opens maps' : KEPT };

test('a URL with half surrogate pairs may be collected while its map is opened', crashes, () => {
  const code = `${HEAD}
    const large = JSON.stringify({ version: 3, sources: ['a'], mappings: 'AAAA' + ',CAAC'.repeat(300000) });
    const open = url => SourceMap.open(large, url).then(() => 0, error => error.code === 'SMAP_NOT_URL');
    async function main() {
      let refused = 0;
      for (let turn = 0; turn < 6; turn++) {
        const busy = Array.from({ length: 16 }, () => open('${BASE}'));
        const all = Array.from({ length: 8 }, () => open('http://h/' + '\\ud800'.repeat(100000)));
        await new Promise(setImmediate);
        for (let i = 0; i < 3; i++) gc();
        for (const isRefused of await Promise.all(all)) refused += isRefused;
        await Promise.all(busy);
      }
      console.log(refused);
    }
    main();`;
  const env = { ...process.env, MALLOC_MMAP_THRESHOLD_: '65536' };
  const ended = spawnSync(process.execPath, ['--expose-gc', '-e', code], { encoding: 'utf8', env });
  assert.deepEqual([ended.stdout, ended.signal, ended.status], ['48\n', null, 0], ended.stderr);
});

test('what the constructor throws, the promise is rejected with', async () => {
  await assert.rejects(SourceMap.open('{', BASE), SmapError);
  await assert.rejects(SourceMap.open('{', BASE), { code: 'SMAP_REFUSED', kind: 'Json' });
  await assert.rejects(SourceMap.open(text, 'no url'), { code: 'SMAP_NOT_URL' });
  await assert.rejects(SourceMap.open('\ud800', BASE), { kind: 'Json' });
  await assert.rejects(SourceMap.open(12, BASE), TypeError);
  await assert.rejects(SourceMap.open(text, BASE, { limits: { lines: -1 } }), TypeError);
  await assert.rejects(SourceMap.open(text, BASE, { limits: { items: 2 ** 31 } }), { code: 'SMAP_LIMITS' });
});

const shares = { skip: native.isWasm ? 'WebAssembly: a memory is of one thread' : false };

test('a map is handed to a worker, once, also when it was closed here', shares, async () => {
  const map = new SourceMap(text, BASE);
  const number = map.share();
  map.close();
  const worker = start(`const map = SourceMap.take(workerData);
    let again;
    try { SourceMap.take(workerData) } catch (error) { again = [error instanceof SmapError, error.code] }
    parentPort.postMessage([map.lookup(0, 7).name, map.heldBytes > 0, again]);`, number);
  const [told] = await once(worker, 'message');
  assert.deepEqual(told, ['n', true, [true, 'SMAP_CLOSED']]);
  assert.throws(() => SourceMap.take(number), { code: 'SMAP_CLOSED' });
  for (const bad of [-1, 0.5, '1', null, undefined]) assert.throws(() => SourceMap.take(bad), TypeError);
});

test('many workers use one map at once', shares, async () => {
  const map = new SourceMap(large, BASE);
  const wants = map.lookup(0, 299999).sourceColumn;
  assert.equal(wants, 299999);
  const workers = Array.from({ length: 6 }, () => start(`const map = SourceMap.take(workerData);
    let sum = 0; for (let i = 0; i < 20000; i++) sum += map.lookup(0, i).sourceColumn;
    map.close(); parentPort.postMessage(sum);`, map.share()));
  const sums = await Promise.all(workers.map(worker => once(worker, 'message')));
  assert.deepEqual(sums.map(([sum]) => sum), Array(6).fill((19999 * 20000) / 2));
});

test('workers are ended while they open maps', async () => {
  for (let turn = 0; turn < 8; turn++) {
    const worker = start(`for (let i = 0; i < 4; i++) SourceMap.open(workerData, '${BASE}').then(() => 0);
      parentPort.postMessage('opening'); for (;;) new SourceMap(workerData, '${BASE}').table();`, large);
    await once(worker, 'message');
    await new Promise(done => setTimeout(done, turn * 5));
    assert.equal(typeof await worker.terminate(), 'number');
  }
});

test('workers forget maps in a loop, keep some, and end', async () => {
  const code = `const kept = [];
    for (let i = 0; i < 25; i++) {
      const map = new SourceMap(workerData, '${BASE}');
      if (i % 3 === 0) kept.push(map);
      if (i % 5 === 0) map.close();
    }
    parentPort.postMessage(kept.filter((map, i) => i % 5 && map.counts.mappings === 300001).length);`;
  const counts = Array.from({ length: 3 }, async () => (await once(start(code, large), 'message'))[0]);
  assert.deepEqual(await Promise.all(counts), [7, 7, 7]);
});

test('an error of a worker keeps its name and fields', async () => {
  const worker = start(`new SourceMap('{', '${BASE}')`);
  const [error] = await once(worker, 'error');
  assert.deepEqual([error.name, error.code, error.kind], ['SmapError', 'SMAP_REFUSED', 'Json']);
});
