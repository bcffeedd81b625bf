'use strict';
// Each request for memory refused in turn, and what maps hold beside what the collector is told; over the
// test build of build.sh: see tests/node/run.
const assert = require('node:assert');
const {
  SourceMap, Builder, Scripts, translate, frame, respell, spell,
  scriptLink, resolveLink, inlineMap, fileUrl, filePath, scriptUrl, scriptName, normalForm, areAlike,
} = require('smap');
const native = require('../native.js');

const BASE = 'http://h/m/out.js.map';
const SCRIPT = 'http://h/m/out.js';
const long = 'x'.repeat(5000);
const none = 2 ** 32 - 1;
const text = JSON.stringify({
  version: 3, file: 'o', sources: ['a.js', long], sourcesContent: ['A', long], names: ['n', long],
  mappings: 'AAUE,IAEAA;ACAAC',
});
const log = `Error\n    at f (${SCRIPT}:1:2)\n`.repeat(300);
const map = new SourceMap(text, BASE);
const other = new SourceMap(text, BASE);
const scripts = new Scripts({ [SCRIPT]: map });

function build() {
  const builder = new Builder(BASE + long);
  builder.setFile(long);
  const source = builder.source(long, { content: long, ignored: true });
  builder.add(0, 1, source, 2, 0, builder.name(long));
  let made;
  try {
    builder.addAll([0, 0, none, none, none, none]);
    made = builder.finish();
  } finally {
    // also where memory ended
    assert.throws(() => builder.add(0, 0), { code: 'SMAP_CLOSED' });
  }
  assert.equal(made.canonicalMappings(), 'A,CAEAA');
  made.close();
}

const CALLS = {
  open: () => new SourceMap(text, BASE).close(),
  openBytes: () => new SourceMap(Buffer.from(text), BASE + long).close(),
  refused: () => assert.throws(() => new SourceMap('{"version":3,"mappings":"!"}', BASE), rethrown),
  share: () => SourceMap.take(map.share()).close(),
  compose: () => map.compose({ 'http://h/m/a.js': other }).close(),
  thinned: () => map.thinned().close(),
  used: () => map.used().close(),
  build,
  same: () => assert.equal(map.same(other), true),
  lookup: () => assert.equal(map.lookup(1, 0).name, long),
  content: () => assert.equal(map.content(1), long),
  names: () => assert.equal(new SourceMap(text, BASE).names[1], long),
  sources: () => assert.equal(new SourceMap(text, BASE).sources.length, 2),
  written: () => assert.equal(new SourceMap(text, BASE).writtenSources[1].source, long),
  table: () => assert.equal(new SourceMap(text, BASE).table().length, 3),
  canonical: () => assert.ok(map.canonical().length > 5000),
  relative: () => assert.ok(map.canonical({ relative: true, buffer: true }).length > 5000),
  mappings: () => assert.equal(map.canonicalMappings().split(';').length, 2),
  flatten: () => assert.ok(map.flatten().length > 5000),
  scripts: () => new Scripts({ [SCRIPT]: map }).close(),
  translate: () => assert.ok(scripts.translate(log).includes('a.js:11:3')),
  translateAll: () => assert.ok(translate(log, { [SCRIPT]: map }, { anywhere: true }).includes('a.js:11:3')),
  frame: () => assert.equal(frame(`f@${SCRIPT}${long}:1:2`).line, 1),
  respell: () => assert.equal(respell('gAAAA;' + ';'.repeat(3000)), 'AAAA'),
};

// Here the library asks for room ahead as well, and does without it.
const CALLS_AHEAD = {
  scriptLink: () => assert.equal(scriptLink(`//# sourceMappingURL=${long}`), long),
  resolveLink: () => assert.equal(resolveLink(`/${long}/a.js`, 'b.map'), `file:///${long}/b.map`),
  inlineMap: () => assert.equal(inlineMap(`data:;base64,${btoa(long)}`).toString(), long),
  fileUrl: () => assert.equal(fileUrl(`C:\\${long}`), `file:///C:/${long}`),
  filePath: () => assert.equal(filePath(`file:///${long}`), `/${long}`),
  scriptUrl: () => assert.equal(scriptUrl(SCRIPT + '/', long), `${SCRIPT}/${long}`),
  scriptName: () => assert.equal(scriptName(SCRIPT + '/', `${SCRIPT}/${long}`), long),
  normalForm: () => assert.equal(normalForm(`${SCRIPT}?${long}`), SCRIPT),
  scriptMap: () => {
    const next = native.scriptMap('/', long, `//# sourceMappingURL=${long}.b`, 1);
    assert.deepEqual(next, [3, Buffer.from(`${long}.map`)]);
  },
  areAlike: () => assert.equal(areAlike(`${SCRIPT}?${long}`, `${SCRIPT}#${long}`), true),
  spell: () => assert.equal(spell(Uint32Array.of(0, 1, 0, 0, 0, none, 0, 0, 0, 0, 0, none)), 'AAAA,CAAA'),
};

// A refused request isn't taken for the error that a call expects.
function rethrown(error) {
  if (error.code === 'SMAP_MEMORY') throw error;
  return error.kind === 'Character';
}

function refuseEach(name, call) {
  for (let n = 0, refused = 0; ; n++) {
    let thrown = null;
    native.refuse(n);
    try {
      call();
    } catch (error) {
      thrown = error;
    }
    const was = native.refuse(-1);
    if (was >= 0) {
      if (thrown) throw thrown;
      assert.ok(refused > 0 || name in CALLS, `${name}: no request refused`);
      return n;
    }
    const isRefused = thrown?.code === 'SMAP_MEMORY';
    assert.ok(isRefused || (!thrown && name in CALLS_AHEAD), `${name}, request ${n}: ${thrown}`);
    refused += isRefused;
    call();
  }
}

async function refuseLater() {
  for (let n = 0; n < 6; n++) {
    native.refuse(n);
    const opened = SourceMap.open(text, BASE);
    native.refuse(-1);
    await opened.then(one => one.close(), error => assert.equal(error.code, 'SMAP_MEMORY'));
  }
}

// Maps of which most is mappings, contents, sources or names.
const strings = (count, length) => Array.from({ length: count }, (_, i) => `${i}${'x'.repeat(length)}`);
const HELD = {
  mappings: { version: 3, sources: ['a'], mappings: 'AAAA' + ',CAAC'.repeat(100000) },
  lines: { version: 3, sources: ['a'], mappings: 'AAAA' + ';AACA,gBAAgB'.repeat(50000) },
  contents: { version: 3, sources: strings(50, 5), sourcesContent: strings(50, 50000), mappings: 'AAAA' },
  escaped: { version: 3, sources: ['a'], sourcesContent: ['\n"'.repeat(500000)], mappings: 'AAAA' },
  sources: { version: 3, sources: strings(50000, 20), mappings: 'AAAA' },
  names: { version: 3, sources: ['a'], names: strings(100000, 10), mappings: 'AAAA' },
  rooted: { version: 3, sourceRoot: 'r'.repeat(100000), sources: ['a'], mappings: 'AAAA' },
  // Just outgrown: groups of nine sources, and names by powers of two.
  outgrown: { version: 3, sources: strings(9 * 512 + 1, 3), names: strings(2 ** 14 + 1, 3),
    mappings: 'AAAA' },
  small: { version: 3, sources: strings(4, 9), sourcesContent: strings(4, 900), names: strings(50, 8),
    mappings: 'AAAA' + ',CAAC'.repeat(500) },
};

function heldIsNear(name, text) {
  const before = native.allocated();
  const map = new SourceMap(text, BASE);
  const held = native.allocated() - before;
  const ratio = map.heldBytes / held;
  assert.ok(ratio > 0.75 && ratio < 1.25, `${name}: ${map.heldBytes} told for ${held}`);
  map.close();
  assert.ok(native.allocated() - before < 200, `${name}: ${native.allocated() - before} bytes are left`);
}

async function main() {
  for (const [name, text] of Object.entries(HELD)) heldIsNear(name, text);
  let count = 0;
  const calls = Object.entries({ ...CALLS, ...CALLS_AHEAD });
  for (const [name, call] of calls) count += refuseEach(name, call);
  await refuseLater();
  assert.ok(count > 100, `${count} requests`);
  console.log(`${calls.length} calls, ${count} requests refused`);
}

main();
