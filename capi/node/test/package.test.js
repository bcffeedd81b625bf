'use strict';
// What package.json names is there, and a module that is imported has the names of the one that is required.
const assert = require('node:assert');
const fs = require('node:fs');
const path = require('node:path');
const { test } = require('node:test');

const PACKAGE = path.dirname(__dirname);
const about = require('../package.json');

// The files that a value names, however deep.
function filesIn(value) {
  if (typeof value === 'string') return [value];
  return Object.values(value).flatMap(filesIn);
}

// What is made elsewhere: by wasm/bundle.js and tools/build-wasm.
const MADE = ['./browser.mjs', './browser.d.mts', './smap.wasm'];

test('every file that package.json names is there', () => {
  const named = filesIn([about.main, about.types, about.exports, about.bin]);
  const files = named.filter(file => !MADE.includes(file));
  assert.ok(files.length > 20);
  for (const file of files) assert.ok(fs.statSync(path.join(PACKAGE, file)).isFile(), file);
});

test('each condition has types of its own kind', () => {
  for (const entry of Object.values(about.exports)) {
    if (!entry.import) continue;
    assert.match(entry.import.types, /\.d\.mts$/);
    assert.match(entry.require.types, /\.d\.ts$/);
  }
});

test('import gives the names that require gives', async () => {
  for (const [name, entry] of Object.entries(about.exports)) {
    if (!entry.import) continue;
    const given = require(path.join(PACKAGE, entry.require.default));
    const required = typeof given === 'function' ? { default: given } : given;
    const imported = await import(path.join(PACKAGE, entry.import.default));
    assert.deepEqual(Object.keys(imported).sort(), Object.keys(required).sort(), name);
    for (const key of Object.keys(imported)) assert.equal(imported[key], required[key], key);
  }
});
