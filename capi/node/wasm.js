'use strict';
// The library as WebAssembly, for Node.
const fs = require('node:fs');
const path = require('node:path');
const { callsOf } = require('./calls.js');
const host = require('./host.js');
const { compile } = require('./wide.js');

/** The functions of a file, with a memory of its own. */
function instance(file) {
  return new WebAssembly.Instance(compile(fs.readFileSync(file))).exports;
}

// tools/build-wasm puts it into the folder out, as build.sh does the addon.
const built = path.join(__dirname, 'out', 'smap.wasm');
const file = fs.existsSync(built) ? built : path.join(__dirname, 'smap.wasm');

/** What native.js has, with a memory of its own. */
const load = () => callsOf(instance(file), host);

module.exports = { file, instance, load };
