'use strict';
// The calls into the library: the addon that build.sh made, or the one in the package for this platform; or
// else WebAssembly. SMAP_WASM=1 asks for that where there is an addon too, for tests.
const fs = require('node:fs');
const path = require('node:path');
const { failure, fileOf } = require('./platform.js');

const built = path.join(__dirname, 'out', 'smap.node');

function addon(file) {
  try {
    return require(file);
  } catch (error) {
    throw failure(`its addon can't be loaded here: ${error.message}`, error);
  }
}

// What is missing for the addon is said where WebAssembly doesn't run either.
function wasm(missing) {
  try {
    return require('./wasm.js').load();
  } catch (error) {
    throw missing ?? error;
  }
}

function load() {
  if (process.env.SMAP_WASM === '1') return wasm();
  if (fs.existsSync(built)) return addon(built);
  let file;
  try {
    file = fileOf('smap.node');
  } catch (error) {
    return wasm(error);
  }
  return addon(file);
}

module.exports = load();
