'use strict';
// Scripts whose text isn't that of their file, since a package compiles what Node reads.
const Module = require('node:module');

// Node's own handlers of `require`. Those of TypeScript leave positions as they are.
const USUAL = ['.js', '.json', '.node', '.ts', '.cts', '.mts'];
const isTranspiling = () => Object.keys(Module._extensions).some(name => !USUAL.includes(name));

/** Calls `put` with the name and the text of each script that is compiled from now on. */
function hookRequire(put) {
  const { prototype } = Module;
  const compile = prototype._compile;
  if (compile.isHooked) return;
  prototype._compile = function (text, name, ...more) {
    put(name, text);
    return compile.call(this, text, name, ...more);
  };
  prototype._compile.isHooked = true;
}

/**
 * The map that Node read out of the text that it compiled, or null: a package may have Node's own source maps
 * turned on, as esbuild's do. What Node runs without one is left to the rules that hold everywhere.
 */
function nodesMap(script) {
  if (/\.[cm]?js([?#]|$)/.test(script) && !isTranspiling()) return null;
  return Module.findSourceMap(script)?.payload ?? null;
}

module.exports = { isTranspiling, hookRequire, nodesMap };
