'use strict';
// Hooks in as ts-node does: by a handler of `.ts` that changes the module's own `_compile`, with each map in
// the text that is compiled, and a formatter of stacks from the beginning.
const { comment, compile, formatter, mapOf } = require('./move.js');

const files = new Set();
Error.prepareStackTrace = formatter(files);
const usual = require.extensions['.js'];
require.extensions['.ts'] = function (module, file) {
  const { _compile } = module;
  module._compile = function (text, name) {
    files.add(name);
    return _compile.call(this, compile(text) + comment(mapOf(name, text)), name);
  };
  return usual(module, file);
};
