'use strict';
// Hooks in by a handler of `.ts`, with a formatter of stacks from the beginning, which alone has the maps.
const { compile, formatter } = require('./move.js');

const files = new Set();
Error.prepareStackTrace = formatter(files);
const usual = require.extensions['.js'];
require.extensions['.ts'] = function (module, file) {
  const { _compile } = module;
  module._compile = function (text, name) {
    files.add(name);
    return _compile.call(this, compile(text), name);
  };
  return usual(module, file);
};
