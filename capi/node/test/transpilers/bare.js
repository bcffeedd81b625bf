'use strict';
// Hooks in by a handler of `.jsx`, as sucrase does: each map is in the text that is compiled, and stacks are
// left alone.
const { comment, compile, mapOf } = require('./move.js');

const usual = require.extensions['.js'];
require.extensions['.jsx'] = function (module, file) {
  const { _compile } = module;
  module._compile = function (text, name) {
    return _compile.call(this, compile(text) + comment(mapOf(name, text)), name);
  };
  return usual(module, file);
};
