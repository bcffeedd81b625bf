'use strict';
// Hooks in as @babel/register does: by handlers of several names, `.js` among them, that change the module's
// own `_compile` for one call; with a formatter of stacks, which alone has the maps, from the first file on.
const Module = require('node:module');
const { compile, formatter, isOfProgram } = require('./move.js');

const files = new Set();
const usual = Module._extensions['.js'];
for (const name of ['.es6', '.es', '.jsx', '.js', '.mjs', '.cjs']) {
  const before = Module._extensions[name] ?? usual;
  Module._extensions[name] = function newLoader(module, file) {
    if (isOfProgram(file)) {
      const { _compile } = module;
      module._compile = function (text) {
        module._compile = _compile;
        if (files.size === 0) Error.prepareStackTrace = formatter(files);
        files.add(file);
        module._compile(compile(text), file);
      };
    }
    before(module, file);
  };
}
