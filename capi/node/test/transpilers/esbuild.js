'use strict';
// Hooks in as esbuild-register does: by pirates, which puts handlers of several names before Node's own and
// changes the module's own `_compile`; with each map in the text that is compiled, and Node's source maps turned
// on to read them. The module esbuild isn't in Debian, so the program of that name compiles.
const { execFileSync } = require('node:child_process');
const path = require('node:path');
const { addHook } = require('pirates');
const { isOfProgram } = require('./move.js');

const LOADERS = { '.js': 'js', '.jsx': 'jsx', '.ts': 'ts', '.tsx': 'tsx', '.mjs': 'js' };

function compile(text, file) {
  const loader = LOADERS[path.extname(file)];
  const words = ['--sourcemap=inline', '--format=cjs', '--target=es2015', `--loader=${loader}`];
  return execFileSync('esbuild', [...words, `--sourcefile=${file}`], { input: text, encoding: 'utf8' });
}

addHook(compile, { exts: Object.keys(LOADERS), ignoreNodeModules: true, matcher: isOfProgram });
process.setSourceMapsEnabled(true);
