'use strict';
// bundle.js FOLDER: writes browser.mjs and browser.d.mts into a folder, the package for browsers: the files that
// Node has, within one module, over browser-host.js in place of host.js; and the types of index.d.ts.
const fs = require('node:fs');
const path = require('node:path');

const PACKAGE = path.dirname(__dirname);
const SHARED = ['errors', 'halves', 'inputs', 'inside', 'links', 'calls', 'builder', 'index'];
const read = name => fs.readFileSync(path.join(PACKAGE, name), 'utf8');

// A text in which what a pattern finds is replaced. It has to find something.
function replaced(text, pattern, by) {
  if (!pattern.test(text)) throw new Error(`nothing fits ${pattern}`);
  return text.replace(new RegExp(pattern, `${pattern.flags}g`), by);
}

// ---- the code

function moduleOf([name, file]) {
  const text = replaced(read(file), /^'use strict';\n/, '').replace(/\brequire\(/g, 'load(');
  const strange = /\b(?:Buffer|process)\.\w+|'node:\w+/.exec(text);
  if (strange) throw new Error(`${file} has ${strange[0]}, which browsers lack`);
  return `'./${name}.js'(module, load) {\n${text}},\n`;
}

function code() {
  const files = [['host', 'wasm/browser-host.js'], ...SHARED.map(name => [name, `${name}.js`])];
  const head = '// capi/node/wasm/bundle.js wrote this out of the files of the package.\nconst files = {\n';
  return `${head}${files.map(moduleOf).join('')}};\n${read('wasm/open.mjs')}`;
}

// ---- the types: what Node exports are the members of what `open` gives

// Members of SourceMap that open files, or speak to other threads.
const LACKING = [/^ +static fromFile\(.*\n/m, /^ +static take\(.*\n/m, /^ +share\(\): number;\n/m];

function types() {
  let text = replaced(read('index.d.ts'), /^\/\/\/ <reference types="node" \/>\n\n/, '');
  const values = [...text.matchAll(/^export (?:class|function|const) (\w+)/gm)].map(match => match[1]);
  const names = [...text.matchAll(/^export (?:class|interface|type) (\w+)/gm)].map(match => match[1]);
  const comment = / *\/\*\*(?:(?!\*\/)[^])*\*\/\n/.source;
  for (const member of LACKING) text = replaced(text, new RegExp(comment + member.source.slice(1), 'm'), '');
  text = replaced(text, /\bBuffer\b/, 'Uint8Array');
  text = replaced(text, /on a thread of the pool/, 'where a promise is wanted: on the same thread');
  text = replaced(text, /^export (class|function|const) /m, 'declare $1 ');
  text = replaced(text, /^export (interface|type) /m, '$1 ');
  text = replaced(text, /^export \{\};\n\n/m, '');
  const members = [...new Set(values)].map(name => `  readonly ${name}: typeof ${name};\n`);
  return `${text}
export type { ${[...new Set(names)].join(', ')} };

/** The library, with a memory of its own. */
export interface Library {
${members.join('')}}

/**
 * Loads the library: smap.wasm, which lies beside this file unless its URL, its bytes or the module are given.
 * Nothing else is requested. Each call makes a library of its own, whose maps no other takes. Its memory only
 * grows, and is given back once nothing refers to the library.
 */
export function open(
  from?: string | URL | ArrayBuffer | ArrayBufferView | WebAssembly.Module,
): Promise<Library>;
`;
}

const [folder] = process.argv.slice(2);
fs.writeFileSync(path.join(folder, 'browser.mjs'), code());
fs.writeFileSync(path.join(folder, 'browser.d.mts'), types());
