'use strict';
// manual.js PAGE FOLDER: writes the programs of a page and what they print to files. A program is a block of
// JavaScript; what it prints is the next block without a language.
const fs = require('node:fs');
const path = require('node:path');

const [page, folder] = process.argv.slice(2);
const blocks = [...fs.readFileSync(page, 'utf8').matchAll(/^```(\w*)\n(.*?)^```$/gms)];
const programs = blocks.flatMap(([, language, text], i) => {
  const printed = blocks.slice(i + 1).find(block => block[1] === '' || block[1] === 'js');
  return language === 'js' ? [{ text, printed: printed[1] === '' ? printed[2] : null }] : [];
});
const isWhole = programs.length >= 4 && programs.every(one => one.printed !== null);
if (!isWhole) throw new Error('a program without a result');
fs.mkdirSync(folder, { recursive: true });
programs.forEach(({ text, printed }, i) => {
  const file = path.join(folder, `program${i}.${text.startsWith('import ') ? 'mjs' : 'cjs'}`);
  fs.writeFileSync(file, text);
  fs.writeFileSync(file + '.out', printed);
});
fs.writeFileSync(path.join(folder, 'out.js.map'), '{"version":3,"sources":["a.js"],"mappings":"AAUE,IAEA"}');
fs.writeFileSync(path.join(folder, 'crash.log'), 'Error: x\n    at f (http://h/m/out.js:1:2)\n');
