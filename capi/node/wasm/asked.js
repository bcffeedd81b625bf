'use strict';
// asked.js MODULE: names what a module asks of its host that programs/host.js doesn't have, and
// fails if there is any.
const fs = require('node:fs');
const { callsOver } = require('../programs/host.js');
const { compile } = require('../wide.js');

const had = Object.keys(callsOver({}, [], null));
const asked = WebAssembly.Module.imports(compile(fs.readFileSync(process.argv[2])));
const lacking = asked.filter(({ module, name }) => module !== 'env' || !had.includes(name));
for (const { module, name } of lacking) process.stderr.write(`${module}.${name}\n`);
process.exitCode = lacking.length ? 1 : 0;
