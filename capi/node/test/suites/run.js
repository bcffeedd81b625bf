'use strict';
// Runs another package's own tests over the layer that takes its place.
//
//     node run.js NAME FOLDER
//
// NAME is `source-map`, `gen-mapping`, `remapping` or `source-map-support`, and FOLDER has its sources, as
// tools/peer-suites puts them there. What differs on purpose is listed in differences.json with its reason:
// such a test has to fail with the error that stands there, and any other one to pass. Only tests that ask
// the layer are counted. Before, all of them are run over the package itself, and have to pass. The last line
// is 'N passed, M failed'. The status is 3, and the line a reason, if the tests aren't those that the list is
// for, or need a package that isn't here.
const fs = require('node:fs');
const Module = require('node:module');
const os = require('node:os');
const path = require('node:path');
const assert = require('node:assert');
const { spawnSync } = require('node:child_process');

const SUITES = {
  'source-map': {
    layers: { '../../source-map.js': /(^|\/)source-(map|map-consumer|map-generator|node)(\.js)?$/ },
    load: loadExports,
    needs: [],
  },
  'gen-mapping': {
    layers: { '../../gen-mapping.js': /^\.\.(\/src\/gen-mapping)?$/ },
    load: loadGenMapping,
    needs: ['typescript', '@jridgewell/gen-mapping', '@jridgewell/trace-mapping'],
  },
  remapping: {
    layers: {
      '../../trace-mapping.js': /^@jridgewell\/trace-mapping$/,
      '../../remapping.js': /\/src\/remapping$/,
      '../../source-map.js': /^source-map$/,
    },
    load: loadTypeScript,
    needs: ['typescript', '@jridgewell/gen-mapping', '@jridgewell/trace-mapping', 'source-map'],
  },
  // Each of its tests makes stacks, in this process or another, and `asked` counts calls of this one.
  'source-map-support': { layers: {}, load: loadCopy, needs: ['source-map'], asksAlways: true },
};

// ---- how each suite's tests are found: a map of names to calls

// Tests are what a file exports as `test ..`.
function loadExports(folder) {
  const tests = new Map();
  const files = fs.readdirSync(path.join(folder, 'test')).filter(file => /^test-.*\.js$/.test(file));
  for (const file of files) {
    const all = Object.entries(require(path.join(folder, 'test', file)));
    for (const [name, call] of all) if (name.startsWith('test')) tests.set(`${file}: ${name}`, call);
  }
  return tests;
}

function loadTypeScript(folder) {
  // It wants version 0.1, and this is a later one, where two calls have other names.
  const writer = require('@jridgewell/gen-mapping');
  substitute(name => name === '@jridgewell/gen-mapping' &&
    { ...writer, encodedMap: writer.toEncodedMap, decodedMap: writer.toDecodedMap });
  const { transpileModule, ModuleKind, ScriptTarget } = require('typescript');
  const compilerOptions = { module: ModuleKind.CommonJS, target: ScriptTarget.ES2020, esModuleInterop: true };
  Module._extensions['.ts'] = (module, file) =>
    module._compile(transpileModule(fs.readFileSync(file, 'utf8'), { compilerOptions }).outputText, file);
  const tests = new Map();
  let file;
  require('./jest.js').start((name, call) => tests.set(`${file}: ${name}`, call));
  const files = filesBelow(path.join(folder, 'test'), '').filter(file => file.endsWith('.ts'));
  for (file of files) require(path.join(folder, 'test', file));
  return tests;
}

// What they ask for isn't built there; that which is installed is.
function loadGenMapping(folder, isOurs) {
  if (!isOurs) substitute(name => name === '..' && require('@jridgewell/gen-mapping'));
  return loadTypeScript(folder);
}

// Its tests write programs into their folder and run them, so the layer stands there as a file, in a copy.
function loadCopy(folder, isOurs) {
  const copy = fs.mkdtempSync(path.join(os.tmpdir(), 'smap-suite-'));
  process.on('exit', () => fs.rmSync(copy, { recursive: true }));
  fs.cpSync(folder, copy, { recursive: true });
  const put = (name, text) => fs.writeFileSync(path.join(copy, name), text);
  const support = JSON.stringify(path.resolve(__dirname, '../../support.js'));
  if (isOurs) put('source-map-support.js', `module.exports = require(${support});`);
  // What this package was for is in Node now.
  fs.mkdirSync(path.join(copy, 'node_modules', 'buffer-from'), { recursive: true });
  put('node_modules/buffer-from/index.js', 'module.exports = (...words) => Buffer.from(...words);');
  // V8 has left `Object.` out since.
  const text = fs.readFileSync(path.join(copy, 'test.js'), 'utf8');
  put('test.js', text.replaceAll('Object\\.exports', '(?:Object\\.)?exports'));
  process.chdir(copy);
  const tests = new Map();
  globalThis.it = (name, call) => tests.set(`test.js: ${name}`, () => called(call));
  require(path.join(copy, 'test.js'));
  return tests;
}

// Calls a test of mocha's, which may take a function to call at its end.
function called(call) {
  if (call.length === 0) return call();
  return new Promise((done, fail) => call(error => (error ? fail(error) : done())));
}

function filesBelow(folder, name) {
  const entries = fs.readdirSync(path.join(folder, name), { withFileTypes: true });
  return entries.flatMap(entry => {
    const inner = path.posix.join(name, entry.name);
    return entry.isDirectory() ? filesBelow(folder, inner) : [inner];
  });
}

// ---- the layers in place of the packages

let asked = 0; // how often anything of a layer was called

const counting = {
  apply: (...call) => (asked++, Reflect.apply(...call)),
  construct: (call, args) => (asked++, Reflect.construct(call, args)),
  get: (call, key) => (/^from/.test(String(key)) && asked++, call[key]),
};

function counted(exports) {
  const of = value => (typeof value === 'function' ? new Proxy(value, counting) : value);
  if (typeof exports === 'function') return of(exports);
  return Object.fromEntries(Object.entries(exports).map(([name, value]) => [name, of(value)]));
}

function replace(layers) {
  const wrapped = Object.entries(layers).map(([file, names]) => [names, counted(require(file))]);
  substitute(name => wrapped.find(([names]) => names.test(name))?.[1]);
}

// From here on `require` answers what `pick` has for a name, if it has something.
function substitute(pick) {
  const load = Module._load;
  Module._load = (name, ...rest) => pick(name) || load.call(Module, name, ...rest);
}

// ---- running

async function failureOf(call) {
  try {
    await call(assert);
    return null;
  } catch (error) {
    return error;
  }
}

// Each test's name, what it failed with, and whether it asked the layer.
async function resultsOf(tests) {
  const results = [];
  for (const [name, call] of tests) {
    const before = asked;
    const failure = await failureOf(call);
    results.push({ name, failure, hasAsked: asked > before });
  }
  return results;
}

async function runTheirs({ load }, folder) {
  const failures = (await resultsOf(load(folder, false))).filter(({ failure }) => failure);
  for (const { name, failure } of failures) console.log(`FAILED over the package: ${name}: ${failure}`);
  process.exitCode = failures.length ? 1 : 0;
}

async function runOurs({ load, layers, asksAlways }, folder, differences) {
  replace(layers);
  const tests = load(folder, true);
  const isCounted = ({ failure, hasAsked }) => failure || hasAsked || asksAlways;
  const results = (await resultsOf(tests)).filter(isCounted);
  const isWrong = ({ name, failure }) =>
    name in differences ? !failure?.message.includes(differences[name].error) : failure;
  const wrong = results.filter(isWrong);
  for (const { name, failure } of wrong) {
    console.log(`FAILED: ${name}: ${failure?.stack ?? 'it passes, and is listed as differing'}`);
  }
  const lost = Object.keys(differences).filter(name => !results.some(result => result.name === name));
  for (const name of lost) console.log(`FAILED: ${name}: it is listed as differing, and isn't there`);
  const passed = results.filter(({ failure }) => !failure).length;
  const differ = Object.keys(differences).length;
  console.log(`${results.length} of ${tests.size} tests ask the layer, ${differ} differ as listed`);
  console.log(`${passed} passed, ${wrong.length + lost.length} failed`);
  process.exitCode = wrong.length + lost.length ? 1 : 0;
}

function leaveOut(why) {
  console.log(why);
  process.exit(3);
}

function isMissing(name) {
  try {
    require.resolve(name);
    return false;
  } catch {
    return true;
  }
}

async function main([name, folder, which]) {
  const suite = SUITES[name];
  if (!suite) leaveOut(`capi/node/test/suites/run.js doesn't know the tests of ${name}`);
  const missing = suite.needs.find(isMissing);
  if (missing) leaveOut(`no package ${missing} here`);
  const { version, tests } = require('./differences.json')[name];
  const has = JSON.parse(fs.readFileSync(path.join(folder, 'package.json'), 'utf8')).version;
  if (has !== version) leaveOut(`they are of version ${has}, and the differences listed are of ${version}`);
  if (which === '--theirs') return runTheirs(suite, folder);
  const words = [__filename, name, folder, '--theirs'];
  const { status } = spawnSync(process.execPath, words, { stdio: 'inherit' });
  await runOurs(suite, folder, tests);
  if (status !== 0) process.exitCode = 1;
}

main(process.argv.slice(2));
