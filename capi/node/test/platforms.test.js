'use strict';
// The package where there is no addon: on another system, and where the package with the addon isn't installed.
const assert = require('node:assert');
const fs = require('node:fs');
const os = require('node:os');
const path = require('node:path');
const { spawnSync } = require('node:child_process');
const { test } = require('node:test');

const PACKAGE = path.dirname(__dirname);
const folder = fs.realpathSync(fs.mkdtempSync(path.join(os.tmpdir(), 'smap-platforms-')));
test.after(() => fs.rmSync(folder, { recursive: true }));
const inFolder = name => path.join(folder, name);

function write(name, text) {
  fs.mkdirSync(path.dirname(inFolder(name)), { recursive: true });
  fs.writeFileSync(inFolder(name), text);
}

// As npm installs it there.
fs.cpSync(PACKAGE, inFolder('node_modules/smap'), {
  recursive: true, filter: name => !['out', 'test'].includes(path.relative(PACKAGE, name)),
});
write('mac.js', `Object.defineProperty(process, 'platform', { value: 'darwin' });
Object.defineProperty(process, 'arch', { value: 'arm64' });`);
write('linux.js', '');

// Nothing that is installed elsewhere is found.
function run(words, environment = {}) {
  const { NODE_OPTIONS, NODE_PATH, NODE_NO_WARNINGS, ...env } = process.env;
  const options = { encoding: 'utf8', cwd: folder, env: { ...env, ...environment } };
  const { stdout, stderr, status } = spawnSync(process.execPath, words, options);
  return { out: stdout, err: stderr, status };
}

const RUNS_ON = 'smap runs on Linux on x86-64 and aarch64, and';
const MISSING = {
  mac: `${RUNS_ON} this is darwin-arm64`,
  linux: `${RUNS_ON} its package smap-linux-x64, which has what is compiled, is not installed`,
};

const said = name => `try { require('${name}'); } catch (error) { console.log(error.code, error.message); }`;
const SAID = "import('smap').catch(error => console.log(error.code, error.message));";

for (const [where, message] of Object.entries(MISSING)) {
  const preload = ['--require', inFolder(`${where}.js`)];

  test(`one sentence says what is missing: ${where}`, () => {
    for (const code of [said('smap'), SAID]) {
      const wants = { out: `SMAP_NOT_BUILT ${message}\n`, err: '', status: 0 };
      assert.deepEqual(run([...preload, '--eval', code]), wants);
    }
  });

  test(`a command says it too: ${where}`, () => {
    for (const name of ['smap', 'smap-trace', 'smap-maps', 'smap-view']) {
      const wants = { out: '', err: `${name}: ${message}\n`, status: 127 };
      assert.deepEqual(run([...preload, inFolder(`node_modules/smap/bin/${name}.js`), '--version']), wants);
    }
  });

  const warning = `smap/register: ${message}: Node's own source maps are used instead\n`;
  const register = [...preload, '--require', 'smap/register'];

  test(`smap/register turns on what Node has, and says so once: ${where}`, () => {
    write('dist/out.js', `console.log(new Error('x').stack.split('\\n')[1]);
const { Worker, isMainThread } = require('worker_threads');
if (isMainThread) new Worker(__filename);
//# sourceMappingURL=out.js.map
`);
    write('dist/out.js.map', '{"version":3,"sources":["a.ts"],"mappings":"AAUA,YAEA"}');
    const { out, err, status } = run([...register, 'dist/out.js']);
    const [main, worker, ...more] = out.split('\n');
    for (const line of [main, worker]) assert.match(line, /\/dist\/a\.ts:13:\d+/);
    assert.deepEqual([more, err, status], [[''], warning, 0]);
  });

  test(`a program that ends at once has it said: ${where}`, () => {
    const ended = run([...register, '--eval', 'process.exit()']);
    assert.deepEqual(ended, { out: '', err: warning, status: 0 });
    const quiet = run([...register, '--eval', 'process.exit()'], { NODE_NO_WARNINGS: '1' });
    assert.deepEqual(quiet, { out: '', err: '', status: 0 });
  });
}

test('an addon that cannot be loaded', () => {
  const addon = inFolder('node_modules/smap/out/smap.node');
  write('node_modules/smap/out/smap.node', 'x');
  const { out } = run(['--eval', said('smap')]);
  assert.ok(out.startsWith(`SMAP_NOT_BUILT ${RUNS_ON} its addon can't be loaded here: ${addon}: `), out);
  fs.rmSync(path.dirname(addon), { recursive: true });
});

// ---- the packages that the layers stand for

const LAYERS = [
  ['smap/source-map', 'source-map', '0.6.1', 'source-map 0.6'],
  ['smap/trace-mapping', '@jridgewell/trace-mapping', '0.3.25', '@jridgewell/trace-mapping'],
  ['smap/gen-mapping', '@jridgewell/gen-mapping', '0.3.5', '@jridgewell/gen-mapping'],
  ['smap/support', 'source-map-support', '0.5.21', 'source-map-support'],
];

function putPackage(name, version) {
  write(`node_modules/${name}/package.json`, JSON.stringify({ name, version }));
  write(`node_modules/${name}/index.js`, '');
}

const onMac = code => run(['--require', inFolder('mac.js'), '--eval', code]);

for (const [layer, name, version, wanted] of LAYERS) {
  test(`${layer} is ${name} itself where there is no addon`, () => {
    const missing = `${MISSING.mac}; nor is ${wanted} installed, which would be used instead`;
    assert.equal(onMac(said(layer)).out, `SMAP_NOT_BUILT ${missing}\n`);
    putPackage(name, version);
    const ended = onMac(`console.log(require('${layer}') === require('${name}'))`);
    assert.deepEqual(ended, { out: 'true\n', err: '', status: 0 });
  });
}

test('smap/source-map is no later version, which has another interface', () => {
  putPackage('source-map', '0.7.4');
  assert.match(onMac(said('smap/source-map')).out, /; nor is source-map 0\.6 installed/);
});

// ---- WebAssembly, which the package has for other systems

const built = path.join(PACKAGE, 'out', 'smap.wasm');
const wasm = { skip: fs.existsSync(built) ? false : 'no smap.wasm here: tools/build-wasm makes it' };
const LOOKS_UP = `const { SourceMap } = require('smap');
const text = '{"version":3,"sources":["a.js"],"mappings":"AAUE"}';
console.log(new SourceMap(text, 'http://h/m/out.js.map').lookup(0, 3).source);`;

for (const [where, message] of Object.entries(MISSING)) {
  const preload = ['--require', inFolder(`${where}.js`)];

  test(`the library runs as WebAssembly where there is no addon: ${where}`, wasm, () => {
    fs.copyFileSync(built, inFolder('node_modules/smap/smap.wasm'));
    const ended = run([...preload, '--eval', LOOKS_UP]);
    assert.deepEqual(ended, { out: 'http://h/m/a.js\n', err: '', status: 0 });
    const { out, err, status } = run([...preload, '--require', 'smap/register', 'dist/out.js']);
    const [main, worker, ...more] = out.split('\n');
    for (const line of [main, worker]) assert.match(line, /\/dist\/a\.ts:1[13]:\d+/);
    assert.deepEqual([more, err, status], [[''], '', 0]);
    const layers = LAYERS.map(([layer, name]) => `require('${layer}') === require('${name}')`);
    const { out: same } = run([...preload, '--eval', `console.log(${layers})`]);
    assert.equal(same, `${LAYERS.map(() => false).join(' ')}\n`);
  });

  test(`what is missing is said where WebAssembly doesn't run either: ${where}`, wasm, () => {
    const ended = run([...preload, '--jitless', '--eval', said('smap')]);
    assert.deepEqual([ended.out, ended.status], [`SMAP_NOT_BUILT ${message}\n`, 0]);
  });
}
