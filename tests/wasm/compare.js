'use strict';
// compare.js PROGRAMS NATIVE CORPUS: runs the programs as WebAssembly, of the folder PROGRAMS, over the files
// of Node and over files in memory, beside the program NATIVE: each case has to give the same bytes and the
// same status.
const fs = require('node:fs');
const path = require('node:path');
const { spawnSync } = require('node:child_process');

const [programs, native, corpus] = process.argv.slice(2).map(name => path.resolve(name));
const { run } = require(path.join(programs, 'host.js'));
const { MODULE } = require(path.join(programs, 'run.js'));
const { compile } = require(path.join(programs, '..', 'wide.js'));
const { nodeSystem } = require(path.join(programs, 'system-node.js'));
const { MemorySystem, newFolder, put } = require(path.join(programs, 'system-memory.js'));

const module_ = compile(fs.readFileSync(MODULE));
const PIPE = 0o10600n;
const counts = { passed: 0, failed: 0 };

// ---- ways to run a program: what it writes, its status, and what then is in the folder

const filesOf = folder => fs.readdirSync(folder, { recursive: true, withFileTypes: true })
  .filter(entry => entry.isFile()).map(entry => path.join(entry.parentPath ?? entry.path, entry.name)).sort();
const treeOf = folder =>
  filesOf(folder).map(file => [path.relative(folder, file), fs.readFileSync(file, 'latin1')]);

function nativeRun(words, input) {
  const options = { argv0: words[0], cwd: corpus, input, maxBuffer: 2 ** 28, env: {} };
  const { stdout, stderr, status } = spawnSync(native, words.slice(1), options);
  return { output: stdout.toString('latin1'), errors: stderr.toString('latin1'), status };
}

/** The system of Node, with standard streams that are pipes: of these bytes, and into lists. */
function piped(input) {
  const system = nodeSystem(MODULE);
  const streams = [null, [], []];
  let at = 0;
  const standard = (call, ours) => (fd, ...more) => (fd < 3 ? ours(fd, ...more) : call(fd, ...more));
  const about = path_ => system.stat(null, Buffer.from(path_), true);
  const isOwn = name => /^\/proc\/self\/fd\/[012]$/.test(Buffer.from(name).toString());
  return {
    ...system,
    streams,
    isTerminal: () => false,
    statOpen: standard(system.statOpen, () => Object.assign(about('.'), { mode: PIPE })),
    stat: (dir, name, follows) =>
      (isOwn(name) ? Object.assign(about('.'), { mode: PIPE }) : system.stat(dir, name, follows)),
    read: standard(system.read, (fd, to) => {
      const bytes = input.subarray(at, at + to.length);
      to.set(bytes);
      at += bytes.length;
      return bytes.length;
    }),
    write: standard(system.write, (fd, bytes) => (streams[fd].push(Buffer.from(bytes)), bytes.length)),
  };
}

const bytesOf = words => words.map(word => Buffer.from(word));

function nodeRun(words, input) {
  const system = piped(input);
  const status = run(module_, bytesOf(words), system);
  const [output, errors] = system.streams.slice(1).map(pieces => Buffer.concat(pieces).toString('latin1'));
  return { output, errors, status };
}

/** The corpus in memory, anew: what a program writes there is the next one's. */
function inMemory() {
  const root = newFolder();
  for (const file of filesOf(corpus)) put(root, file, new Uint8Array(fs.readFileSync(file)));
  const page = fs.readFileSync(path.join(programs, 'smap-view.html'));
  put(root, '/programs/smap-view.html', new Uint8Array(page));
  return root;
}
let root = inMemory();
const textOf = ({ pieces }) => Buffer.concat(pieces).toString('latin1');

function memoryRun(words, input, limit) {
  const system = new MemorySystem(root, { here: corpus, input: new Uint8Array(input) });
  const status = run(module_, bytesOf(words), system, limit);
  return { output: textOf(system.output), errors: textOf(system.errors), status };
}

function treeInMemory() {
  const found = [];
  const add = (folder, above) => {
    for (const [name, { kids, data, size }] of folder.kids) {
      if (kids) add({ kids }, `${above}${name}/`);
      else found.push([above + name, Buffer.from(data.subarray(0, size)).toString('latin1')]);
    }
  };
  add(corpus.split('/').filter(Boolean).reduce((folder, name) => folder.kids.get(name), root), '');
  return found.sort(([a], [b]) => (path.join(corpus, a) < path.join(corpus, b) ? -1 : 1));
}

// ---- cases

function tell(name, words, wanted, got) {
  if (JSON.stringify(wanted) === JSON.stringify(got)) {
    counts.passed++;
    return;
  }
  counts.failed++;
  console.log(`FAILED: ${words.join(' ')}: ${name}`);
  for (const [key, value] of Object.entries(wanted)) {
    if (JSON.stringify(value) === JSON.stringify(got[key])) continue;
    const [is, was] = [got[key], value].map(one => JSON.stringify(one).slice(0, 300));
    console.log(`  ${key}: ${is}, not ${was}`);
  }
}

function same(words, input = Buffer.alloc(0)) {
  const wanted = nativeRun(words, input);
  tell('over the files of Node', words, wanted, nodeRun(words, input));
  tell('over files in memory', words, wanted, memoryRun(words, input));
}

/** A program that writes files: the same files are there at the end. */
function sameFiles(words) {
  const kept = `${corpus}.kept`;
  fs.cpSync(corpus, kept, { recursive: true });
  const anew = () => {
    fs.rmSync(corpus, { recursive: true });
    fs.cpSync(kept, corpus, { recursive: true });
    process.chdir(corpus);
  };
  const wanted = { ...nativeRun(words), tree: treeOf(corpus) };
  anew();
  tell('over the files of Node', words, wanted, { ...nodeRun(words, Buffer.alloc(0)), tree: treeOf(corpus) });
  anew();
  root = inMemory();
  tell('over files in memory', words, wanted, { ...memoryRun(words, Buffer.alloc(0)), tree: treeInMemory() });
  root = inMemory();
  fs.rmSync(kept, { recursive: true });
}

/** With less and less memory a run gives a part of what it gives with enough, or all, and says so. */
function limited(words, input) {
  const wanted = memoryRun(words, input);
  let refused = 0;
  for (let limit = 9 * 2 ** 20; limit < 64 * 2 ** 20; limit += limit >> 3) {
    const got = memoryRun(words, input, limit);
    if (got.status === wanted.status) {
      tell(`in ${limit} bytes`, words, wanted, got);
    } else {
      refused++;
      const isPart = wanted.output.startsWith(got.output);
      tell(`in ${limit} bytes`, words, { status: 4, errors: 'smap: out of memory\n', isPart: true },
        { status: got.status, errors: got.errors, isPart });
    }
  }
  tell('memory that ends', words, { isRefused: true }, { isRefused: refused > 0 });
}

function cases() {
  const base = 'http://localhost/out/x.js.map';
  const maps = filesOf(path.join(corpus, 'build')).filter(file => file.endsWith('.map'));
  for (const file of maps) {
    const input = fs.readFileSync(file);
    const commands = [['tidy'], ['check'], ['flatten'], ['tidy', '--relative']];
    const tried = input.length > 100_000 ? commands : commands.slice(0, 1);
    for (const command of tried) same(['smap', ...command, base], input);
  }
  same(['smap', 'respell'], fs.readFileSync(path.join(corpus, 'mappings.txt')));
  same(['smap', 'translate'], fs.readFileSync(path.join(corpus, 'large.bundle')));
  for (const name of ['check', 'tidy', 'flatten', 'lint', 'repair']) same(['smap-maps', name, 'build']);
  for (const format of ['json', 'sarif', 'junit']) same(['smap-maps', 'lint', '--format', format, 'build']);
  same(['smap-maps', 'tidy', '--diff', 'build/small']);
  for (const file of filesOf(path.join(corpus, 'logs'))) {
    const log = path.relative(corpus, file);
    same(['smap-trace', 'build', log]);
    same(['smap-trace', '--context', '1', 'build/engines', 'build/flat.js.map'], fs.readFileSync(file));
    same(['smap-trace', '--list', 'http://localhost/out/=build', log]);
  }
  for (const name of ['engines/shop.js', 'small/worked.map', 'small']) same(['smap-view', `build/${name}`]);
  same(['smap-view', '--sizes', 'json', 'build/small']);
  same(['smap-trace', '--help']);
  same(['smap', '--version']);
  same(['smap-maps', 'check', 'none']);
  sameFiles(['smap-maps', 'tidy', '--write', '--drop', 'build']);
  sameFiles(['smap-maps', 'repair', '--write', 'build']);
  sameFiles(['smap-trace', '-o', 'logs/out.log', 'build', 'logs/large.log']);
  limited(['smap', 'tidy', base], fs.readFileSync(path.join(corpus, 'build/flat.js.map')));
  limited(['smap', 'translate'], fs.readFileSync(path.join(corpus, 'large.bundle')));
}

process.chdir(corpus);
cases();
console.log(`${counts.passed} passed, ${counts.failed} failed`);
process.exitCode = counts.failed ? 1 : 0;
