'use strict';
// The commands of the package run a program of the package for the platform, for which scripts stand here.
// They pass on words, streams, statuses and signals. Where there is none, they run the module.
const assert = require('node:assert');
const fs = require('node:fs');
const os = require('node:os');
const path = require('node:path');
const { spawn, spawnSync } = require('node:child_process');
const { once } = require('node:events');
const { test } = require('node:test');

const PACKAGE = path.dirname(__dirname);
const folder = fs.realpathSync(fs.mkdtempSync(path.join(os.tmpdir(), 'smap-programs-')));
test.after(() => fs.rmSync(folder, { recursive: true }));
const programs = path.join(folder, 'node_modules', `smap-${process.platform}-${process.arch}`, 'bin');
const command = name => path.join(folder, 'node_modules', 'smap', 'bin', `${name}.js`);

fs.cpSync(path.join(PACKAGE, 'bin'), path.dirname(command('smap')), { recursive: true });
fs.cpSync(path.join(PACKAGE, 'programs'), path.join(folder, 'node_modules/smap/programs'), { recursive: true });
for (const name of ['platform.js', 'wide.js']) {
  fs.cpSync(path.join(PACKAGE, name), path.join(folder, 'node_modules/smap', name));
}
fs.mkdirSync(programs, { recursive: true });

function putProgram(name, script, mode = 0o755) {
  fs.writeFileSync(path.join(programs, name), `#!/bin/sh\n${script}\n`);
  fs.chmodSync(path.join(programs, name), mode);
}

const run = (name, words, input = '', flags = []) =>
  spawnSync(process.execPath, [...flags, command(name), ...words], { encoding: 'utf8', input });

test('words, streams and the status are those of the program', () => {
  putProgram('smap', 'printf "<%s>" "$@"; cat; echo said >&2; exit 3');
  for (const name of ['smap', 'smap-trace', 'smap-maps', 'smap-view']) {
    const { stdout, stderr, status } = run(name, ['a b', '', '--x=*'], 'in');
    assert.deepEqual([stdout, stderr, status], ['<a b><><--x=*>in', 'said\n', 3], name);
  }
});

test('the program is called by the name of the command', () => {
  fs.rmSync(path.join(programs, 'smap'));
  fs.copyFileSync(process.execPath, path.join(programs, 'smap'));
  for (const name of ['smap', 'smap-trace', 'smap-maps', 'smap-view']) {
    assert.equal(run(name, ['--print', 'process.argv0']).stdout, `${name}\n`);
  }
  fs.rmSync(path.join(programs, 'smap'));
});

// Its end closes the pipe.
for (const signal of ['SIGINT', 'SIGTERM', 'SIGHUP']) {
  test(`a signal ends the program too: ${signal}`, async () => {
    putProgram('smap', 'echo ready; exec sleep 60');
    const started = spawn(process.execPath, [command('smap')], { stdio: ['ignore', 'pipe', 'inherit'] });
    await once(started.stdout, 'data');
    started.kill(signal);
    assert.deepEqual(await once(started, 'close'), [null, signal]);
  });
}

test('a program that a signal ended', () => {
  putProgram('smap', 'kill -ABRT $$');
  assert.equal(run('smap', []).signal, 'SIGABRT');
  // Node ignores this one.
  putProgram('smap', 'trap - PIPE; kill -PIPE $$');
  assert.equal(run('smap', []).status, 128 + os.constants.signals.SIGPIPE);
});

test('a program that cannot be run', () => {
  putProgram('smap', '', 0o644);
  const { stderr, status } = run('smap-trace', []);
  assert.match(stderr, /^smap-trace: smap runs on Linux .*, and its program can't be run here: .*EACCES/);
  assert.equal(status, 127);
});

// ---- where there is no package for the platform

// In place of the module: (memory 1), and main, which gives how long its third word is.
const MODULE = Uint8Array.of(0, 0x61, 0x73, 0x6d, 1, 0, 0, 0, 1, 14, 2, 0x60, 3, 0x7e, 0x7e, 0x7e, 1, 0x7e, 0x60, 2, 0x7f,
  0x7e, 1, 0x7f, 2, 18, 1, 3, 0x65, 0x6e, 0x76, 10, 0x72, 0x61, 0x74, 0x74, 0x6c, 0x65, 0x5f, 0x61, 0x72, 0x67, 0, 0, 3,
  2, 1, 1, 5, 3, 1, 0, 1, 7, 17, 2, 6, 0x6d, 0x65, 0x6d, 0x6f, 0x72, 0x79, 2, 0, 4, 0x6d, 0x61, 0x69, 0x6e, 0, 1, 10, 14,
  1, 12, 0, 0x42, 2, 0x42, 0, 0x42, 0xe4, 0, 0x10, 0, 0xa7, 0x0b);

function withoutPackage(check) {
  const module = path.join(folder, 'node_modules/smap/programs/smap-programs.wasm');
  const away = `${path.dirname(programs)}.away`;
  fs.renameSync(path.dirname(programs), away);
  fs.writeFileSync(module, MODULE);
  try {
    check();
  } finally {
    fs.rmSync(module);
    fs.renameSync(away, path.dirname(programs));
  }
}

test('where there is no program of the platform, the module is run, with all bytes of its words', () => {
  withoutPackage(() => {
    assert.equal(run('smap', ['a', 'four']).status, 4);
    if (process.platform !== 'linux') return;
    const words = `"${process.execPath}" "${command('smap-view')}" a "$(printf '\\377b\\377')"`;
    assert.equal(spawnSync('sh', ['-c', words]).status, 3);
  });
});

test('nor where WebAssembly has no memory of 64 bits', () => {
  const narrow = path.join(folder, 'narrow.js');
  fs.writeFileSync(narrow, 'WebAssembly.validate = () => false;');
  withoutPackage(() => {
    const { stderr, status } = run('smap-trace', ['a'], '', ['--require', narrow]);
    assert.match(stderr, /^smap-trace: smap runs on Linux on x86-64 and aarch64, and its package .* is not installed\n$/);
    assert.equal(status, 127);
  });
});
