'use strict';
// What the programs ask of C, as capi/node/programs/host.js has it: each call over the files of Node and over
// files in memory, with the errors that Linux has for it. The programs themselves are run by tests/wasm.
const assert = require('node:assert');
const fs = require('node:fs');
const os = require('node:os');
const path = require('node:path');
const { spawnSync } = require('node:child_process');
const { test } = require('node:test');
const { callsOver, run, Memory } = require('../programs/host.js');
const { numberOf, wordsOf } = require('../programs/numbers.js');
const { nodeSystem } = require('../programs/system-node.js');
const { MemorySystem, newFolder, put } = require('../programs/system-memory.js');

const isLinux = process.platform === 'linux';
const folder = fs.realpathSync(fs.mkdtempSync(path.join(os.tmpdir(), 'smap-host-')));
test.after(() => fs.rmSync(folder, { recursive: true }));

const HERE = -100;
const NOFOLLOW = 0x100;
const EMPTY_PATH = 0x1000;
const [O_RDONLY, O_WRONLY, O_CREAT, O_EXCL, O_TRUNC] = [0, 1, 0o100, 0o200, 0o1000];
const PROGRAM = path.join(folder, 'smap-programs.wasm');

/** The calls over a system, by which a test stands in for a program. Texts lie at 0, what comes back at 8192. */
class Program {
  constructor(system, words = []) {
    this.memory = new Memory();
    this.memory.memory = { buffer: new ArrayBuffer(2 ** 20) };
    this.calls = callsOver(system, words, this.memory);
  }

  text(words, at = 0) {
    const bytes = Buffer.from(words);
    assert.ok(this.memory.putText(at, bytes, 4096));
    return BigInt(at);
  }

  /** What a call gives, or the words for its error. */
  ask(name, ...values) {
    const got = this.calls[name](...values);
    if (got !== -1 && got !== -1n) return Number(got);
    return wordsOf(this.calls.rattle_errno());
  }

  open(name, flags = O_RDONLY, mode = 0o666) {
    return this.ask('host_open', this.text(name), flags, mode);
  }

  read(fd, size = 100) {
    const got = this.ask('read', fd, 8192n, BigInt(size));
    return typeof got === 'string' ? got : { text: this.back(got) };
  }

  back(size) {
    return Buffer.from(this.memory.bytes(8192n, size)).toString();
  }

  write(fd, text) {
    const bytes = Buffer.from(text);
    this.memory.bytes(8192n, bytes.length).set(bytes);
    return this.ask('write', fd, 8192n, BigInt(bytes.length));
  }

  rename(from, to) {
    return this.ask('rename', this.text(from), this.text(to, 4096));
  }

  stat(name, flags = 0, dir = HERE) {
    const got = this.ask('statx', dir, this.text(name), flags, 0x7ff, 8192n);
    if (typeof got === 'string') return got;
    const view = this.memory.view(8192n, 256);
    const [mode, uid] = [view.getUint16(28, true), view.getUint32(20, true)];
    return { mode, uid, size: Number(view.getBigUint64(40, true)) };
  }

  /** The entries of a folder, each [name, kind], in buffers of so many bytes. */
  list(name, room = 4096, dir = HERE) {
    const fd = this.ask('rattle_open_dir_at', dir, this.text(name));
    if (typeof fd === 'string') return fd;
    const found = [];
    for (let size; (size = this.ask('getdents64', fd, 8192n, BigInt(room))) !== 0;) {
      if (typeof size === 'string') return size;
      const bytes = Buffer.from(this.memory.bytes(8192n, size));
      for (let at = 0; at < size; at += bytes.readUInt16LE(at + 16)) {
        const end = bytes.indexOf(0, at + 19);
        found.push([bytes.toString('latin1', at + 19, end), bytes[at + 18]]);
      }
    }
    assert.equal(this.ask('close', fd), 0);
    return found.sort();
  }
}

// ---- both systems, with the same files

const FILES = { 'a.txt': 'one two', 'below/b.txt': 'b', 'empty': '' };

function inNode() {
  const here = fs.mkdtempSync(path.join(folder, 'files-'));
  for (const [name, text] of Object.entries(FILES)) {
    fs.mkdirSync(path.dirname(path.join(here, name)), { recursive: true });
    fs.writeFileSync(path.join(here, name), text);
  }
  process.chdir(here);
  return { system: nodeSystem(PROGRAM), here };
}

function inMemory(more = {}) {
  const root = newFolder();
  for (const [name, text] of Object.entries(FILES)) put(root, `/work/${name}`, Uint8Array.from(Buffer.from(text)));
  return { system: new MemorySystem(root, { here: '/work', program: PROGRAM, ...more }), here: '/work' };
}

for (const [where, make] of [['files of Node', inNode], ['files in memory', inMemory]]) {
  const both = (name, check) => test(`${where}: ${name}`, () => {
    const { system, here } = make();
    check(new Program(system, [Buffer.from('smap'), Buffer.from('a b')]), here);
  });

  both('reading and writing', program => {
    const fd = program.open('a.txt');
    assert.deepEqual([program.read(fd, 4), program.read(fd), program.read(fd)],
      [{ text: 'one ' }, { text: 'two' }, { text: '' }]);
    assert.equal(program.ask('close', fd), 0);
    const made = program.open('new', O_WRONLY | O_CREAT | O_EXCL, 0o600);
    assert.deepEqual([program.write(made, 'abc'), program.write(made, 'de')], [3, 2]);
    for (const name of ['fsync', 'fdatasync', 'close']) assert.equal(program.ask(name, made), 0);
    assert.deepEqual(program.read(program.open('new')), { text: 'abcde' });
    const cut = program.open('new', O_WRONLY | O_CREAT | O_TRUNC);
    assert.equal(program.stat('new').size, 0);
    assert.deepEqual([program.write(cut, 'xyz'), program.ask('ftruncate', cut, 1n)], [3, 0]);
    assert.deepEqual(program.read(program.open('new')), { text: 'x' });
  });

  both('a short read', program => {
    const fd = program.open('a.txt');
    assert.deepEqual(program.read(fd, 0), { text: '' });
    assert.deepEqual(program.read(fd, 2 ** 16), { text: 'one two' });
  });

  both('errors of names', program => {
    assert.equal(program.open('none'), 'No such file or directory');
    assert.equal(program.open('none/x', O_WRONLY | O_CREAT), 'No such file or directory');
    assert.equal(program.open('a.txt/x'), 'Not a directory');
    assert.equal(program.open('a.txt', O_WRONLY | O_CREAT | O_EXCL), 'File exists');
    assert.equal(program.open('below', O_WRONLY), 'Is a directory');
    assert.equal(program.stat('none'), 'No such file or directory');
    assert.equal(program.stat(''), 'No such file or directory');
    assert.equal(program.stat('a.txt/'), 'Not a directory');
    assert.equal(program.list('none'), 'No such file or directory');
    assert.equal(program.list('a.txt'), 'Not a directory');
    assert.equal(program.ask('unlink', program.text('none')), 'No such file or directory');
    assert.equal(program.ask('unlink', program.text('below')), 'Is a directory');
    assert.equal(program.rename('none', 'x'), 'No such file or directory');
    assert.equal(program.rename('a.txt', 'below'), 'Is a directory');
    assert.equal(program.calls.realpath(program.text('none'), 8192n), 0n);
    assert.equal(program.calls.rattle_errno(), 2);
    assert.equal(program.ask('readlink', program.text('a.txt'), 8192n, 100n), 'Invalid argument');
  });

  both('a folder where a file is wanted', program => {
    assert.equal(program.read(program.open('below')), 'Is a directory');
    const fd = program.ask('rattle_open_dir_at', HERE, program.text('below'));
    assert.equal(program.read(fd), 'Is a directory');
    assert.equal(program.ask('getdents64', program.open('a.txt'), 8192n, 100n), 'Not a directory');
  });

  both('descriptors that are closed', program => {
    const fd = program.open('a.txt');
    assert.equal(program.ask('close', fd), 0);
    const after = [program.read(fd), program.write(fd, 'x'), program.ask('fsync', fd), program.ask('close', fd),
      program.stat('', EMPTY_PATH, fd), program.ask('fchmod', fd, 0o600), program.ask('ftruncate', fd, 0n),
      program.read(-1), program.stat('x', 0, fd)];
    for (const one of after.slice(0, -1)) assert.equal(one, 'Bad file descriptor');
    assert.match(after.at(-1), /Bad file descriptor/);
  });

  both('folders', program => {
    const all = [['a.txt', 8], ['below', 4], ['empty', 8]];
    assert.deepEqual(program.list('.'), all);
    assert.deepEqual(program.list('.', 32), all);
    assert.equal(program.list('.', 20), 'Invalid argument');
    const below = program.ask('rattle_open_dir_at', HERE, program.text('below'));
    assert.deepEqual(program.list('..', 4096, below), all);
    assert.equal(program.stat('b.txt', 0, below).size, 1);
    assert.equal(program.stat('', EMPTY_PATH, below).mode & 0o170000, 0o040000);
    assert.equal(program.ask('mkdir', program.text('below/new'), 0o777), 0);
    assert.equal(program.ask('mkdir', program.text('below/new'), 0o777), 'File exists');
    assert.equal(program.ask('mkdir', program.text('none/new'), 0o777), 'No such file or directory');
    assert.deepEqual(program.list('below').sort(), [['b.txt', 8], ['new', 4]]);
  });

  both('what stat says', program => {
    assert.equal(program.stat('a.txt').size, 7);
    assert.equal(program.stat('a.txt').mode & 0o170000, 0o100000);
    assert.equal(program.stat('below').mode & 0o170000, 0o040000);
    assert.equal(program.stat('', EMPTY_PATH, program.open('a.txt')).size, 7);
    const fd = program.open('a.txt', O_WRONLY);
    assert.deepEqual([program.ask('fchmod', fd, 0o640), program.ask('fchown', fd, -1, -1)], [0, 0]);
    if (isLinux) assert.equal(program.stat('a.txt').mode & 0o777, 0o640);
  });

  both('other names, and no name', (program, here) => {
    assert.equal(program.rename('a.txt', 'below/b.txt'), 0);
    assert.deepEqual(program.read(program.open('below/b.txt')), { text: 'one two' });
    assert.equal(program.ask('unlink', program.text('below/b.txt')), 0);
    assert.deepEqual(program.list('.'), [['below', 4], ['empty', 8]]);
    assert.equal(program.calls.realpath(program.text('below/../empty'), 8192n), 8192n);
    assert.equal(program.back(here.length + 7), `${here}/empty\0`);
    assert.equal(program.calls.realpath(program.text('/proc/self/exe'), 8192n), 8192n);
    assert.equal(program.back(PROGRAM.length + 1), `${PROGRAM}\0`);
  });

  both('words, errors, clocks and what there is not', program => {
    assert.equal(program.ask('rattle_arg', 1n, 8192n, 100n), 3);
    assert.equal(program.back(3), 'a b');
    assert.equal(program.calls.rattle_arg(1n, 8192n, 2n), -2n);
    assert.equal(program.calls.rattle_arg(2n, 8192n, 2n), -1n);
    program.calls.rattle_set_errno(28);
    assert.equal(program.calls.rattle_errno(), 28);
    assert.equal(program.calls.__xpg_strerror_r(28, 8192n, 100n), 0);
    assert.equal(program.back(24), 'No space left on device\0');
    assert.equal(program.calls.__xpg_strerror_r(28, 8192n, 23n), 34);
    assert.equal(wordsOf(1000), 'Unknown error 1000');
    for (const clock of [0, 1]) {
      assert.equal(program.calls.clock_gettime(clock, 8192n), 0);
      assert.ok(program.memory.view(8192n, 16).getBigInt64(8, true) < 1_000_000_000n);
    }
    const fd = program.open('a.txt');
    assert.equal(program.ask('lseek', fd, 0n, 1), 'Illegal seek');
    assert.equal(program.ask('flock', fd, 2), 'Operation not supported');
    assert.equal(program.ask('isatty', fd), 0);
    assert.equal(program.calls.rattle_errno(), 25);
    assert.equal(program.calls.__sysv_signal(13, 1n), 0n);
  });
}

// ---- Node's alone

const onLinux = { skip: !isLinux && 'of Linux' };

test('a full disk', onLinux, () => {
  const program = new Program(inNode().system);
  assert.equal(program.write(program.open('/dev/full', O_WRONLY), 'x'), 'No space left on device');
});

test('a pipe that nobody reads, and one that has nothing for a while', onLinux, () => {
  const file = require.resolve('../programs/system-node.js');
  const code = `const { nodeSystem } = require(${JSON.stringify(file)});
    const system = nodeSystem('x');
    const bytes = Buffer.alloc(100);
    const got = system.read(0, bytes);
    try {
      for (;;) system.write(1, bytes.subarray(0, got));
    } catch (error) {
      console.error(error.code, got);
    }`;
  const script = path.join(folder, 'pipe.js');
  fs.writeFileSync(script, code);
  const words = `{ sleep 0.3; echo ab; } | "${process.execPath}" "${script}" | true`;
  assert.equal(spawnSync('sh', ['-c', words], { encoding: 'utf8' }).stderr, 'EPIPE 3\n');
});

test('names that are no UTF-8', onLinux, () => {
  const { system } = inNode();
  const program = new Program(system);
  const name = Buffer.from([0x61, 0xff, 0x62]);
  fs.writeFileSync(name, 'x');
  assert.ok(program.list('.').some(([one]) => one === name.toString('latin1')));
  assert.deepEqual(program.read(program.open(name)), { text: 'x' });
  assert.equal(program.calls.realpath(program.text(name), 8192n), 8192n);
  assert.deepEqual(Buffer.from(program.memory.text(8192n)).subarray(-3), name);
});

test('symbolic links', onLinux, () => {
  const { system } = inNode();
  const program = new Program(system);
  fs.symlinkSync('a.txt', 'link');
  fs.symlinkSync('below', 'way');
  fs.symlinkSync('self', 'self');
  assert.equal(program.stat('link').size, 7);
  assert.equal(program.stat('link', NOFOLLOW).mode & 0o170000, 0o120000);
  assert.equal(program.ask('readlink', program.text('link'), 8192n, 100n), 5);
  assert.equal(program.back(5), 'a.txt');
  assert.equal(program.ask('readlink', program.text('link'), 8192n, 3n), 3);
  assert.equal(program.open('self'), 'Too many levels of symbolic links');
  assert.equal(program.list('way'), 'Not a directory');
  assert.deepEqual(program.list('way/'), [['b.txt', 8]]);
  assert.deepEqual(program.list('.').find(([name]) => name === 'link'), ['link', 10]);
});

test('a name that is too long', onLinux, () => {
  assert.equal(new Program(inNode().system).open('x'.repeat(300), O_WRONLY | O_CREAT), 'File name too long');
});

test('a file that may not be opened', { skip: (!isLinux || process.getuid() === 0) && 'of users' }, () => {
  const program = new Program(inNode().system);
  fs.chmodSync('a.txt', 0);
  assert.equal(program.open('a.txt'), 'Permission denied');
});

// ---- other systems, played by a node:fs that tells what it is asked

/** Files that give what they are told to, by the name of the function, and remember what they were asked. */
function played(answers, constants = fs.constants) {
  const asked = [];
  const files = new Proxy({ constants }, {
    get: (given, name) => given[name] ?? ((...values) => {
      asked.push([name, ...values.filter(value => typeof value !== 'object')]);
      const answer = answers[name];
      if (answer instanceof Error) throw answer;
      return answer;
    }),
  });
  files.realpathSync = Object.assign(() => {}, { native: name => {
    asked.push(['realpathSync', name]);
    return answers.realpathSync;
  } });
  return { asked, files };
}

const coded = code => Object.assign(new Error(code), { code });
const windows = (answers, constants = { O_CREAT: 0x100, O_EXCL: 0x400, O_TRUNC: 0x200, O_APPEND: 8 }) => {
  const { asked, files } = played(answers, constants);
  const system = nodeSystem('C:\\smap\\smap-programs.wasm', { files, platform: 'win32' });
  return { asked, program: new Program(system) };
};

test('paths of Windows', () => {
  const { asked, program } = windows({
    openSync: 5, realpathSync: Buffer.from('C:\\app\\dist\\a.js'), readlinkSync: Buffer.from('..\\x'),
  });
  const names = ['C:/app/a.js', 'C:\\app\\a.js', '/C:/app/a.js', 'dist/ü.js', '//server/share/a.js'];
  for (const name of names) program.open(name);
  assert.deepEqual(asked.map(([, name]) => name), names.map(name => name.replace(/^\/C/, 'C')));
  assert.equal(program.calls.realpath(program.text('dist'), 8192n), 8192n);
  assert.equal(program.back(17), 'C:/app/dist/a.js\0');
  assert.equal(program.calls.realpath(program.text('/proc/self/exe'), 8192n), 8192n);
  assert.equal(program.back(27), 'C:/smap/smap-programs.wasm\0');
  assert.equal(program.ask('readlink', program.text('l'), 8192n, 100n), 4);
  assert.equal(program.back(4), '../x');
});

test('flags of Windows', () => {
  const { asked, program } = windows({ openSync: 5 });
  const NOCTTY_AND_CLOEXEC = 0o2000400;
  program.open('a', NOCTTY_AND_CLOEXEC | O_WRONLY | O_CREAT | O_EXCL, 0o600);
  program.open('a', NOCTTY_AND_CLOEXEC | O_WRONLY | O_CREAT | O_TRUNC);
  program.open('a', NOCTTY_AND_CLOEXEC);
  assert.deepEqual(asked.map(([, , flags, mode]) => [flags, mode]),
    [[1 | 0x100 | 0x400, 0o600], [1 | 0x100 | 0x200, 0o666], [0, 0o666]]);
});

test('what Windows says', () => {
  for (const [code, words] of [['EPERM', 'Operation not permitted'], ['EBUSY', 'Device or resource busy'],
    ['ECHARSET', 'Invalid or incomplete multibyte or wide character'], ['UNKNOWN', 'Input/output error']]) {
    assert.equal(windows({ openSync: coded(code) }).program.open('a'), words);
  }
  const { program } = windows({ readSync: coded('EOF'), readlinkSync: coded('EPERM') });
  assert.deepEqual(program.read(0), { text: '' });
  assert.equal(program.ask('readlink', program.text('l'), 8192n, 100n), 'Operation not permitted');
});

// What Node's stat has, but for the owner.
const STATED = 'mode size ino dev nlink gid blksize blocks atimeNs ctimeNs mtimeNs';
const stated = Object.fromEntries(STATED.split(' ').map(name => [name, 1n]));

test('where there is no /proc, its folder of the process is the user\'s', () => {
  const { files } = played({ statSync: { uid: 5n, ...stated } });
  const program = new Program(nodeSystem('/x', { files, platform: 'darwin' }));
  assert.equal(program.stat('/proc/self').uid, process.getuid?.() ?? 0);
  assert.equal(program.stat('/other').uid, 5);
});

test('an error that is no error of the system is thrown', () => {
  const { files } = played({ openSync: new TypeError('x') });
  const program = new Program(nodeSystem('/x', { files }));
  assert.throws(() => program.open('a'), TypeError);
});

test('numbers of codes', () => {
  assert.deepEqual(['ENOENT', 'EPIPE', 'ENOSPC', 'EDQUOT', 'ENONSENSE'].map(numberOf), [2, 32, 28, 122, 5]);
  if (!isLinux) return;
  for (const [code, number] of Object.entries(os.constants.errno)) {
    if (numberOf(code) !== 5) assert.equal(numberOf(code), number, code);
  }
});

// ---- memory's alone

test('memory without room', () => {
  const program = new Program(inMemory({ room: 4 }).system);
  const fd = program.open('new', O_WRONLY | O_CREAT);
  assert.deepEqual([program.write(fd, 'abc'), program.write(fd, 'de'), program.write(fd, 'e')],
    [3, 1, 'No space left on device']);
  assert.deepEqual(program.read(program.open('new')), { text: 'abcd' });
});

test('standard streams in memory', () => {
  const { system } = inMemory({ input: Buffer.from('in') });
  const program = new Program(system);
  assert.deepEqual([program.read(0), program.read(0)], [{ text: 'in' }, { text: '' }]);
  for (const [fd, stream] of [[1, system.output], [2, system.errors]]) {
    const [start, end] = [Buffer.from('aü').subarray(0, 2), Buffer.from('üb').subarray(1)];
    assert.deepEqual([program.write(fd, start), program.write(fd, end)], [2, 2]);
    assert.equal(stream.text(), 'aüb');
    assert.equal(program.stat('', EMPTY_PATH, fd).mode & 0o170000, 0o010000);
    assert.equal(program.ask('close', fd), 0);
    assert.equal(program.write(fd, 'c'), 'Bad file descriptor');
  }
});

test('a file of a browser, which is read piece by piece, and may be gone', () => {
  const bytes = Buffer.from(Array.from({ length: 10_000_000 }, (_, i) => i % 251));
  const sliced = (from, to) => ({ bytes: bytes.subarray(from, to) });
  const root = newFolder();
  const file = { size: bytes.length, lastModified: 5000, slice: sliced };
  put(root, '/big', file);
  globalThis.FileReaderSync = class {
    readAsArrayBuffer({ bytes: some }) {
      return some.buffer.slice(some.byteOffset, some.byteOffset + some.length);
    }
  };
  const told = [];
  const program = new Program(new MemorySystem(root, { told: size => told.push(size) }));
  const fd = program.open('/big');
  let at = 0;
  for (let size; (size = program.ask('read', fd, 8192n, 100_000n)) > 0; at += size) {
    assert.ok(bytes.subarray(at, at + size).equals(Buffer.from(program.memory.bytes(8192n, size))), `at ${at}`);
  }
  assert.equal(at, bytes.length);
  assert.equal(told.reduce((sum, size) => sum + size), bytes.length);
  globalThis.FileReaderSync = class {
    readAsArrayBuffer() {
      throw new Error('gone');
    }
  };
  assert.equal(program.read(program.open('/big')), 'Input/output error');
  delete globalThis.FileReaderSync;
});

// ---- a module

test('a module is run over a system, with its words', () => {
  // (import "env" "rattle_set_errno" (func (param i32))), a memory, and main, which gives 42.
  const bytes = Uint8Array.of(0, 0x61, 0x73, 0x6d, 1, 0, 0, 0, 1, 11, 2, 0x60, 1, 0x7f, 0, 0x60, 2, 0x7f, 0x7e, 1, 0x7f,
    2, 24, 1, 3, 0x65, 0x6e, 0x76, 16, 0x72, 0x61, 0x74, 0x74, 0x6c, 0x65, 0x5f, 0x73, 0x65, 0x74, 0x5f, 0x65, 0x72,
    0x72, 0x6e, 0x6f, 0, 0, 3, 2, 1, 1, 5, 3, 1, 0, 1, 7, 17, 2, 6, 0x6d, 0x65, 0x6d, 0x6f, 0x72, 0x79, 2, 0, 4, 0x6d,
    0x61, 0x69, 0x6e, 0, 1, 10, 10, 1, 8, 0, 0x41, 5, 0x10, 0, 0x41, 42, 0x0b);
  assert.equal(run(new WebAssembly.Module(bytes), [Buffer.from('smap')], inMemory().system), 42);
});
