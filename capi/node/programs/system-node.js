'use strict';
// The system of the machine, by node:fs, for host.js.
const fs = require('node:fs');
const tty = require('node:tty');
const { fault } = require('./numbers.js');

const SLASH = 47;
// Of getdents64, for what each entry of a folder is asked.
const KINDS = [
  ['isFile', 8], ['isDirectory', 4], ['isSymbolicLink', 10], ['isFIFO', 1], ['isSocket', 12],
  ['isCharacterDevice', 2], ['isBlockDevice', 6],
];
// Flags of open on Linux, by the names of those of this system. The rest has no meaning elsewhere.
const FLAGS = { 0o100: 'O_CREAT', 0o200: 'O_EXCL', 0o1000: 'O_TRUNC', 0o2000: 'O_APPEND' };
const ACCESS = 3;
// Folders have numbers of their own, which no system gives: Windows opens none.
const FIRST_FOLDER = 2 ** 24;

const bytesOf = path => Buffer.from(path.buffer, path.byteOffset, path.length);
const kindOf = entry => KINDS.find(([is]) => entry[is]())?.[1] ?? 0;

/** A path as Windows has it: `/C:/a`, as URLs have it, is `C:/a`. */
function windowsPath(path) {
  const text = bytesOf(path).toString();
  return /^\/[A-Za-z]:/.test(text) ? text.slice(1) : text;
}

/** Asks again while a pipe or a terminal that doesn't block has nothing, or no room. */
function whenReady(ask) {
  for (;;) {
    try {
      return ask();
    } catch (error) {
      if (error.code !== 'EAGAIN') throw error;
    }
    Atomics.wait(new Int32Array(new SharedArrayBuffer(4)), 0, 0, 5);
  }
}

/**
 * The system. `program` is the path of the file that is taken for the program, beside which smap-view looks for
 * its page; `files` and `platform` are in place of node:fs and this system in tests.
 */
function nodeSystem(program, { files = fs, platform = process.platform } = {}) {
  const isLinux = platform === 'linux';
  const isWindows = platform === 'win32';
  const own = isWindows ? windowsPath : bytesOf;
  const folders = new Map();
  let next = FIRST_FOLDER;

  const from = (dir, path) => {
    if (dir === null || path[0] === SLASH) return path;
    if (!folders.has(dir)) throw fault('EBADF');
    return Buffer.concat([folders.get(dir).path, Buffer.from('/'), path]);
  };
  const flagsOf = flags => Object.entries(FLAGS).reduce(
    (all, [bit, name]) => (flags & bit ? all | files.constants[name] : all), flags & ACCESS);
  const slashed = path => (isWindows ? Buffer.from(path.toString().replaceAll('\\', '/')) : path);
  // Linux has a folder of the process, which is its user's.
  const ofThisUser = () =>
    ({ ...files.statSync('.', { bigint: true }), uid: BigInt(process.getuid?.() ?? 0) });

  return {
    isTerminal: fd => tty.isatty(fd),
    read(fd, to) {
      if (folders.has(fd)) throw fault('EISDIR');
      try {
        return whenReady(() => files.readSync(fd, to, 0, to.length, null));
      } catch (error) {
        if (error.code === 'EOF') return 0; // a pipe of Windows, at its end
        throw error;
      }
    },
    write: (fd, bytes) => whenReady(() => files.writeSync(fd, bytes)),
    seek() {
      throw fault('ESPIPE'); // Node has no call for it
    },
    sync: fd => files.fsyncSync(fd),
    truncate: (fd, size) => files.ftruncateSync(fd, size),
    close(fd) {
      if (!folders.delete(fd)) files.closeSync(fd);
    },
    open: (path, flags, mode) => files.openSync(own(path), flagsOf(flags), mode),
    openFolder(dir, name) {
      const path = bytesOf(from(dir, name));
      if (files.lstatSync(own(path)).isSymbolicLink() && path.at(-1) !== SLASH) throw fault('ENOTDIR');
      const entries = files.readdirSync(own(path), { withFileTypes: true, encoding: 'buffer' });
      folders.set(next, { path, entries });
      return next++;
    },
    list(fd) {
      if (!folders.has(fd)) throw fault('ENOTDIR');
      return folders.get(fd).entries.map(entry => [entry.name, kindOf(entry)]);
    },
    statOpen(fd) {
      if (folders.has(fd)) return files.statSync(own(folders.get(fd).path), { bigint: true });
      return files.fstatSync(fd, { bigint: true });
    },
    stat(dir, name, follows) {
      const path = from(dir, name);
      if (!isLinux && bytesOf(path).toString() === '/proc/self') return ofThisUser();
      return (follows ? files.statSync : files.lstatSync)(own(path), { bigint: true });
    },
    realPath(path) {
      if (bytesOf(path).toString() === '/proc/self/exe') return slashed(Buffer.from(program));
      return slashed(files.realpathSync.native(own(path), 'buffer'));
    },
    readLink: path => slashed(files.readlinkSync(own(path), 'buffer')),
    changeOwner: (fd, user, group) => files.fchownSync(fd, user, group),
    changeMode: (fd, mode) => files.fchmodSync(fd, mode),
    makeFolder: (path, mode) => files.mkdirSync(own(path), { mode }),
    remove: path => files.unlinkSync(own(path)),
    rename: (path, to) => files.renameSync(own(path), own(to)),
    now: clock => (clock === 0 ? BigInt(Date.now()) * 1_000_000n : process.hrtime.bigint()),
  };
}

module.exports = { nodeSystem };
