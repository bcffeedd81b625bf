'use strict';
// What the programs ask of C, as WebAssembly calls it, over a *system*: the files of Node (system-node.js) or
// files in memory (system-memory.js). Paths and names are bytes without a zero. A system throws errors with a
// `code` such as 'ENOENT'. Flags, kinds and numbers are those of Linux on x86-64, wherever this runs.
const { fault, numberOf, wordsOf } = require('./numbers.js');

const HERE = -100; // AT_FDCWD: names are those of the working directory
const NOFOLLOW = 0x100; // AT_SYMLINK_NOFOLLOW
const EMPTY_PATH = 0x1000; // AT_EMPTY_PATH
const BASIC_STATS = 0x7ff;
const PATH_MAX = 4096;
const MOST_AT_ONCE = 2 ** 30;
const SECOND = 1_000_000_000n;

/** The bytes of the instance's memory, which is another buffer each time that it has grown. */
class Memory {
  constructor() {
    this.memory = null;
  }

  bytes(at, size) {
    return new Uint8Array(this.memory.buffer, Number(at), Number(size));
  }

  view(at, size) {
    return new DataView(this.memory.buffer, Number(at), Number(size));
  }

  /** A copy of the bytes before the first zero. */
  text(at) {
    const all = new Uint8Array(this.memory.buffer);
    return all.slice(Number(at), all.indexOf(0, Number(at)));
  }

  /** Puts bytes and a zero there, where these have room. */
  putText(at, text, room) {
    if (text.length + 1 > Number(room)) return false;
    const to = this.bytes(at, text.length + 1);
    to.set(text);
    to[text.length] = 0;
    return true;
  }
}

/** Writes what stat found, as statx lays it out. */
function putStat(view, found) {
  const putTime = (at, time) => {
    view.setBigInt64(at, time / SECOND, true);
    view.setUint32(at + 8, Number(time % SECOND), true);
  };
  view.setUint32(0, BASIC_STATS, true);
  view.setUint32(4, Number(found.blksize), true);
  view.setUint32(16, Number(found.nlink), true);
  view.setUint32(20, Number(found.uid), true);
  view.setUint32(24, Number(found.gid), true);
  view.setUint16(28, Number(found.mode), true);
  view.setBigUint64(32, found.ino, true);
  view.setBigUint64(40, found.size, true);
  view.setBigUint64(48, found.blocks, true);
  putTime(64, found.atimeNs);
  putTime(96, found.ctimeNs);
  putTime(112, found.mtimeNs);
  view.setUint32(136, Number((found.dev >> 8n) & 0xfffn), true);
  view.setUint32(140, Number((found.dev & 0xffn) | ((found.dev >> 12n) & 0xfff00n)), true);
}

/**
 * Moves entries of a folder, [name, kind], to the start of a buffer as getdents64 does, those that have room
 * there, and gives how many bytes they take.
 */
function moveEntries(memory, entries, at, room) {
  let used = 0;
  while (entries.length > 0) {
    const [name, kind] = entries[0];
    const size = (19 + name.length + 1 + 7) & ~7;
    if (used + size > room) {
      if (used === 0) throw fault('EINVAL');
      break;
    }
    const entry = memory.bytes(Number(at) + used, size).fill(0);
    const view = memory.view(Number(at) + used, size);
    view.setBigUint64(0, 1n, true);
    view.setUint16(16, size, true);
    entry[18] = kind;
    entry.set(name, 19);
    used += size;
    entries.shift();
  }
  return used;
}

/** The calls, over a system, for a program that is called by these words, each of bytes. */
function callsOver(system, words, memory) {
  let errno = 0;
  const lists = new Map(); // of open folders, what is left to be told

  const attempt = (failed, ask) => {
    try {
      return ask();
    } catch (error) {
      if (typeof error.code !== 'string') throw error;
      errno = numberOf(error.code);
      return failed;
    }
  };
  const status = ask => attempt(-1, () => (ask(), 0));
  const count = ask => attempt(-1n, () => BigInt(ask()));
  const part = (at, size) => memory.bytes(at, Math.min(Number(size), MOST_AT_ONCE));
  const folder = fd => (fd === HERE ? null : fd);
  const ownerOf = number => (number === -1 ? -1 : number >>> 0); // -1 leaves it

  const stat = (dir, path, flags) => {
    if (path.length > 0) return system.stat(folder(dir), path, !(flags & NOFOLLOW));
    if (!(flags & EMPTY_PATH)) throw fault('ENOENT');
    return system.statOpen(dir);
  };
  const listOf = fd => {
    if (!lists.has(fd)) lists.set(fd, system.list(fd));
    return lists.get(fd);
  };

  return {
    rattle_arg(i, to, room) {
      const word = words[Number(i)];
      if (!word) return -1n;
      if (word.length > Number(room)) return -2n;
      memory.bytes(to, word.length).set(word);
      return BigInt(word.length);
    },
    rattle_errno: () => errno,
    rattle_set_errno(number) {
      errno = number;
    },
    isatty(fd) {
      if (system.isTerminal(fd)) return 1;
      errno = numberOf('ENOTTY');
      return 0;
    },
    read: (fd, to, size) => count(() => system.read(fd, part(to, size))),
    write: (fd, from, size) => count(() => system.write(fd, part(from, size))),
    lseek: (fd, at, from) => count(() => system.seek(fd, Number(at), from)),
    fsync: fd => status(() => system.sync(fd)),
    fdatasync: fd => status(() => system.sync(fd)),
    ftruncate: (fd, size) => status(() => system.truncate(fd, Number(size))),
    flock: () => status(() => {
      throw fault('ENOTSUP');
    }),
    close: fd => status(() => (lists.delete(fd), system.close(fd))),
    host_open: (path, flags, mode) => attempt(-1, () => system.open(memory.text(path), flags, mode)),
    rattle_open_dir_at: (dir, path) => attempt(-1, () => system.openFolder(folder(dir), memory.text(path))),
    getdents64: (fd, to, room) => count(() => moveEntries(memory, listOf(fd), to, Number(room))),
    statx: (dir, path, flags, mask, to) => status(() => {
      const found = stat(dir, memory.text(path), flags);
      memory.bytes(to, 256).fill(0);
      putStat(memory.view(to, 256), found);
    }),
    __xpg_strerror_r(number, to, room) {
      const text = new TextEncoder().encode(wordsOf(number));
      return memory.putText(to, text, room) ? 0 : numberOf('ERANGE');
    },
    realpath: (path, to) => attempt(0n, () => {
      const found = system.realPath(memory.text(path));
      if (!memory.putText(to, found, PATH_MAX)) throw fault('ENAMETOOLONG');
      return to;
    }),
    readlink: (path, to, room) => count(() => {
      const found = system.readLink(memory.text(path)).subarray(0, Number(room));
      memory.bytes(to, found.length).set(found);
      return found.length;
    }),
    fchown: (fd, user, group) => status(() => system.changeOwner(fd, ownerOf(user), ownerOf(group))),
    fchmod: (fd, mode) => status(() => system.changeMode(fd, mode)),
    mkdir: (path, mode) => status(() => system.makeFolder(memory.text(path), mode)),
    unlink: path => status(() => system.remove(memory.text(path))),
    rename: (from, to) => status(() => system.rename(memory.text(from), memory.text(to))),
    clock_gettime(clock, to) {
      const time = system.now(clock);
      const view = memory.view(to, 16);
      view.setBigInt64(0, time / SECOND, true);
      view.setBigInt64(8, time % SECOND, true);
      return 0;
    },
    __sysv_signal: () => 0n, // a pipe that was closed is an error everywhere, never a signal
  };
}

/**
 * Runs a program of a module, which is called by these words, to its end, and gives its status. `limit` is the
 * most bytes of memory that it may have.
 */
function run(module, words, system, limit) {
  const memory = new Memory();
  const { exports } = new WebAssembly.Instance(module, { env: callsOver(system, words, memory) });
  memory.memory = exports.memory;
  if (limit !== undefined) exports.js_limit(limit);
  return exports.main(0, 0n);
}

module.exports = { callsOver, run, Memory };
