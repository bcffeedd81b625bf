'use strict';
// A system of files in memory, for host.js: that of the page, and of tests. Folders have `kids`, by name;
// files have `data`, bytes or, in a worker of a browser, a File, which is read when the program reads it.
// Names are UTF-8.
const { fault } = require('./numbers.js');

const READ_AHEAD = 4 * 2 ** 20;
const PIPE = 0o10600n;
const FOLDER_MODE = 0o40755n;
const FILE_MODE = 0o100644;
const O_CREAT = 0o100;
const O_EXCL = 0o200;
const O_TRUNC = 0o1000;

const decode = bytes => new TextDecoder('utf-8', { ignoreBOM: true }).decode(bytes);
const encode = text => new TextEncoder().encode(text);

const newFolder = () => ({ kids: new Map() });
const newFile = data => ({ data, size: data.size ?? data.length, mode: FILE_MODE });

/** Puts a file there, with the folders above it. */
function put(root, path, data) {
  const names = path.split('/').filter(name => name !== '' && name !== '.');
  const last = names.pop();
  let folder = root;
  for (const name of names) {
    if (!folder.kids.get(name)?.kids) folder.kids.set(name, newFolder());
    folder = folder.kids.get(name);
  }
  folder.kids.set(last, newFile(data));
}

/** The reader of one open file. */
class OpenFile {
  constructor(node) {
    this.node = node;
    this.at = 0;
    this.ahead = null;
    this.aheadAt = 0;
  }

  /** The bytes from here on, at most `size`, or as many as are at hand. */
  next(size, told) {
    const { data } = this.node;
    if (data instanceof Uint8Array) return data.subarray(this.at, Math.min(this.at + size, this.node.size));
    const inAhead = this.at - this.aheadAt;
    if (!this.ahead || inAhead >= this.ahead.length) {
      this.ahead = bytesOf(data.slice(this.at, this.at + READ_AHEAD));
      this.aheadAt = this.at;
      told(this.ahead.length);
      return this.ahead.subarray(0, size);
    }
    return this.ahead.subarray(inAhead, inAhead + size);
  }
}

/** The bytes of a Blob. One that can't be read any more, such as a file that has changed, is an error. */
function bytesOf(blob) {
  try {
    return new Uint8Array(new FileReaderSync().readAsArrayBuffer(blob));
  } catch {
    throw fault('EIO');
  }
}

/** What was written, kept in pieces. */
class Output {
  constructor() {
    this.pieces = [];
  }

  text() {
    const decoder = new TextDecoder('utf-8', { ignoreBOM: true });
    return this.pieces.map(piece => decoder.decode(piece, { stream: true })).join('') + decoder.decode();
  }

  blob(type) {
    return new Blob(this.pieces, { type });
  }
}

/** The system over a tree of folders. */
class MemorySystem {
  /**
   * `here` is the working directory, `input` what standard input has, `program` the path of the program, `room`
   * how many bytes can be written to files, and `told` is called with numbers of bytes that were read from disk.
   */
  constructor(root, { here = '/', input = new Uint8Array(), program = '/programs/smap', room = Infinity,
    told = () => {} } = {}) {
    Object.assign(this, { root, here, program, room, told });
    this.output = new Output();
    this.errors = new Output();
    this.streams = new Map([[1, this.output], [2, this.errors]]);
    this.open_ = new Map([[0, new OpenFile(newFile(input))]]);
    this.paths = new Map(); // of open folders
    this.nextFd = 3;
    this.nextNumber = 1n;
  }

  // ---- names

  absolute(path, dir = null) {
    const text = decode(path);
    if (text.startsWith('/')) return text;
    if (dir !== null && !this.paths.has(dir)) throw fault('EBADF');
    return `${dir === null ? this.here : this.paths.get(dir)}/${text}`;
  }

  /** What has a path, and its path without `.` and `..`. */
  find(path) {
    const way = [this.root];
    const names = [];
    for (const name of path.split('/')) {
      if (!way.at(-1).kids && name !== '') throw fault('ENOTDIR');
      if (name === '' || name === '.') continue;
      if (name === '..') {
        if (way.length > 1) [way, names].forEach(list => list.pop());
        continue;
      }
      const found = way.at(-1).kids.get(name);
      if (!found) throw fault('ENOENT');
      way.push(found);
      names.push(name);
    }
    if (path.endsWith('/') && !way.at(-1).kids) throw fault('ENOTDIR');
    return { node: way.at(-1), path: `/${names.join('/')}` };
  }

  /** The folder above a path, and the name in it. */
  above(path) {
    const cut = path.lastIndexOf('/');
    const { node } = this.find(path.slice(0, cut + 1));
    return { folder: node, name: path.slice(cut + 1) };
  }

  has(path) {
    try {
      return this.find(path).node;
    } catch (error) {
      if (error.code === 'ENOENT') return null;
      throw error;
    }
  }

  // ---- files

  opened(fd) {
    if (!this.open_.has(fd)) throw fault('EBADF');
    return this.open_.get(fd);
  }

  add(file) {
    this.open_.set(this.nextFd, file);
    return this.nextFd++;
  }

  isTerminal() {
    return false;
  }

  open(bytes, flags) {
    const path = this.absolute(bytes);
    let node = this.has(path);
    if (!node) {
      if (!(flags & O_CREAT)) throw fault('ENOENT');
      const { folder, name } = this.above(path);
      node = newFile(new Uint8Array());
      folder.kids.set(name, node);
    } else if ((flags & (O_CREAT | O_EXCL)) === (O_CREAT | O_EXCL)) {
      throw fault('EEXIST');
    }
    if (node.kids && flags & 3) throw fault('EISDIR');
    if (flags & O_TRUNC) Object.assign(node, { data: new Uint8Array(), size: 0 });
    return this.add(new OpenFile(node));
  }

  read(fd, to) {
    const file = this.opened(fd);
    if (file.node.kids) throw fault('EISDIR');
    if (file.at >= file.node.size || to.length === 0) return 0;
    const bytes = file.next(to.length, this.told);
    to.set(bytes);
    file.at += bytes.length;
    return bytes.length;
  }

  write(fd, bytes) {
    if (this.streams.has(fd)) {
      this.streams.get(fd).pieces.push(bytes.slice());
      return bytes.length;
    }
    const file = this.opened(fd);
    const size = Math.min(bytes.length, this.room);
    if (size === 0 && bytes.length > 0) throw fault('ENOSPC');
    this.room -= size;
    this.put(file.node, file.at, bytes.subarray(0, size));
    file.at += size;
    return size;
  }

  /** Puts bytes into a file, whose own may have room behind their end. */
  put(node, at, bytes) {
    const end = at + bytes.length;
    if (end > node.data.length) {
      const grown = new Uint8Array(Math.max(end, 2 * node.data.length));
      grown.set(node.data.subarray(0, node.size));
      node.data = grown;
    }
    node.data.set(bytes, at);
    node.size = Math.max(node.size, end);
  }

  truncate(fd, size) {
    const { node } = this.opened(fd);
    if (size > node.size) this.put(node, size, new Uint8Array());
    node.size = size;
  }

  seek() {
    throw fault('ESPIPE');
  }

  sync(fd) {
    if (!this.streams.has(fd)) this.opened(fd);
  }

  close(fd) {
    this.paths.delete(fd);
    if (!this.open_.delete(fd) && !this.streams.delete(fd)) throw fault('EBADF');
  }

  // ---- folders

  openFolder(dir, name) {
    const { node, path } = this.find(this.absolute(name, dir));
    if (!node.kids) throw fault('ENOTDIR');
    const fd = this.add(new OpenFile(node));
    this.paths.set(fd, path);
    return fd;
  }

  list(fd) {
    const { kids } = this.opened(fd).node;
    if (!kids) throw fault('ENOTDIR');
    return [...kids].map(([name, node]) => [encode(name), node.kids ? 4 : 8]);
  }

  makeFolder(bytes) {
    const path = this.absolute(bytes);
    if (this.has(path)) throw fault('EEXIST');
    const { folder, name } = this.above(path);
    folder.kids.set(name, newFolder());
  }

  // ---- what is said of them

  about(node, mode = node.kids ? FOLDER_MODE : BigInt(0o100000 | node.mode)) {
    node.number ??= this.nextNumber++;
    const size = node.kids ? 4096n : BigInt(node.size);
    const time = BigInt(node.data?.lastModified ?? 0) * 1_000_000n;
    return {
      mode, size, ino: node.number, dev: 1n, nlink: 1n, uid: 0n, gid: 0n, blksize: 65536n,
      blocks: (size + 511n) / 512n, atimeNs: time, ctimeNs: time, mtimeNs: time,
    };
  }

  stat(dir, name) {
    return this.about(this.find(this.absolute(name, dir)).node);
  }

  statOpen(fd) {
    if (this.streams.has(fd)) return this.about(newFile(new Uint8Array()), PIPE);
    return fd === 0 ? this.about(this.opened(fd).node, PIPE) : this.about(this.opened(fd).node);
  }

  realPath(bytes) {
    const path = this.absolute(bytes);
    return encode(path === '/proc/self/exe' ? this.program : this.find(path).path);
  }

  readLink(bytes) {
    this.find(this.absolute(bytes));
    throw fault('EINVAL'); // there are no links
  }

  changeOwner(fd) {
    this.opened(fd);
  }

  changeMode(fd, mode) {
    this.opened(fd).node.mode = mode;
  }

  remove(bytes) {
    const { folder, name } = this.above(this.absolute(bytes));
    if (folder.kids.get(name)?.kids) throw fault('EISDIR');
    if (!folder.kids.delete(name)) throw fault('ENOENT');
  }

  rename(bytes, toBytes) {
    const from = this.above(this.absolute(bytes));
    const to = this.above(this.absolute(toBytes));
    const node = from.folder.kids.get(from.name);
    if (!node) throw fault('ENOENT');
    if (to.folder.kids.get(to.name)?.kids) throw fault('EISDIR');
    from.folder.kids.delete(from.name);
    to.folder.kids.set(to.name, node);
  }

  now() {
    return BigInt(Math.round(performance.now() * 1e6));
  }
}

module.exports = { MemorySystem, newFolder, put };
