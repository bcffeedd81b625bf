'use strict';
// Strings and bytes as Node has them. wasm/browser-host.js has the same for browsers.
const { constants, isUtf8 } = require('node:buffer');
const fs = require('node:fs');
const path = require('node:path');
const { types } = require('node:util');

module.exports = {
  MAX_STRING_LENGTH: constants.MAX_STRING_LENGTH,
  isAnyArrayBuffer: types.isAnyArrayBuffer,
  isSharedArrayBuffer: types.isSharedArrayBuffer,
  isUtf8,

  /** Bytes that may be anything; or throws where there is no memory. */
  bytes: length => Buffer.allocUnsafeSlow(length),
  /** Bytes that lie in a buffer, and a copy of bytes. */
  view: (buffer, from, length) => Buffer.from(buffer, from, length),
  copy: bytes => Buffer.from(bytes),

  /** The bytes of a string in UTF-8, and the string of such bytes; that of so many code units. */
  encode: text => Buffer.from(text),
  decode: bytes => bytes.toString(),
  decodeUnits: (units, length) => Buffer.from(units.buffer, 0, 2 * length).toString('utf16le'),

  /** The same in the memory of WebAssembly. A string is well-formed, and as many bytes long as is said. */
  byteLength: text => Buffer.byteLength(text),
  write: (text, buffer, from, length) => Buffer.from(buffer, from, length).write(text),
  textAt: (buffer, from, length) => Buffer.from(buffer, from, length).toString(),

  readFile: file => fs.readFileSync(file),
  absolute: file => path.resolve(file),
};
