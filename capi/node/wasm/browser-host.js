'use strict';
// host.js for browsers.
const encoder = new TextEncoder();
const decoder = new TextDecoder('utf-8', { ignoreBOM: true });
const strict = new TextDecoder('utf-8', { ignoreBOM: true, fatal: true });

const isSharedArrayBuffer = given =>
  typeof SharedArrayBuffer === 'function' && given instanceof SharedArrayBuffer;

function isUtf8(bytes) {
  try {
    strict.decode(bytes);
    return true;
  } catch {
    return false;
  }
}

// A call takes some ten thousand arguments.
function decodeUnits(units, length) {
  let text = '';
  for (let i = 0; i < length; i += 8192) {
    text += String.fromCharCode(...units.subarray(i, Math.min(i + 8192, length)));
  }
  return text;
}

// Half of a pair has two of the four bytes.
function byteLength(text) {
  let length = text.length;
  for (let i = 0; i < text.length; i++) {
    const unit = text.charCodeAt(i);
    if (unit >= 0x80) length += unit < 0x800 || (unit & 0xf800) === 0xd800 ? 1 : 2;
  }
  return length;
}

module.exports = {
  MAX_STRING_LENGTH: 2 ** 29 - 24, // V8's, which is the least
  isAnyArrayBuffer: given => given instanceof ArrayBuffer || isSharedArrayBuffer(given),
  isSharedArrayBuffer,
  isUtf8,
  bytes: length => new Uint8Array(length),
  view: (buffer, from, length) => new Uint8Array(buffer, from, length),
  copy: bytes => bytes.slice(),
  encode: text => encoder.encode(text),
  decode: bytes => decoder.decode(bytes),
  decodeUnits,
  byteLength,
  write: (text, buffer, from, length) => encoder.encodeInto(text, new Uint8Array(buffer, from, length)),
  textAt: (buffer, from, length) => decoder.decode(new Uint8Array(buffer, from, length)),
};
