'use strict';
// Strings with half surrogate pairs, as bytes: each half is spelled like any other code point (WTF-8). The
// library refuses them where it wants UTF-8, and passes on byte for byte what isn't a frame.
const host = require('./host.js');

// With the flag u, \p{Surrogate} is half a pair.
const HALF = /\p{Surrogate}/u;

// Node 18 has no isWellFormed.
const isWellFormed = ''.isWellFormed ? text => text.isWellFormed() : text => !HALF.test(text);

/** The bytes of a string: UTF-8 if it is well-formed. */
function spelled(text) {
  // A half is U+FFFD there, which has three bytes as well.
  const bytes = host.encode(text);
  if (isWellFormed(text)) return bytes;
  for (let i = 0, at = 0; i < text.length; i++) {
    const point = text.codePointAt(i);
    if (point >= 0xd800 && point <= 0xdfff) {
      bytes[at] = 0xed;
      bytes[at + 1] = 0x80 | ((point >> 6) & 63);
      bytes[at + 2] = 0x80 | (point & 63);
    }
    if (point > 0xffff) i++;
    at += point < 0x80 ? 1 : point < 0x800 ? 2 : point < 0x10000 ? 3 : 4;
  }
  return bytes;
}

/** The string of bytes that are spelled that way. */
function unspelled(bytes) {
  const units = new Uint16Array(bytes.length);
  const next = i => bytes[i] & 63;
  let length = 0;
  for (let i = 0; i < bytes.length;) {
    const byte = bytes[i];
    if (byte < 0x80) {
      units[length++] = byte;
      i += 1;
    } else if (byte < 0xe0) {
      units[length++] = ((byte & 31) << 6) | next(i + 1);
      i += 2;
    } else if (byte < 0xf0) {
      units[length++] = ((byte & 15) << 12) | (next(i + 1) << 6) | next(i + 2);
      i += 3;
    } else {
      // Half of a pair has ten bits of the code point less 0x10000.
      const high = ((byte & 7) << 8) | (next(i + 1) << 2) | (next(i + 2) >> 4);
      units[length++] = 0xd7c0 + high;
      units[length++] = 0xdc00 | ((next(i + 2) & 15) << 6) | next(i + 3);
      i += 4;
    }
  }
  return stringOf(units, length);
}

function stringOf(units, length) {
  checkLength(length);
  return host.decodeUnits(units, length);
}

/** Throws for what is longer than a string can be, in code units, or in bytes. */
function checkLength(length) {
  if (length <= host.MAX_STRING_LENGTH) return;
  throw Object.assign(new RangeError('longer than a string can be'), { code: 'SMAP_TOO_LONG' });
}

module.exports = { isWellFormed, spelled, unspelled, checkLength };
