'use strict';
// Texts, names, bytes and numbers that users pass, as the addon takes them: strings without lone surrogates,
// Buffers, and whole numbers.
const { isWellFormed, spelled } = require('./halves.js');
const host = require('./host.js');

const isBytes = given => ArrayBuffer.isView(given) || host.isAnyArrayBuffer(given);

/** Bytes that no other thread writes. */
function bytesOf(view) {
  const { buffer, byteOffset, byteLength } = host.isAnyArrayBuffer(view)
    ? { buffer: view, byteOffset: 0, byteLength: view.byteLength }
    : view;
  const bytes = host.view(buffer, byteOffset, byteLength);
  return host.isSharedArrayBuffer(buffer) ? host.copy(bytes) : bytes;
}

/** A string; one that isn't UTF-8 as bytes, of which the library says that. */
const stringIn = text => (isWellFormed(text) ? text : spelled(text));

function urlOf(url) {
  const text = url instanceof URL ? url.href : url;
  if (typeof text !== 'string') throw new TypeError('a URL is a string or a URL');
  return stringIn(text);
}

/** A text or its bytes. `what` says what it has to be. */
function textOf(given, what) {
  if (isBytes(given)) return bytesOf(given);
  if (typeof given === 'string') return stringIn(given);
  throw new TypeError(`${what} is a string or a Buffer`);
}

// ---- numbers

// A map has no more lines and columns. libsmap would say so only when it is given the mappings.
const MOST = 2 ** 31;
const MOST_LINES = 2 ** 24;

const isIn = (n, first, most) => Number.isInteger(n) && n >= first && n - first < most;
const isWhole = (n, below = 2 ** 32) => isIn(n, 0, below);

/** A number that a user passes by a name, and that counts from `first`, as one from 0. */
function counted(n, name, first = 0, most = MOST) {
  if (isIn(n, first, most)) return n - first;
  const shown = typeof n === 'number' ? n : typeof n;
  throw new RangeError(`${name} must be a whole number from ${first} to ${first + most - 1}, not ${shown}`);
}

function limitsOf({ limits = {} } = {}) {
  const { items = 0, lines = 0, urlBytes } = limits;
  const isBound = urlBytes === undefined || isWhole(urlBytes, 2 ** 53);
  if (!isWhole(items) || !isWhole(lines) || !isBound) throw new TypeError('limits are whole numbers from 0');
  return [items, lines, urlBytes];
}

/** Six numbers for each mapping, in an array that no other thread writes. */
function wordsOf(numbers, kind = 'a Uint32Array') {
  if (!(numbers instanceof Uint32Array) || numbers.length % 6) {
    throw new TypeError(`the mappings are ${kind} with six numbers for each`);
  }
  return host.isSharedArrayBuffer(numbers.buffer) ? new Uint32Array(numbers) : numbers;
}

module.exports = {
  isBytes, bytesOf, stringIn, urlOf, textOf, MOST, MOST_LINES, isWhole, counted, limitsOf, wordsOf,
};
