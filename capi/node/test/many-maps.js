'use strict';
// Maps that are made at random, always the same ones, and questions about them.
const { encode } = require('./vlq.js');

/** Whole numbers below a bound, by a linear congruential generator. */
function numbers(seed) {
  let state = seed >>> 0;
  return bound => {
    state = (Math.imul(state, 1664525) + 1013904223) >>> 0;
    return Math.floor((state / 2 ** 32) * bound);
  };
}

// What the layers tell otherwise than the packages that they stand for is left out: an absolute URL or path
// after a root, and characters that a URL doesn't have, below an absolute one.
const NAMES = ['a.js', './b.js', 'lib/c-d.js', '../e.ts', './i/../j.js'];
const ABSOLUTE = ['webpack:///f.js', '/g.js', 'http://o/h.js'];
const ROOTS = [undefined, '', 'src', 'src/', '/root', 'http://r/s/'];

function segment(next, column, count) {
  if (next(6) === 0) return [column];
  const numbered = [column, next(count), next(5), next(8)];
  return next(3) === 0 ? [...numbered, next(2)] : numbered;
}

function line(next, count) {
  let column = 0;
  return Array.from({ length: next(7) }, () => segment(next, (column += next(4)), count));
}

/** A map as an object. Several mappings may be at one position. */
function makeMap(seed) {
  const next = numbers(seed);
  const sourceRoot = ROOTS[next(ROOTS.length)];
  const names = sourceRoot ? NAMES : [...NAMES, ...ABSOLUTE];
  const sources = Array.from({ length: 1 + next(4) }, () => names[next(names.length)]);
  const mappings = encode(Array.from({ length: 1 + next(6) }, () => line(next, sources.length)));
  const map = { version: 3, sources, names: ['n', 'm'], mappings };
  if (sourceRoot !== undefined) map.sourceRoot = sourceRoot;
  if (next(2)) map.sourcesContent = sources.map((_, i) => (next(3) ? `content ${i}` : null));
  return map;
}

module.exports = { makeMap, numbers };
