'use strict';
// Mappings spelled out of arrays of lines of segments, in the order in which they stand, as tests need them:
// without the library.
const DIGITS = 'ABCDEFGHIJKLMNOPQRSTUVWXYZabcdefghijklmnopqrstuvwxyz0123456789+/';

function number(n) {
  let rest = n < 0 ? -n * 2 + 1 : n * 2;
  let text = '';
  while (rest > 31) {
    text += DIGITS[32 + (rest % 32)];
    rest = Math.floor(rest / 32);
  }
  return text + DIGITS[rest];
}

function encode(lines) {
  const last = [0, 0, 0, 0, 0];
  const spelled = segment => segment.map((n, k) => {
    const text = number(n - last[k]);
    last[k] = n;
    return text;
  }).join('');
  return lines.map(segments => {
    last[0] = 0;
    return segments.map(spelled).join(',');
  }).join(';');
}

module.exports = { encode };
