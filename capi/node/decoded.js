'use strict';
// Mappings that are given as arrays of lines of segments.
const { MOST, counted, Mappings } = require('./making.js');

function isSegment(list) {
  if (!Array.isArray(list) || ![1, 4, 5].includes(list.length)) return false;
  for (const n of list) if (!Number.isSafeInteger(n)) return false;
  return true;
}

function check(segment, line, i) {
  if (!isSegment(segment)) {
    throw new TypeError(`mappings[${line}][${i}] isn't an array of one, four or five whole numbers`);
  }
  for (const n of segment) if (n < 0 || n >= MOST) counted(n, `a number in mappings[${line}][${i}]`);
}

/** The mappings of such arrays. Throws a TypeError for other values, and a RangeError for other numbers. */
function mappingsOf(lines) {
  const mappings = new Mappings();
  for (let line = 0; line < lines.length; line++) {
    const segments = lines[line];
    if (!Array.isArray(segments)) throw new TypeError(`mappings[${line}] isn't an array of segments`);
    for (let i = 0; i < segments.length; i++) {
      check(segments[i], line, i);
      mappings.add(line, ...segments[i]);
    }
  }
  return mappings;
}

module.exports = { mappingsOf };
