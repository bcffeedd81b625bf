'use strict';
// What the package throws.

/**
 * What a call throws that the library answers with a code. `code` is `SMAP_REFUSED` for a map that has an
 * error, and the rest says which and where; else the rest is null, but `number` in `wrongMapping`.
 */
class SmapError extends Error {
  constructor(code, message, kind = null, line = null, segment = null, number = null, section = null) {
    super(message);
    this.code = code;
    this.kind = kind;
    this.line = line;
    this.segment = segment;
    this.number = number;
    this.section = section;
  }
}
Object.defineProperty(SmapError.prototype, 'name', {
  value: 'SmapError', configurable: true, writable: true,
});

/** What is thrown where the mapping with this index has a number out of range. */
const wrongMapping = i =>
  new SmapError('SMAP_RANGE', `mapping ${i}: number out of range`, null, null, null, i);

module.exports = { SmapError, wrongMapping };
