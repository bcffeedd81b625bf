'use strict';
// What the layers that make maps have in common: numbers that users pass, strings by number, and mappings,
// which libsmap puts in order and spells.
const { spell } = require('./index.js');
const { MOST, MOST_LINES, counted } = require('./inputs.js');
const { NONE } = require('./inside.js');

// How many numbers a mapping has: generated line and column, source, original line and column, name.
const WIDTH = 6;

/** `counted` for a generated line. */
const countedLine = (n, name, first = 0) => counted(n, name, first, MOST_LINES);

/** Strings, each with a number: where it stands first. */
class Strings {
  #places = new Map();
  all = [];

  /** The number of a string, which is added if it isn't there. */
  put(text) {
    return this.#places.get(text) ?? this.list(text);
  }

  /** Adds a string, also if it is there. */
  list(text) {
    const i = this.all.push(text) - 1;
    if (!this.#places.has(text)) this.#places.set(text, i);
    return i;
  }
}

// How many of a list come before the first for which `isBefore` is false.
function countWhile(list, isBefore) {
  let low = 0, high = list.length;
  while (low < high) {
    const middle = (low + high) >>> 1;
    if (isBefore(list[middle])) low = middle + 1;
    else high = middle;
  }
  return low;
}

// How long a part of a line gets.
const PART = 512;

// The mappings of a line by their columns, and in the order added where these are equal. They are kept in
// parts, so that few move for one that comes between.
class Line {
  #parts = [[]];
  #columnOf;

  constructor(columnOf) {
    this.#columnOf = columnOf;
  }

  // Behind which ones a mapping at a column comes: the part, and how many of it.
  #behind(column) {
    const isBefore = i => this.#columnOf(i) <= column;
    const part = Math.max(0, countWhile(this.#parts, ([first]) => isBefore(first)) - 1);
    return [part, countWhile(this.#parts[part], isBefore)];
  }

  before(column) {
    const [part, count] = this.#behind(column);
    return count === 0 ? -1 : this.#parts[part][count - 1];
  }

  put(i) {
    const [part, count] = this.#behind(this.#columnOf(i));
    const into = this.#parts[part];
    into.splice(count, 0, i);
    if (into.length > PART) this.#parts.splice(part + 1, 0, into.splice(PART / 2));
  }
}

/** Mappings, each by its number: the first that was added has 0. What is added has to be in range. */
class Mappings {
  #numbers = new Uint32Array(64 * WIDTH);
  #length = 0;
  #isInOrder = true;
  #lines = new Map(); // made when a mapping is first looked for that isn't the last one
  #inLines = 0;

  get length() {
    return this.#length;
  }

  add(line, column, source = NONE, originalLine = NONE, originalColumn = NONE, name = NONE) {
    const at = this.#length * WIDTH;
    if (at === this.#numbers.length) this.#grow();
    const numbers = this.#numbers;
    if (this.#isInOrder && at > 0) {
      const before = numbers[at - WIDTH];
      this.#isInOrder = before < line || (before === line && numbers[at - WIDTH + 1] <= column);
    }
    numbers[at] = line;
    numbers[at + 1] = column;
    numbers[at + 2] = source;
    numbers[at + 3] = originalLine;
    numbers[at + 4] = originalColumn;
    numbers[at + 5] = name;
    this.#length++;
  }

  #grow() {
    const more = new Uint32Array(2 * this.#numbers.length);
    more.set(this.#numbers);
    this.#numbers = more;
  }

  /** The six numbers of a mapping. */
  at(i) {
    return this.#numbers.subarray(i * WIDTH, (i + 1) * WIDTH);
  }

  /** Whether a mapping has this original and name. */
  hasOriginal(i, source = NONE, originalLine = NONE, originalColumn = NONE, name = NONE) {
    const numbers = this.#numbers, at = i * WIDTH;
    return numbers[at + 2] === source && numbers[at + 3] === originalLine &&
      numbers[at + 4] === originalColumn && numbers[at + 5] === name;
  }

  columnAt(i) {
    return this.#numbers[i * WIDTH + 1];
  }

  /** The mapping of a line behind which one at this column comes, or -1. */
  before(line, column) {
    const last = this.#length - 1;
    if (last < 0) return -1;
    if (this.#isInOrder) {
      const lastLine = this.#numbers[last * WIDTH];
      if (lastLine < line) return -1;
      if (lastLine === line && this.columnAt(last) <= column) return last;
    }
    this.#putInLines();
    return this.#lines.get(line)?.before(column) ?? -1;
  }

  #putInLines() {
    const lines = this.#lines;
    for (let i = this.#inLines; i < this.#length; i++) {
      const line = this.#numbers[i * WIDTH];
      if (!lines.has(line)) lines.set(line, new Line(one => this.columnAt(one)));
      lines.get(line).put(i);
    }
    this.#inLines = this.#length;
  }

  /** The mappings string. */
  spelled() {
    return spell(this.#numbers.subarray(0, this.#length * WIDTH));
  }
}

module.exports = { NONE, MOST, counted, countedLine, Strings, Mappings };
