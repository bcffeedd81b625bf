'use strict';
// Maps that are built call by call. Mappings are collected, and handed over to libsmap when there are many.
const native = require('./native.js');
const { SmapError, wrongMapping } = require('./errors.js');
const { MOST, MOST_LINES, isWhole, counted, limitsOf, urlOf, textOf, wordsOf } = require('./inputs.js');
const inside = require('./inside.js');

const { NONE } = inside;
const WIDTH = 6;
const ROOM = 512 * WIDTH; // how many numbers are collected
const NO_NUMBERS = new Uint32Array(0);

// A number that libsmap refuses unless it is below a bound.
function below(n, name, bound) {
  if (counted(n, name) < bound) return n;
  throw new SmapError('SMAP_RANGE', `${name} ${n}: number out of range`);
}

// The numbers of an array. Uint32Array.from would take several times as long.
function listed(numbers) {
  const words = new Uint32Array(numbers.length);
  for (let i = 0; i < words.length; i++) {
    const n = numbers[i];
    words[i] = n === NONE || isWhole(n, MOST) ? n : counted(n, `numbers[${i}]`);
  }
  return words;
}

class Builder {
  #handle;
  #lines;
  #sources = 0;
  #names = 0;
  #numbers = new Uint32Array(ROOM);
  #length = 0;

  constructor(url, options) {
    const [items, lines] = limitsOf(options);
    this.#handle = native.builderOpen(urlOf(url), items, lines);
    this.#lines = lines || MOST_LINES;
  }

  setFile(text) {
    native.builderFile(this.#handle, text === null ? null : textOf(text, 'the name of a file'));
  }

  source(url, { content, ignored } = {}) {
    const text = content == null ? content : textOf(content, 'content');
    const number = native.builderSource(this.#handle, url === null ? null : urlOf(url));
    this.#sources = Math.max(this.#sources, number + 1);
    if (text !== undefined) native.builderContent(this.#handle, number, text);
    if (ignored !== undefined) native.builderIgnore(this.#handle, number, Boolean(ignored));
    return number;
  }

  name(text) {
    const number = native.builderName(this.#handle, textOf(text, 'a name'));
    this.#names = Math.max(this.#names, number + 1);
    return number;
  }

  add(line, column, source, sourceLine, sourceColumn, name) {
    // A closed builder has room for none.
    if (this.#length === this.#numbers.length) this.#handOver();
    const numbers = this.#numbers, at = this.#length;
    const hasSource = (source ?? sourceLine ?? sourceColumn ?? name ?? null) !== null;
    numbers[at] = below(line, 'line', this.#lines);
    numbers[at + 1] = counted(column, 'column');
    numbers[at + 2] = hasSource ? below(source, 'source', this.#sources) : NONE;
    numbers[at + 3] = hasSource ? counted(sourceLine, 'sourceLine') : NONE;
    numbers[at + 4] = hasSource ? counted(sourceColumn, 'sourceColumn') : NONE;
    numbers[at + 5] = name == null ? NONE : below(name, 'name', this.#names);
    this.#length += WIDTH;
  }

  addAll(numbers) {
    const given = Array.isArray(numbers) ? listed(numbers) : numbers;
    const words = wordsOf(given, 'a Uint32Array or an array');
    this.#handOver();
    this.#put(words);
  }

  finish() {
    this.#handOver();
    const map = this.#orClose(() => native.builderFinish(this.#handle));
    this.close();
    return inside.mapOf(map);
  }

  close() {
    native.builderClose(this.#handle);
    this.#numbers = NO_NUMBERS;
    this.#length = 0;
  }

  #handOver() {
    this.#put(this.#numbers.subarray(0, this.#length));
    this.#length = 0;
  }

  #put(words) {
    const wrong = this.#orClose(() => native.builderAdd(this.#handle, words));
    if (wrong !== undefined) throw wrongMapping(wrong);
  }

  // Where memory ends, some of the mappings may have been added.
  #orClose(call) {
    try {
      return call();
    } catch (error) {
      if (error.code === 'SMAP_MEMORY') this.close();
      throw error;
    }
  }
}

module.exports = { Builder };
