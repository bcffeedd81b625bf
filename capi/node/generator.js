'use strict';
// What the SourceMapGenerator of source-map 0.6 offers for making maps, over libsmap.
const { NONE, counted, countedLine, Strings, Mappings } = require('./making.js');
const { join, relative } = require('./paths.js');

const NO_NUMBERS = 'original.line and original.column are not numbers: where a mapping has no original, ' +
  'leave it out, or pass null';
const NO_FILE = 'applySourceMap wants the name of a source, or a map with a file';

const isPosition = at => Boolean(at) && 'line' in at && 'column' in at;

// A mapping has a generated position alone, or an original and its source too.
function check(mapping) {
  const { generated, original, source, name } = mapping;
  if (original && typeof original.line !== 'number' && typeof original.column !== 'number') {
    throw new Error(NO_NUMBERS);
  }
  const isWhole = original ? isPosition(original) && source != null : source == null && !name;
  if (isPosition(generated) && isWhole) return;
  throw new Error('Invalid mapping: ' + JSON.stringify({ generated, source, original, name }));
}

class SourceMapGenerator {
  #skipsCheck;
  #sources = new Strings();
  #names = new Strings();
  #mappings = new Mappings();
  #contents = new Map(); // by the source's name below the root

  constructor(options) {
    const { file = null, sourceRoot = null, skipValidation = false } = options || {};
    this._file = file;
    this._sourceRoot = sourceRoot;
    this.#skipsCheck = skipValidation;
  }

  static fromSourceMap(consumer) {
    const { file, sourceRoot } = consumer;
    const made = new SourceMapGenerator({ file, sourceRoot });
    consumer.eachMapping(each => {
      const generated = { line: each.generatedLine, column: each.generatedColumn };
      // Of a mapping without an original, source-map's own consumer tells a source.
      if (each.source == null || each.originalLine == null) return made.addMapping({ generated });
      const original = { line: each.originalLine, column: each.originalColumn };
      made.addMapping({ generated, original, source: made.#below(each.source), name: each.name });
    });
    made.#addContents(consumer, source => {
      const name = made.#below(source);
      made.#sources.put(name);
      return name;
    });
    return made;
  }

  // A source's name, relative to the root.
  #below(source) {
    return this._sourceRoot == null ? source : relative(this._sourceRoot, source);
  }

  addMapping(mapping) {
    if (!('generated' in mapping)) throw new Error('"generated" is a required argument.');
    if (!this.#skipsCheck) check(mapping);
    const { generated, original, source, name } = mapping;
    const line = countedLine(generated.line, 'generated.line', 1);
    const column = counted(generated.column, 'generated.column');
    if (source == null) return this.#add(line, column, NONE, NONE, NONE, name);
    const originalLine = counted(original?.line, 'original.line', 1);
    const originalColumn = counted(original?.column, 'original.column');
    this.#add(line, column, this.#sources.put(String(source)), originalLine, originalColumn, name);
  }

  // What is there already at its position isn't added once more.
  #add(line, column, source, originalLine, originalColumn, name) {
    const mappings = this.#mappings;
    const named = name == null ? NONE : this.#names.put(String(name));
    const original = [source, originalLine, originalColumn, source === NONE ? NONE : named];
    const before = mappings.before(line, column);
    const isThere = before >= 0 && mappings.columnAt(before) === column;
    if (!isThere || !mappings.hasOriginal(before, ...original)) mappings.add(line, column, ...original);
  }

  setSourceContent(source, content) {
    const name = this.#below(source);
    if (content == null) this.#contents.delete(name);
    else this.#contents.set(name, content);
  }

  applySourceMap(consumer, file, folder) {
    if (file == null && consumer.file == null) throw new Error(NO_FILE);
    const named = source => this.#below(folder == null ? source : join(folder, source));
    this.#replaceOriginals(this.#below(file ?? consumer.file), at => {
      const found = consumer.originalPositionFor(at);
      return found.source == null ? null : { ...found, source: named(found.source) };
    });
    this.#addContents(consumer, named);
  }

  // Takes the contents of a map's sources, as those of sources called otherwise.
  #addContents(consumer, named) {
    for (const source of consumer.sources) {
      if (source == null) continue;
      const name = named(source);
      const content = consumer.sourceContentFor(source, true);
      if (content != null) this.setSourceContent(name, content);
    }
  }

  // Takes what `find` has for the originals in a source, where it has something.
  #replaceOriginals(file, find) {
    const sources = this.#sources.all, names = this.#names.all;
    const made = new SourceMapGenerator();
    for (let i = 0; i < this.#mappings.length; i++) {
      const [line, column, which, originalLine, originalColumn, named] = this.#mappings.at(i);
      const generated = { line: line + 1, column };
      const source = which === NONE ? null : sources[which];
      const original = source === null ? null : { line: originalLine + 1, column: originalColumn };
      const found = source === file ? find(original) : null;
      const name = found?.name ?? names[named];
      made.addMapping({ generated, original: found ?? original, source: found?.source ?? source, name });
    }
    this.#mappings = made.#mappings;
    this.#sources = made.#sources;
    this.#names = made.#names;
  }

  toJSON() {
    const map = {
      version: 3,
      sources: this.#sources.all.slice(),
      names: this.#names.all.slice(),
      mappings: this.#mappings.spelled(),
    };
    if (this._file != null) map.file = this._file;
    if (this._sourceRoot != null) map.sourceRoot = this._sourceRoot;
    if (this.#contents.size) {
      map.sourcesContent = map.sources.map(source => this.#contents.get(this.#below(source)) ?? null);
    }
    return map;
  }

  toString() {
    return JSON.stringify(this.toJSON());
  }
}
Object.defineProperty(SourceMapGenerator.prototype, '_version', { value: 3 });

module.exports = { SourceMapGenerator };
