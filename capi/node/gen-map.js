'use strict';
// What @jridgewell/gen-mapping offers for making maps, over libsmap.
const { NONE, counted, countedLine, Strings, Mappings } = require('./making.js');
const { TraceMap, decodedMappings } = require('./trace-map.js');

let of;

class GenMapping {
  #own = {
    sources: new Strings(), names: new Strings(), contents: [], ignored: new Set(), mappings: new Mappings(),
  };

  static {
    of = map => map.#own;
  }

  constructor({ file, sourceRoot } = {}) {
    this.file = file;
    this.sourceRoot = sourceRoot;
  }
}

// ---- adding

// The number of a source. One that is new has no content yet.
function sourceOf(own, source, content = null) {
  const i = own.sources.put(source);
  if (i === own.contents.length) own.contents.push(content);
  return i;
}

// Whether a mapping without an original changes nothing: none is before it on its line that has one.
const isIdle = (mappings, before) => before < 0 || mappings.hasOriginal(before);

function addNone({ mappings }, isMaybe, line, column) {
  if (isMaybe && isIdle(mappings, mappings.before(line, column))) return;
  mappings.add(line, column);
}

function addSome(own, isMaybe, line, column, source, sourceLine, sourceColumn, name, content) {
  const { mappings, names } = own;
  const original = [
    sourceOf(own, String(source), content ?? null), sourceLine, sourceColumn,
    name == null ? NONE : names.put(String(name)),
  ];
  if (isMaybe) {
    const before = mappings.before(line, column);
    if (before >= 0 && mappings.hasOriginal(before, ...original)) return;
  }
  mappings.add(line, column, ...original);
}

const segmentAdder = isMaybe =>
  (map, genLine, genColumn, source, sourceLine, sourceColumn, name, content) => {
    const line = countedLine(genLine, 'genLine');
    const column = counted(genColumn, 'genColumn');
    if (source == null) return addNone(of(map), isMaybe, line, column);
    const from = [counted(sourceLine, 'sourceLine'), counted(sourceColumn, 'sourceColumn')];
    addSome(of(map), isMaybe, line, column, source, ...from, name, content);
  };

const mappingAdder = isMaybe => (map, { generated, source, original, name, content }) => {
  const line = countedLine(generated.line, 'generated.line', 1);
  const column = counted(generated.column, 'generated.column');
  if (source == null) return addNone(of(map), isMaybe, line, column);
  const from = [counted(original.line, 'original.line', 1), counted(original.column, 'original.column')];
  addSome(of(map), isMaybe, line, column, source, ...from, name, content);
};

const addSegment = segmentAdder(false);
const maybeAddSegment = segmentAdder(true);
const addMapping = mappingAdder(false);
const maybeAddMapping = mappingAdder(true);

function setSourceContent(map, source, content) {
  const own = of(map);
  own.contents[sourceOf(own, String(source))] = content;
}

function setIgnore(map, source, ignore = true) {
  const own = of(map);
  const i = sourceOf(own, String(source));
  if (ignore) own.ignored.add(i);
  else own.ignored.delete(i);
}

// ---- the map

function told(map, mappings) {
  const { sources, names, contents, ignored } = of(map);
  const made = {
    version: 3,
    file: map.file || undefined,
    names: names.all.slice(),
    sourceRoot: map.sourceRoot || undefined,
    sources: sources.all.slice(),
    sourcesContent: contents.slice(),
    mappings,
  };
  if (ignored.size) made.ignoreList = [...ignored];
  return made;
}

// The segments of each line, as libsmap reads what it spelled. Strings are their numbers there, so that any
// string may be one.
function decoded({ sources, names, mappings }) {
  const numbers = ({ all }) => all.map((_, i) => String(i));
  const map = { version: 3, sources: numbers(sources), names: numbers(names), mappings: mappings.spelled() };
  return decodedMappings(new TraceMap(map));
}

const toDecodedMap = map => told(map, decoded(of(map)));
const toEncodedMap = map => told(map, of(map).mappings.spelled());

function allMappings(map) {
  const { sources, names } = of(map);
  const item = (line, [column, source, sourceLine, sourceColumn, name]) => ({
    generated: { line: line + 1, column },
    source: sources.all[source],
    original: source === undefined ? undefined : { line: sourceLine + 1, column: sourceColumn },
    name: names.all[name],
  });
  return decoded(of(map)).flatMap((segments, line) => segments.map(segment => item(line, segment)));
}

function fromMap(input) {
  const map = new TraceMap(input);
  const made = new GenMapping(map);
  const { sources, names, contents, ignored, mappings } = of(made);
  for (const name of map.names) names.list(name);
  for (const source of map.sources) sources.list(source);
  contents.push(...(map.sourcesContent ?? map.sources.map(() => null)));
  for (const i of map.ignoreList ?? []) ignored.add(i);
  decodedMappings(map).forEach((segments, line) => {
    for (const segment of segments) mappings.add(line, ...segment);
  });
  return made;
}

module.exports = {
  GenMapping, addSegment, addMapping, maybeAddSegment, maybeAddMapping, setSourceContent, setIgnore,
  toDecodedMap, toEncodedMap, fromMap, allMappings,
};
