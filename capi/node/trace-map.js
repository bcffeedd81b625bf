'use strict';
// What @jridgewell/trace-mapping offers for reading maps, over libsmap.
const { Lists, DEEP, indices, inOriginalOrder, firstFrom } = require('./lists.js');
const { NONE, found, listedAt } = require('./inside.js');
const { mappingsOf } = require('./decoded.js');

const LEAST_UPPER_BOUND = -1;
const GREATEST_LOWER_BOUND = 1;
const LINE = '`line` must be greater than 0 (lines start at line 1)';
const COLUMN = '`column` must be greater than or equal to 0 (columns start at column 0)';

let of;

class TraceMap {
  #own;

  static {
    of = map => map.#own;
  }

  constructor(map, mapUrl) {
    if (map instanceof TraceMap) return map;
    const isText = typeof map === 'string';
    const own = new Lists(isText ? map : JSON.stringify(plain(map)), mapUrl, isText ? null : map);
    this.#own = own;
    if (!own.hasSections && typeof map.mappings === 'string') own.encoded = map.mappings;
    own.lines = !own.hasSections && Array.isArray(map.mappings) ? map.mappings.length : 0;
    own.folder = folderOf(mapUrl);
    own.told = [];
    own.named = [];
    own.shown = { resolvedSources: false, names: false };
    own.asked = 0;
    own.made = null;
    this.version = 3;
    this.file = own.map.file ?? undefined;
    this.sourceRoot = own.root ?? undefined;
    Object.defineProperties(this, LATER);
  }
}

// Properties that are made when they are first asked for: most programs need none of them.
const LATER = {
  resolvedSources: later('resolvedSources', own => allSources(own)),
  sources: later('sources', (own, map) =>
    (own.hasSections ? map.resolvedSources : own.written.map(({ source }) => source))),
  names: later('names', own => own.names.slice()),
  sourcesContent: later('sourcesContent', own => own.contents ?? undefined),
  ignoreList: later('ignoreList', own => (own.hasSections ? undefined : ignored(own))),
};

function later(name, make) {
  const put = (map, value) => {
    of(map).shown[name] = true;
    Object.defineProperty(map, name, { value, configurable: true, enumerable: true, writable: true });
    return value;
  };
  return {
    configurable: true,
    enumerable: true,
    get() {
      return put(this, make(of(this), this));
    },
    set(value) {
      put(this, value);
    },
  };
}

function ignored(own) {
  const list = [...own.distinct.keys()].filter(i => own.isIgnored(i));
  return list.length ? list : undefined;
}

const isURL = name => /^[A-Za-z][A-Za-z0-9+.-]*:/.test(name);

// The folder of the map, which its sources are told below; none for a URL, whose sources are URLs.
function folderOf(mapUrl) {
  const name = String(mapUrl ?? '');
  const folder = name.slice(0, name.lastIndexOf('/') + 1);
  return { name: folder, below: isURL(folder) ? '' : folder };
}

// A source; a relative one begins with a dot if what it is relative to does, or it does so itself in the text
// where it is relative to nothing.
function sourceAt(own, i) {
  const source = own.resolvedAt(i, DEEP + 'map', own.folder.below);
  if (source === null) return null;
  const { root, source: written } = own.writtenAt(i);
  const isDotted = (own.folder.name || root || written).startsWith('.');
  return isDotted && !/^[./]/.test(source) && !isURL(source) ? `./${source}` : source;
}

const allSources = own => Array.from({ length: own.length }, (_, i) => told(own, i));

// The same, made once.
function told(own, i) {
  const known = own.told[i];
  return known === undefined ? (own.told[i] = sourceAt(own, i)) : known;
}

// Mappings that are arrays already are spelled again; libsmap reads text. It refuses what is neither.
function plain(map) {
  if (map.sections != null) {
    const inner = section => (typeof section.map === 'string' ? JSON.parse(section.map) : section.map);
    return { ...map, sections: map.sections.map(section => ({ ...section, map: plain(inner(section)) })) };
  }
  return Array.isArray(map.mappings) ? { ...map, mappings: mappingsOf(map.mappings).spelled() } : map;
}

function AnyMap(map, mapUrl) {
  return new TraceMap(map, mapUrl);
}

// ---- from generated positions

function at(table, i) {
  const source = table.source[i];
  if (source < 0) return [table.column[i]];
  const name = table.name[i];
  const segment = [table.column[i], source, table.sourceLine[i], table.sourceColumn[i]];
  if (name >= 0) segment.push(name);
  return segment;
}

// Of mappings at one position, trace-mapping takes the first if that is the position asked for, and the last
// if it lies before; with the other bias, the last and the first.
function index(table, line, column, bias) {
  const { starts } = table;
  const found = table.find(line, column);
  const isExact = found >= 0 && table.column[found] === column;
  if (bias === LEAST_UPPER_BOUND && !isExact) {
    const next = found >= 0 ? found + 1 : starts[line];
    return line < starts.length - 1 && next < starts[line + 1] ? next : -1;
  }
  if (!isExact || bias === LEAST_UPPER_BOUND) return found;
  const before = table.find(line, column - 1);
  return before < 0 ? starts[line] : before + 1;
}

// Whether the library is asked for a mapping, which is in `found` then: the first lookups don't need a table
// of all mappings, which pays from about a sixteenth as many lookups as there are mappings.
function asks(own, line, column) {
  if (own.asked++ * 16 > own.map.counts.mappings) return false;
  return isPlace(line) && isPlace(column);
}

const tableOf = own => (own.made ??= own.table);

const isPlace = n => n >>> 0 === n;

function traceSegment(map, line, column) {
  const own = of(map);
  if (own.made === null && asks(own, line, column)) {
    return listedAt(own.map, line, column) ? segmentFound() : null;
  }
  const table = tableOf(own);
  const i = index(table, line, column, GREATEST_LOWER_BOUND);
  return i < 0 ? null : at(table, i);
}

function segmentFound() {
  const [, column, source, sourceLine, sourceColumn, name] = found;
  if (source === NONE) return [column];
  const segment = [column, source, sourceLine, sourceColumn];
  if (name !== NONE) segment.push(name);
  return segment;
}

function check(line, column) {
  if (line < 1) throw new Error(LINE);
  if (column < 0) throw new Error(COLUMN);
}

const NOWHERE = () => ({ source: null, line: null, column: null, name: null });

function originalPositionFor(map, { line, column, bias }) {
  check(line, column);
  const own = of(map);
  const isUsual = !bias || bias === GREATEST_LOWER_BOUND;
  if (own.made === null && isUsual && asks(own, line - 1, column)) {
    if (!listedAt(own.map, line - 1, column) || found[2] === NONE) return NOWHERE();
    return original(map, own, found[2], found[3], found[4], found[5] === NONE ? -1 : found[5]);
  }
  const table = tableOf(own);
  const i = index(table, line - 1, column, isUsual ? GREATEST_LOWER_BOUND : bias);
  const source = i < 0 ? -1 : table.source[i];
  if (source < 0) return NOWHERE();
  return original(map, own, source, table.sourceLine[i], table.sourceColumn[i], table.name[i]);
}

// Lists that the program has seen may have been changed by it.
function original(map, own, source, line, column, name) {
  const { shown, named } = own;
  return {
    source: shown.resolvedSources ? map.resolvedSources[source] : told(own, source),
    line: line + 1,
    column,
    name: name < 0 ? null : shown.names ? map.names[name] : (named[name] ??= own.nameAt(name)),
  };
}

function eachMapping(map, call) {
  const { starts, column, source: sources, sourceLine, sourceColumn, name: nameOf } = of(map).table;
  const { names, resolvedSources } = map;
  for (let line = 0; line < starts.length - 1; line++) {
    const generatedLine = line + 1;
    const end = starts[line + 1];
    for (let i = starts[line]; i < end; i++) {
      const generatedColumn = column[i];
      const source = sources[i];
      if (source < 0) {
        call({
          generatedLine, generatedColumn, source: null, originalLine: null, originalColumn: null, name: null,
        });
        continue;
      }
      const name = nameOf[i];
      call({
        generatedLine,
        generatedColumn,
        source: resolvedSources[source],
        originalLine: sourceLine[i] + 1,
        originalColumn: sourceColumn[i],
        name: name < 0 ? null : names[name],
      });
    }
  }
}

// ---- sources

// Where the sources stood in a list when one was first looked for there.
const placesIn = new WeakMap();

// Where a source stands in a list, or -1 if the program has moved it there.
function placeIn(list, source) {
  if (!placesIn.has(list)) placesIn.set(list, indices(list));
  const i = placesIn.get(list).get(source) ?? -1;
  return list[i] === source ? i : -1;
}

function sourceIndex(map, source) {
  let i = placeIn(map.sources, source);
  if (i < 0) i = placeIn(map.resolvedSources, source);
  if (i < 0) i = map.sources.indexOf(source);
  return i < 0 ? map.resolvedSources.indexOf(source) : i;
}

function sourceContentFor(map, source) {
  const i = sourceIndex(map, source);
  return i < 0 ? null : of(map).content(i);
}

function isIgnored(map, source) {
  const i = sourceIndex(map, source);
  return i >= 0 && of(map).isIgnored(i);
}

// ---- the map as an object

function lineAt(table, line) {
  const segments = [];
  for (let i = table.starts[line]; i < table.starts[line + 1]; i++) segments.push(at(table, i));
  return segments;
}

// So many lines are made of any map. More have to be in its text: an index map of a hundred bytes may have
// millions of empty ones, and each is an array here.
const LINES_OF_ANY = 2 ** 20;

function decodedMappings(map) {
  const own = of(map);
  if (own.decoded) return own.decoded;
  const length = own.table.starts.length - 1;
  if (length > LINES_OF_ANY && length > own.size) {
    const error = new RangeError(`${length} lines, and more than the map's text has characters`);
    throw Object.assign(error, { code: 'SMAP_TOO_LONG' });
  }
  // The last ones of arrays may be empty.
  const lines = Math.max(length, own.lines);
  return (own.decoded = Array.from({ length: lines }, (_, line) => lineAt(own.table, line)));
}

// Those of the object that was given, or what libsmap writes for the flat map: in order, and as short as
// possible.
function encodedMappings(map) {
  const own = of(map);
  return (own.encoded ??= JSON.parse(own.map.flatten()).mappings);
}

function clone(map, mappings) {
  const { version, file, names, sourceRoot, sources, sourcesContent } = map;
  return { version, file, names, sourceRoot, sources, sourcesContent, mappings };
}

const decodedMap = map => clone(map, decodedMappings(map));
const encodedMap = map => clone(map, encodedMappings(map));
const presortedDecodedMap = (map, mapUrl) => new TraceMap(map, mapUrl);

// ---- the way back

const reversed = own => (own.reversed ??= inOriginalOrder(own.table, () => 0));

// The mappings of one original position, as the first and the end in that order: of those of its line, the
// ones at the column, or else at the nearest column in the direction of the bias.
function group(own, source, line, column, bias) {
  const t = own.table;
  const order = reversed(own);
  const from = (l, c) => firstFrom(t, order, source, l, c);
  const after = from(line, Math.floor(column) + 1);
  const isBefore = after > from(line, 0);
  const isExact = isBefore && t.sourceColumn[order[after - 1]] === column;
  const near = isExact || bias !== LEAST_UPPER_BOUND ? after - 1 : after;
  if (near === after ? after >= from(line + 1, 0) : !isBefore) return null;
  const matched = t.sourceColumn[order[near]];
  return { isExact, first: from(line, matched), end: from(line, matched + 1) };
}

const generatedAt = (own, k) => {
  const i = reversed(own)[k];
  return { line: own.table.line[i] + 1, column: own.table.column[i] };
};

function generatedPositionFor(map, { source, line, column, bias }) {
  check(line, column);
  const own = of(map);
  const which = sourceIndex(map, source);
  const found = which < 0 ? null : group(own, which, line - 1, column, bias || GREATEST_LOWER_BOUND);
  if (!found) return { line: null, column: null };
  return generatedAt(own, found.isExact === (bias === LEAST_UPPER_BOUND) ? found.end - 1 : found.first);
}

function allGeneratedPositionsFor(map, { source, line, column, bias }) {
  check(line, column);
  const own = of(map);
  const which = sourceIndex(map, source);
  const found = which < 0 ? null : group(own, which, line - 1, column, bias || LEAST_UPPER_BOUND);
  if (!found) return [];
  return Array.from({ length: found.end - found.first }, (_, k) => generatedAt(own, found.first + k));
}

module.exports = {
  TraceMap, AnyMap, FlattenMap: AnyMap, LEAST_UPPER_BOUND, GREATEST_LOWER_BOUND, traceSegment,
  originalPositionFor, generatedPositionFor, allGeneratedPositionsFor, eachMapping, sourceContentFor,
  isIgnored, decodedMappings, encodedMappings, decodedMap, encodedMap, presortedDecodedMap,
};
