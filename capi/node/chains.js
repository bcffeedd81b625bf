'use strict';
// What @ampproject/remapping offers, over libsmap: one map out of a chain of maps.
const { SourceMap } = require('./index.js');
const { parse } = require('./lists.js');
const { TraceMap, decodedMappings, encodedMappings } = require('./trace-map.js');

// Sources are below this: so libsmap takes those for one that have one number here.
const BASE = 'http://smap.invalid/';

// How deep maps may lead on. A loader that goes by names alone leads on for ever where a source is called like
// the text that is made of it.
const DEEPEST = 256;

// What a text stands for, and the text without its mappings; or null, as where these are in sections.
function cut(text) {
  let flat;
  try {
    flat = parse(text);
  } catch {
    return null; // libsmap says what is wrong
  }
  const literal = `"${flat?.mappings}"`, at = text.indexOf(literal);
  const isFound = at >= 0 && /"mappings"\s*:\s*$/.test(text.slice(Math.max(0, at - 99), at));
  return isFound ? { flat, text: `${text.slice(0, at)}""${text.slice(at + literal.length)}` } : null;
}

// A map, and what is known of it. The mappings of a text are read once, with numbers for its sources.
function read(given, url) {
  const { flat, text } = (typeof given === 'string' && cut(given)) || { flat: {}, text: given };
  return { map: new TraceMap(text, url), flat };
}

class Chain {
  #load;
  #ends = []; // the sources that no map leads on from, each name and content once
  #numbers = new Map(); // theirs: by content, in a map by name

  constructor(load) {
    this.#load = load;
  }

  #numberOf(source, content) {
    if (!this.#numbers.has(source)) this.#numbers.set(source, new Map());
    const numbers = this.#numbers.get(source);
    if (!numbers.has(content)) numbers.set(content, this.#ends.push({ source, content }) - 1);
    return numbers.get(content);
  }

  // The map with these numbers for sources, of which some have maps, by their place: those are followed.
  #composed({ map, flat }, numbers, ignored, inner) {
    const own = new SourceMap({
      version: 3,
      sources: numbers.map((number, i) => (inner.has(i) ? `followed${i}` : String(number))),
      names: flat.names ?? map.names,
      ignoreList: ignored,
      mappings: flat.mappings ?? encodedMappings(map),
    }, BASE);
    if (inner.size === 0) return own;
    try {
      const { listedSources } = own;
      return own.compose(new Map(Array.from(inner, ([i, one]) => [listedSources[i], one])));
    } finally {
      for (const one of [own, ...inner.values()]) one.close();
    }
  }

  /** A map, and what the loader has for its sources. */
  tree(given, importer, importerDepth) {
    const depth = importerDepth + 1;
    if (depth > DEEPEST) throw new RangeError(`maps lead on more than ${DEEPEST} deep, as to ${importer}`);
    const { map } = given;
    const inner = new Map(), ignored = [], numbers = [];
    map.resolvedSources.forEach((name, i) => {
      const told = { importer, depth, source: name || '', content: undefined, ignore: undefined };
      const found = this.#load(told.source, told);
      const { source, content, ignore } = told;
      if (found) inner.set(i, this.tree(read(found, source), source, depth));
      const isIgnored = map.ignoreList?.includes(i) ?? false;
      if (found ? isIgnored : ignore ?? isIgnored) ignored.push(i);
      const ownContent = content === undefined ? map.sourcesContent?.[i] ?? null : content;
      numbers.push(found ? null : this.#numberOf(source, ownContent));
    });
    return this.#composed(given, numbers, ignored, inner);
  }

  /** A map of one source, which has this map. */
  around(given, inner) {
    const { sources, ignoreList } = given.map;
    return this.#composed(given, sources, ignoreList ?? [], new Map(sources.map((_, i) => [i, inner])));
  }

  /** The sources of a composed map, in its order. */
  endsOf(map) {
    return map.sources.map((url, i) => ({ ...this.#ends[url.slice(BASE.length)], isIgnored: map.isIgnored(i) }));
  }
}

class Remapped {
  constructor(map, file, ends, { excludeContent, decodedMappings: isDecoded }) {
    const flat = JSON.parse(map.flatten());
    this.version = 3;
    this.file = file;
    this.mappings = isDecoded ? decodedMappings(new TraceMap(flat)) : flat.mappings;
    this.names = flat.names;
    this.sourceRoot = undefined;
    this.sources = ends.map(({ source }) => source || null);
    if (!excludeContent) this.sourcesContent = ends.map(({ content }) => content);
    const ignored = [...ends.keys()].filter(i => ends[i].isIgnored);
    if (ignored.length) this.ignoreList = ignored;
  }

  toString() {
    return JSON.stringify(this);
  }
}

const ONE = 'must have exactly one source file.\n' +
  'Did you specify these with the most recent transformation maps first?';

function remapping(input, loader, options) {
  const maps = (Array.isArray(input) ? input : [input]).map(map => read(map, ''));
  const { file } = maps[0].map;
  const last = maps.pop();
  maps.forEach(({ map }, i) => {
    if (map.sources.length > 1) throw new Error(`Transformation map ${i} ${ONE}`);
  });
  const chain = new Chain(loader);
  let map = chain.tree(last, '', 0);
  for (const outer of maps.reverse()) map = chain.around(outer, map);
  const thinned = map.thinned(), used = thinned.used();
  const words = typeof options === 'object' ? options : { excludeContent: Boolean(options) };
  try {
    return new Remapped(used, file, chain.endsOf(used), words);
  } finally {
    for (const one of [map, thinned, used]) one.close();
  }
}

module.exports = remapping;
