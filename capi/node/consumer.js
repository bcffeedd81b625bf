'use strict';
// What the SourceMapConsumer of source-map 0.6 offers for reading maps, over libsmap.
const { Lists, normal, prefixed, indices, inOriginalOrder, firstFrom } = require('./lists.js');

const GENERATED_ORDER = 1;
const ORIGINAL_ORDER = 2;
const GREATEST_LOWER_BOUND = 1;
const LEAST_UPPER_BOUND = 2;

function need(args, name, usual) {
  if (name in args) return args[name];
  if (usual !== undefined) return usual;
  throw new Error(`"${name}" is a required argument.`);
}

function check(line, column) {
  if (line <= 0) throw new TypeError('Line must be greater than or equal to 1, got ' + line);
  if (column < 0) throw new TypeError('Column must be greater than or equal to 0, got ' + column);
}

function rootOf(root) {
  if (!root) return root ?? null;
  return root.endsWith('/') ? normal(root) : normal(root).replace(/\/$/, '');
}

// As unsigned numbers, so that no source and no name come last.
const compareNames = (t, a, b) => (t.name[a] >>> 0) - (t.name[b] >>> 0);
const compareOriginals = (t, a, b) => (t.source[a] >>> 0) - (t.source[b] >>> 0) ||
  t.sourceLine[a] - t.sourceLine[b] || t.sourceColumn[a] - t.sourceColumn[b] || compareNames(t, a, b);

// What a source may be asked for by, besides the URL that it is told by.
function byText({ written, distinct, map }) {
  return {
    asWritten: indices(written.map(one => one.source)),
    normalized: indices(written.map(one => one.source && normal(one.source))),
    belowRoot: indices(written.map(one => (one.root ? one.source : null))),
    resolved: indices(Array.from(distinct, number => map.sources[number])),
  };
}

function indexOfURL(resolved, source, { root, base }) {
  const names = root ? [source, prefixed(root, source)] : [source];
  const urls = names.filter(name => URL.canParse(name, base)).map(name => new URL(name, base).href);
  const found = urls.map(url => resolved.get(url)).filter(i => i !== undefined);
  return found.length ? Math.min(...found) : undefined;
}

class SourceMapConsumer {
  #lists;
  #byURL;
  #byText;
  #firsts = new Map();
  #order;
  #spans;

  constructor(map, url) {
    const isText = typeof map === 'string';
    const own = new Lists(isText ? map : JSON.stringify(map), url, isText ? null : map);
    this.#lists = own;
    this.file = own.map.file;
    this.sourceRoot = rootOf(own.root);
    this.sources = Array.from({ length: own.length }, (_, i) => own.resolvedAt(i));
    const kind = own.hasSections ? IndexedSourceMapConsumer : BasicSourceMapConsumer;
    Object.setPrototypeOf(this, kind.prototype);
  }

  static fromSourceMap(generator, url) {
    return new SourceMapConsumer(generator.toString(), url);
  }

  get _names() {
    return this.#lists.names;
  }

  get sourcesContent() {
    return this.#lists.contents;
  }

  // A source is asked for by its URL, as the map writes it, or with its root before it.
  #sourceIndex(source) {
    this.#byURL ??= indices(this.sources);
    return this.#byURL.get(source) ?? this.#writtenIndex(source) ?? -1;
  }

  #writtenIndex(source) {
    const own = this.#lists;
    const { asWritten, normalized, belowRoot, resolved } = (this.#byText ??= byText(own));
    return asWritten.get(source) ?? normalized.get(normal(source)) ?? belowRoot.get('/' + source) ??
      indexOfURL(resolved, source, own);
  }

  // The mapping for a position. Of mappings at one position, source-map takes the one with the first
  // original; one without an original comes last.
  #find(line, column, bias) {
    check(line, column);
    const t = this.#lists.table;
    let found = t.find(line - 1, column);
    if (bias === LEAST_UPPER_BOUND && !(found >= 0 && t.column[found] === column)) {
      const next = found >= 0 ? found + 1 : t.starts[line - 1];
      found = next < t.starts[line] ? t.find(line - 1, t.column[next]) : -1;
    }
    return found < 0 ? found : this.#firstAt(found, t.starts[line - 1]);
  }

  // Of the mappings at a position, of which `last` is the last, the one with the first original. There may be
  // many, so they are gone through once.
  #firstAt(last, start) {
    const t = this.#lists.table;
    if (this.#firsts.has(last)) return this.#firsts.get(last);
    let best = last;
    let i = last;
    while (i > start && t.column[i - 1] === t.column[last]) {
      i--;
      if (compareOriginals(t, i, best) <= 0) best = i;
    }
    if (i < last) this.#firsts.set(last, best);
    return best;
  }

  originalPositionFor(args) {
    const t = this.#lists.table;
    const bias = need(args, 'bias', GREATEST_LOWER_BOUND);
    const i = this.#find(need(args, 'line'), need(args, 'column'), bias);
    const source = i < 0 ? -1 : t.source[i];
    if (source < 0) return { source: null, line: null, column: null, name: null };
    const name = t.name[i];
    return {
      source: this.sources[source],
      line: t.sourceLine[i] + 1,
      column: t.sourceColumn[i],
      name: name < 0 ? null : this.#lists.names[name],
    };
  }

  eachMapping(call, context, order = GENERATED_ORDER) {
    if (order !== GENERATED_ORDER && order !== ORIGINAL_ORDER) throw new Error('Unknown order of iteration.');
    const t = this.#lists.table;
    const names = this.#lists.names;
    const sources = this.sources;
    const by = order === ORIGINAL_ORDER ? this.#reversed : null;
    const n = by ? by.length : t.length;
    for (let k = 0; k < n; k++) {
      const i = by ? by[k] : k;
      const source = t.source[i];
      const name = t.name[i];
      call.call(context ?? null, {
        source: source < 0 ? null : sources[source],
        generatedLine: t.line[i] + 1,
        generatedColumn: t.column[i],
        originalLine: source < 0 ? null : t.sourceLine[i] + 1,
        originalColumn: source < 0 ? null : t.sourceColumn[i],
        name: name < 0 ? null : names[name],
      });
    }
  }

  sourceContentFor(source, nullOnMissing) {
    if (!this.sourcesContent) return null;
    const i = this.#sourceIndex(source);
    if (i >= 0) {
      const content = this.#lists.content(i);
      if (content !== null || this instanceof BasicSourceMapConsumer) return content;
    }
    if (nullOnMissing) return null;
    throw new Error('"' + source + '" is not in the SourceMap.');
  }

  hasContentsOfAllSources() {
    return this.sourcesContent !== null && this.sourcesContent.every(content => content !== null);
  }

  computeColumnSpans() {
    const t = this.#lists.table;
    this.#spans = new Float64Array(t.length);
    for (let i = 0; i < t.length; i++) {
      const isLast = i + 1 >= t.length || t.line[i + 1] !== t.line[i];
      this.#spans[i] = isLast ? Infinity : t.column[i + 1] - 1;
    }
  }

  // ---- the way back

  get #reversed() {
    const t = this.#lists.table;
    const tie = (a, b) => t.column[a] - t.column[b] || t.line[a] - t.line[b] || compareNames(t, a, b);
    return (this.#order ??= inOriginalOrder(t, tie));
  }

  #generated(i) {
    const t = this.#lists.table;
    return { line: t.line[i] + 1, column: t.column[i], lastColumn: this.#spans ? this.#spans[i] : null };
  }

  #firstFrom(source, line, column) {
    return firstFrom(this.#lists.table, this.#reversed, source, line, column);
  }

  generatedPositionFor(args) {
    const source = this.#sourceIndex(need(args, 'source'));
    const line = need(args, 'line');
    const column = need(args, 'column');
    const bias = need(args, 'bias', GREATEST_LOWER_BOUND);
    const nowhere = { line: null, column: null, lastColumn: null };
    if (source < 0) return nowhere;
    check(line, column);
    const t = this.#lists.table;
    const order = this.#reversed;
    let k = this.#firstFrom(source, line - 1, column);
    const isOf = i => t.source[i] === source;
    const isAt = i => isOf(i) && t.sourceLine[i] === line - 1 && t.sourceColumn[i] === column;
    if (bias !== LEAST_UPPER_BOUND && !(k < order.length && isAt(order[k]))) {
      if (k === 0) return nowhere;
      const i = order[k - 1];
      k = this.#firstFrom(t.source[i], t.sourceLine[i], t.sourceColumn[i]);
    }
    return k < order.length && isOf(order[k]) ? this.#generated(order[k]) : nowhere;
  }

  allGeneratedPositionsFor(args) {
    const source = this.#sourceIndex(need(args, 'source'));
    const line = need(args, 'line') - 1;
    if (source < 0) return [];
    const t = this.#lists.table;
    const order = this.#reversed;
    const first = this.#firstFrom(source, line, args.column ?? 0);
    if (first >= order.length || t.source[order[first]] !== source) return [];
    const atLine = t.sourceLine[order[first]];
    if (args.column === undefined) return this.#between(first, this.#firstFrom(source, atLine + 1, 0));
    if (atLine !== line) return [];
    return this.#between(first, this.#firstFrom(source, line, t.sourceColumn[order[first]] + 1));
  }

  #between(first, end) {
    return Array.from(this.#reversed.subarray(first, end), i => this.#generated(i));
  }

  destroy() {
    this.#lists.map.close();
  }
}

Object.assign(SourceMapConsumer, {
  GENERATED_ORDER, ORIGINAL_ORDER, GREATEST_LOWER_BOUND, LEAST_UPPER_BOUND,
});
Object.defineProperty(SourceMapConsumer.prototype, '_version', { value: 3 });

class BasicSourceMapConsumer extends SourceMapConsumer {}
class IndexedSourceMapConsumer extends SourceMapConsumer {}

module.exports = { SourceMapConsumer, BasicSourceMapConsumer, IndexedSourceMapConsumer };
