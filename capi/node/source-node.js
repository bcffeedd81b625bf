'use strict';
// What the SourceNode of source-map 0.6 offers: generated code in pieces that know where they are from.
const { SourceMapGenerator } = require('./generator.js');
const { join } = require('./paths.js');

// What source-map knows a node by, in every version.
const IS_NODE = '$$$isSourceNode$$$';

const isNode = chunk => Boolean(chunk?.[IS_NODE]);

function checkChunk(chunk) {
  if (isNode(chunk) || typeof chunk === 'string') return;
  throw new TypeError(`Expected a SourceNode, string, or an array of SourceNodes and strings. Got ${chunk}`);
}

class SourceNode {
  children = [];
  sourceContents = Object.create(null);
  [IS_NODE] = true;

  constructor(line, column, source, chunks, name) {
    this.line = line ?? null;
    this.column = column ?? null;
    this.source = source ?? null;
    this.name = name ?? null;
    if (chunks != null) this.add(chunks);
  }

  static fromStringWithSourceMap(code, consumer, folder) {
    const node = new SourceNode();
    const rest = new Rest(code);
    let last = null;
    consumer.eachMapping(mapping => {
      const { generatedLine: line, generatedColumn: column } = mapping;
      if (last) node.add(pieceOf(last, rest.line === line ? rest.takeUpTo(column) : rest.takeLine(), folder));
      while (rest.line < line) node.add(rest.takeLine());
      if (rest.column < column) node.add(rest.takeUpTo(column));
      last = mapping;
    });
    if (last) node.add(pieceOf(last, rest.takeLine(), folder));
    node.add(rest.takeAll());
    for (const source of consumer.sources) {
      const content = source == null ? null : consumer.sourceContentFor(source, true);
      if (content != null) node.setSourceContent(folder == null ? source : join(folder, source), content);
    }
    return node;
  }

  add(chunk) {
    if (Array.isArray(chunk)) {
      for (const one of chunk) this.add(one);
      return this;
    }
    checkChunk(chunk);
    if (chunk !== '') this.children.push(chunk);
    return this;
  }

  prepend(chunk) {
    if (Array.isArray(chunk)) {
      for (const one of chunk.slice().reverse()) this.prepend(one);
      return this;
    }
    checkChunk(chunk);
    this.children.unshift(chunk);
    return this;
  }

  /** Calls with each piece of code that isn't empty, and where it is from. */
  walk(call) {
    const { source, line, column, name } = this;
    for (const child of this.children) {
      if (isNode(child)) child.walk(call);
      else if (child !== '') call(child, { source, line, column, name });
    }
  }

  walkSourceContents(call) {
    for (const child of this.children) if (isNode(child)) child.walkSourceContents(call);
    for (const [source, content] of Object.entries(this.sourceContents)) call(source, content);
  }

  join(separator) {
    this.children = this.children.flatMap((child, i) => (i === 0 ? [child] : [separator, child]));
    return this;
  }

  replaceRight(pattern, replacement) {
    const last = this.children.at(-1);
    if (isNode(last)) last.replaceRight(pattern, replacement);
    else this.children.splice(-1, 1, (last ?? '').replace(pattern, replacement));
    return this;
  }

  setSourceContent(source, content) {
    this.sourceContents[source] = content;
  }

  toString() {
    let code = '';
    this.walk(chunk => { code += chunk; });
    return code;
  }

  toStringWithSourceMap(options) {
    const map = new SourceMapGenerator(options);
    let code = '', line = 1, column = 0, last = null;
    const put = from => map.addMapping({ generated: { line, column }, ...from });
    this.walk((chunk, at) => {
      code += chunk;
      const from = originOf(at);
      if (!isAlike(from, last)) put(from);
      last = from;
      for (let i = chunk.indexOf('\n'); i >= 0; i = chunk.indexOf('\n', i + 1)) {
        line++;
        column = 0;
        // What a piece is from ends with the line.
        if (i + 1 === chunk.length) last = null;
        else if (last) put(last);
      }
      column += chunk.length - (chunk.lastIndexOf('\n') + 1);
    });
    this.walkSourceContents((source, content) => map.setSourceContent(source, content));
    return { code, map };
  }
}

// What a mapping says of where a piece is from, or null.
function originOf({ source, line, column, name }) {
  if (source == null || line == null || column == null) return null;
  return { source, original: { line, column }, name };
}

function isAlike(one, other) {
  if (!one || !other) return one === other;
  return one.source === other.source && one.name === other.name &&
    one.original.line === other.original.line && one.original.column === other.original.column;
}

// Code that is from where a mapping says.
function pieceOf({ source, originalLine, originalColumn, name }, code, folder) {
  if (source == null || originalLine == null) return code;
  return new SourceNode(originalLine, originalColumn, folder ? join(folder, source) : source, code, name);
}

// Generated code, which is taken from its start on. Behind its end all is empty.
class Rest {
  line = 1;
  column = 0;
  #parts; // lines, each with its line break behind it
  #at = 0;

  constructor(code) {
    this.#parts = code.split(/(\r?\n)/);
  }

  /** The rest of the line, and its line break. */
  takeLine() {
    const [text = '', end = ''] = this.#parts.slice(this.#at, this.#at + 2);
    this.#at += 2;
    this.line++;
    this.column = 0;
    return text + end;
  }

  takeUpTo(column) {
    const text = this.#parts[this.#at] ?? '';
    const length = column - this.column;
    if (text !== '') this.#parts[this.#at] = text.slice(length);
    this.column = column;
    return text.slice(0, length);
  }

  takeAll() {
    return this.#parts.slice(this.#at).join('');
  }
}

module.exports = { SourceNode };
