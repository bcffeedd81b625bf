// Prints where each position of a text leads, by @jridgewell/trace-mapping, for tests/chains/run: a line for
// each UTF-16 unit of each line, and for each line's end. Standard input has JSON: `text`, a file; and
// `maps`, a list of pairs, the URL of a script and the file of its map, that of the text first.
//
// A line is `none`, or `URL:LINE:COLUMN`, from 1 like those of a log, then the name in JSON if there is one,
// and `ignored` if the source is, or one on the way to it.
'use strict';
const fs = require('fs');
const { TraceMap, traceSegment, originalPositionFor, GREATEST_LOWER_BOUND, LEAST_UPPER_BOUND } =
  require('@jridgewell/trace-mapping');

// A map to ask. The package knows no `ignoreList`: that is read here.
function opened([url, file]) {
  const read = JSON.parse(fs.readFileSync(file, 'utf8'));
  const map = new TraceMap(read, url + '.map');
  // It leaves characters outside of ASCII as they are.
  const urls = new Map(map.resolvedSources.map((source) => [source, new URL(source).href]));
  const ignored = new Set((read.ignoreList || []).map((index) => map.resolvedSources[index]));
  return [url, { map, urls, ignored }];
}

// The original of the last mapping that isn't after a position, of several at one position the last. The
// package takes the first of those that are exactly there, unless it is asked for the least upper bound: that
// is the last of these, but where none is exactly there a mapping after the position.
function found(map, line, column) {
  const segment = traceSegment(map, line, column);
  if (segment === null) return null;
  const bias = segment[0] === column ? LEAST_UPPER_BOUND : GREATEST_LOWER_BOUND;
  const original = originalPositionFor(map, { line: line + 1, column, bias });
  return original.source === null ? null : original;
}

// Where a position leads, one lookup after another.
function followed(maps, url, line, column) {
  let source = url, name = null, isIgnored = false;
  for (let asked = maps.get(url); asked; asked = maps.get(source)) {
    const original = found(asked.map, line, column);
    if (original === null) return 'none';
    source = asked.urls.get(original.source);
    [line, column] = [original.line - 1, original.column];
    name = original.name ?? name;
    isIgnored ||= asked.ignored.has(original.source);
  }
  const named = name === null ? '' : ' ' + JSON.stringify(name);
  return `${source}:${line + 1}:${column + 1}${named}${isIgnored ? ' ignored' : ''}`;
}

const { text, maps } = JSON.parse(fs.readFileSync(0, 'utf8'));
const every = new Map(maps.map(opened));
const lines = fs.readFileSync(text, 'utf8').split('\n');
for (const [line, { length }] of lines.entries()) {
  const ways = Array.from({ length: length + 1 }, (_, column) => followed(every, maps[0][0], line, column));
  process.stdout.write(ways.join('\n') + '\n');
}
