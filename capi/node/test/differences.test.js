'use strict';
// What README.md lists as told otherwise than by the packages that the layers stand for: each row about
// sources, here and there.
const assert = require('node:assert');
const { test } = require('node:test');
const { peer, needs } = require('./peers.js');

const tell = {
  'trace-mapping': ({ TraceMap }, map, url) => new TraceMap(map, url).resolvedSources[0],
  'source-map': ({ SourceMapConsumer }, map, url) => new SourceMapConsumer(map, url).sources[0],
};
const ours = { 'trace-mapping': require('smap/trace-mapping'), 'source-map': require('smap/source-map') };
const theirs = { 'trace-mapping': peer('@jridgewell/trace-mapping'), 'source-map': peer('source-map') };

const URL_OF_MAP = 'http://h/x/y.map';
const THROWS = Symbol('throws');

// The source and its root, the map's URL, what is told here, and by trace-mapping and source-map.
const ROWS = [
  [null, undefined, undefined, [null, null], ['', 'null']],
  [null, 'http://r/', undefined, [null, null], ['http://r/', 'http://r/null']],
  ['/b.js', 'src', undefined, ['src//b.js', 'src//b.js'], ['/b.js', 'src/b.js']],
  ['http://h/c.js', 'src', undefined, ['src/http://h/c.js', 'src/http://h/c.js'],
    ['http://h/c.js', 'src/http:/h/c.js']],
  ['a b.js', undefined, URL_OF_MAP, ['http://h/x/a%20b.js', 'http://h/x/a%20b.js'],
    ['http://h/x/a b.js', 'http://h/x/a b.js']],
  ['ü<.js', undefined, URL_OF_MAP, ['http://h/x/%C3%BC%3C.js', 'http://h/x/%C3%BC%3C.js'],
    ['http://h/x/ü<.js', 'http://h/x/ü<.js']],
  ['a\\b.js', undefined, URL_OF_MAP, ['http://h/x/a/b.js', 'http://h/x/a/b.js'],
    ['http://h/x/a\\b.js', 'http://h/x/a\\b.js']],
  ['C:/a.js', undefined, URL_OF_MAP, ['C:/a.js', 'C:/a.js'], ['http://h/x/C:/a.js', 'http://h/x/C:/a.js']],
  ['file:////a', undefined, undefined, ['file:////a', 'file:////a'], ['file:///a', 'file:///a']],
  ['a//b.js', undefined, undefined, ['a//b.js', 'a//b.js'], ['a/b.js', 'a/b.js']],
  ['', undefined, URL_OF_MAP, [URL_OF_MAP, URL_OF_MAP], ['http://h/x/', 'http://h/x']],
  ['.', undefined, undefined, ['./', ''], ['.', '.']],
  ['..', undefined, undefined, ['../', '../'], ['..', '..']],
  ['http://o', undefined, undefined, ['http://o', 'http://o'], ['http://o/', 'http://o']],
  ['a.js', undefined, 'out/y.map', ['out/a.js', 'a.js'], ['out/a.js', THROWS]],
];

Object.keys(tell).forEach((name, k) => {
  for (const [source, sourceRoot, url, here, there] of ROWS) {
    const map = { version: 3, sourceRoot, sources: [source], names: [], mappings: 'AAAA' };
    const title = `${JSON.stringify(source)} below ${sourceRoot} in a map at ${url}`;
    test(`${name} tells ${title} as README.md says`, needs(name, theirs[name]), () => {
      assert.equal(tell[name](ours[name], map, url), here[k]);
      if (there[k] === THROWS) assert.throws(() => tell[name](theirs[name], map, url));
      else assert.equal(tell[name](theirs[name], map, url), there[k]);
    });
  }
});

// Below a path, or nothing, sources are told in the spelling of the text.
const compared = needs('@jridgewell/trace-mapping', theirs['trace-mapping']);
test('characters that a URL lacks are told as by trace-mapping', compared, () => {
  const sources = ['a b.js', 'ü.js', '<stdin>', 'a|b', 'a\\b.js', 'a?x', 'a#x', '%41.js'];
  for (const url of [undefined, 'out/y.map', './out/y.map', '/abs/my out/y.map', '../y.map']) {
    for (const sourceRoot of [undefined, '', 'my src', './src/', '../src', '/my root']) {
      const bare = sourceRoot ? [] : ['//h/x y.js'];
      const map = { version: 3, sourceRoot, sources: [...sources, ...bare], names: [], mappings: 'AAAA' };
      const both = [ours, theirs].map(all => new all['trace-mapping'].TraceMap(map, url));
      const [has, wants] = both.map(map => map.resolvedSources);
      assert.deepEqual(has, wants, `below ${sourceRoot} in a map at ${url}`);
    }
  }
});
