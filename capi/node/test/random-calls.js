'use strict';
// The calls of one seed, for random.js.
const assert = require('node:assert');
const { Worker } = require('node:worker_threads');
const {
  SourceMap, Builder, Scripts, SmapError, translate, frame, respell, spell,
  scriptLink, resolveLink, inlineMap, fileUrl, filePath, scriptUrl, scriptName, normalForm, areAlike,
} = require('smap');
const tracing = require('smap/trace-mapping');
const making = require('smap/gen-mapping');
const { SourceMapConsumer, SourceMapGenerator } = require('smap/source-map');
const { isWellFormed } = require('../halves.js');
const native = require('../native.js');
const { makeMap, numbers } = require('./many-maps.js');

const CALLS = 150;
const SLOW = 15;          // seconds of the processor, which no call may take
const LARGE = 3e9;        // bytes, which the process may not come to
const INDEX = require.resolve('smap');
const HEAVY = JSON.stringify({ version: 3, sources: ['a'], mappings: 'AAAA' + ',CAAC'.repeat(100000) });

const collect = global.gc ?? (() => {});
const turn = () => new Promise(setImmediate);

// ---- what is passed

const PIECES = ['\ud800', '\udc00', '\u00e9', '\u{1f600}', 'a', '/', ':1:1', ' (', '../', '?', ';', ',', 'A',
  'g', '"', '\n', '    at f (', '\0', '%1b'];
const VALUES = [undefined, null, true, 0, -1, 1, 7, 2 ** 31, 2 ** 32, 2 ** 53, 1e999, NaN, 0.5, '', 'a.js',
  1n, Symbol('x'), {}, [], { length: 1e7 }, () => 0];
const IN_SCRIPTS = ['//# sourceMappingURL=', '/*# sourceMappingURL=', '//', '/*', '*/', '\n', '\r', '\u2028',
  ' ', '\u00a0', ';', 'a.map', '/', '\ud800', '\u{1f600}'];
const BEGINNINGS = ['/', '/a b/', 'C:\\', 'c:/', 'file:///', 'file:///C:/', 'file://h/', 'http://h/',
  'HTTP://H:80/', 'http://[', 'webpack:///', 'data:,', 'data:;base64,', '//', ''];
const SEGMENTS = [[0], [3, 0, 1, 2], [4, 0, 1, 2, 0], [1e999], { length: 1e7 }, [-1], [2 ** 53, 0, 0, 0], [],
  [1, 2], null, new Array(4)];

// What one seed has: numbers, and what its calls made.
class Given {
  constructor(seed) {
    this.next = numbers(seed);
    // The first numbers of near seeds are near.
    for (let i = 0; i < 5; i++) this.next(2);
    this.maps = [];
    this.scripts = [];
    this.later = [];
    this.awaited = new Set();
    this.taken = [];
  }

  one(list) {
    return list[this.next(list.length)];
  }

  // Mostly short, and now and then long.
  length() {
    return this.next(12) ? this.next(40) : this.next(12) ? this.next(5000) : this.next(200000);
  }

  string() {
    const piece = this.one(PIECES);
    const text = piece.repeat(Math.ceil(this.length() / piece.length));
    return this.next(3) ? text : text + this.one(['x', '\udfff', ':1:2', ')']);
  }

  url() {
    const url = this.one(['http://h/m/out.js.map', 'file:///a/b.map', 'http://h/', 'no url', '']);
    return this.next(3) ? url : url + this.string();
  }

  name() {
    return this.one(BEGINNINGS) + (this.next(3) ? this.string() : this.one(['a b', '%2f', '%ff', '%25', '..']));
  }

  script() {
    const piece = () => (this.next(4) ? this.one(IN_SCRIPTS) : this.one(IN_SCRIPTS).repeat(this.length()));
    return Array.from({ length: this.next(9) }, piece).join('');
  }

  map() {
    if (this.next(8) === 0) return this.one([{}, [], null, 3, '', '{', undefined, { version: 3 }]);
    const map = makeMap(this.next(1000));
    const { next } = this;
    if (next(4) === 0) map[this.one(['file', 'names', 'sources', 'mappings', 'version'])] = this.value();
    if (next(6) === 0) map.sources = Array.from({ length: 3 }, () => this.string());
    if (next(6) === 0) map.sourcesContent = [this.string()];
    if (next(6) === 0) map.mappings += ';'.repeat(this.length()) + 'AAAA' + ',CAAC'.repeat(this.length());
    if (next(5)) return map;
    const line = this.one([0, 1, 1000, 16777214, 2 ** 32]);
    return { version: 3, sections: [{ offset: { line, column: next(3) }, map }] };
  }

  // A map as text, its bytes or an object.
  mapIn() {
    const map = this.map();
    if (this.next(4) === 0) return map;
    const text = typeof map === 'string' ? map : String(JSON.stringify(map));
    return this.next(2) ? this.bytes(text) : this.broken(text);
  }

  broken(text) {
    if (this.next(4)) return text;
    const i = this.next(text.length + 1);
    return text.slice(0, i) + this.one(['', '"', '\ud800', '\0', '}', 'x']) + text.slice(i + this.next(2));
  }

  // Bytes that may change after the call: see `spoil`.
  bytes(text) {
    const plain = Buffer.from(text);
    const made = this.next(6);
    let given = plain;
    if (made === 1) given = Uint8Array.from(plain);
    if (made === 2) given = Uint8Array.from(plain).buffer;
    if (made === 3) given = new Uint8Array(new SharedArrayBuffer(plain.length));
    if (made === 3) given.set(plain);
    if (made === 4) given = Buffer.concat([Buffer.from('xx'), plain, Buffer.from('x')]).subarray(2, -1);
    if (made === 5) given = resizable(plain);
    this.taken.push(given);
    return given;
  }

  value() {
    return this.one([...VALUES, this.string(), Buffer.alloc(3), new Int32Array(6)]);
  }

  // Mostly a small whole number.
  number() {
    return this.next(4) ? this.next(20) : this.value();
  }

  decoded() {
    const segment = () => this.one(SEGMENTS);
    const line = () => (this.next(5) ? Array.from({ length: this.next(5) }, segment) : this.value());
    return Array.from({ length: this.next(4) }, line);
  }

  log() {
    if (this.next(3) === 0) return this.string();
    const url = () => this.one(['http://h/m/out.js', 'a', this.url()]);
    const line = () => `    at f (${url()}:${this.next(9)}:${this.next(99)})${this.next(5) ? '' : '\ud800'}`;
    return Array.from({ length: this.next(30) }, line).join('\n');
  }
}

function resizable(plain) {
  const buffer = new ArrayBuffer(plain.length, { maxByteLength: 2 * plain.length });
  const view = new Uint8Array(buffer);
  view.set(plain);
  return view;
}

// ---- what is called

const options = given => ({ limits: { items: given.number(), lines: given.number() } });
const usual = given => (given.next(4) ? undefined : options(given));

function keep(given, map) {
  given.maps.push(map);
  if (given.maps.length > 12) given.maps.splice(given.next(12), 1);
}

const outcome = call => {
  try {
    return call();
  } catch (error) {
    return error;
  }
};
const told = found =>
  (found instanceof SourceMap ? found.canonical() : `${found.name} ${found.code} ${found.kind}`);

// Opens a map now, and on a thread of the pool once what is returned is called: the two have to come to the
// same.
function toOpen(given, text, url, words) {
  const wants = told(outcome(() => new SourceMap(text, url, words)));
  return () => {
    const settled = SourceMap.open(text, url, words).then(map => map, error => error).then(found => {
      allowed(found);
      assert.equal(told(found), wants);
    });
    given.later.push(settled);
  };
}

const MAP_CALLS = {
  lookup: (given, map) => map.lookup(given.number(), given.number()),
  lookupAgain(given, map) {
    const [line, column] = [given.next(5), given.next(20)];
    const i = map.table().find(line, column);
    assert.equal(map.lookup(line, column)?.index ?? -1, i);
  },
  lists: (given, map) => [map.counts, map.file, map.sources, map.names, map.listedSources],
  written: (given, map) => map.writtenSources,
  content: (given, map) => [map.content(given.number()), map.isIgnored(given.number())],
  iterate: (given, map) => map.forEach(() => (given.next(500) ? 0 : map.close())),
  canonical: (given, map) => map.canonical({ relative: given.next(2) === 0, buffer: given.next(2) === 0 }),
  flatten: (given, map) => map.flatten({ buffer: given.next(2) === 0 }),
  mappings: (given, map) => assert.equal(respell(map.canonicalMappings()), map.canonicalMappings()),
  same: (given, map) => map.same(given.one(given.maps)),
  share: (given, map) => keep(given, SourceMap.take(map.share())),
  translate: (given, map) => map.translate(given.log(), given.url(), ways(given)),
  close: (given, map) => map.close(),
};

const ways = given => ({
  hideIgnored: given.next(2) === 0, anywhere: given.next(2) === 0, ignoreQuery: given.next(2) === 0,
  names: given.next(2) === 0,
});

// What holds of any name, or of any text.
const LINK_CALLS = {
  script(given) {
    const text = given.script();
    scriptLink(given.next(2) ? text : given.bytes(text), { css: given.next(2) === 0, buffer: true });
    assert.equal(scriptLink(`${text}\n//# sourceMappingURL=x`), 'x');
    assert.equal(scriptLink(`${text}\n;`), null);
  },
  path(given) {
    const path = given.name();
    const url = fileUrl(path);
    if (url === null) return;
    assert.ok(areAlike(path, url));
    // Below `/C:/` a path is one of Windows, and a NUL is in none.
    if (/^\/(?![A-Za-z]:[\\/])/.test(path) && !path.includes('\0')) assert.equal(filePath(url), path);
  },
  below(given) {
    const [folder, name] = [given.name(), given.string()];
    const found = scriptName(folder, scriptUrl(folder, name, { buffer: true }), { buffer: true });
    assert.ok(found === null || !isWellFormed(name) || found.toString() === name);
  },
  alike(given) {
    const names = [given.name(), given.name()];
    const [one, other] = names.map(name => normalForm(name, { buffer: true }));
    assert.equal(areAlike(...names), one.equals(other));
  },
  inline(given) {
    const text = given.string();
    const base64 = Buffer.from(text).toString('base64');
    assert.ok(inlineMap(`data:;base64,${base64}`).equals(Buffer.from(text)));
    if (isWellFormed(text)) assert.equal(inlineMap(`data:,${encodeURIComponent(text)}`).toString(), text);
  },
  any(given) {
    const calls = [scriptLink, resolveLink, inlineMap, fileUrl, filePath, scriptUrl, scriptName, normalForm,
      areAlike];
    const word = () => given.one([given.value(), given.name(), given.bytes(given.name())]);
    given.one(calls)(word(), word());
  },
};

const aMap = () => native.open('{"version":3,"mappings":"A"}', 'http://h/', 0, 0);
const aBuilder = () => native.builderOpen('http://h/', 0, 0);

const BUILDER_CALLS = {
  file: (given, builder) => builder.setFile(given.one([null, given.string(), given.value()])),
  source: (given, builder) => builder.source(given.one([null, given.name(), given.value()]),
    { content: given.value(), ignored: given.value() }),
  name: (given, builder) => builder.name(given.one([given.string(), given.value()])),
  add: (given, builder) => builder.add(...Array.from({ length: 2 + given.next(5) }, () => given.number())),
  addAll(given, builder) {
    const all = Array.from({ length: 6 * given.next(4) }, () => (given.next(30) ? 0 : given.number()));
    builder.addAll(given.next(2) ? all : Uint32Array.from(all, n => Number.isInteger(n) ? n : 0));
  },
};

const CALLS_OF = {
  open: given => keep(given, new SourceMap(given.mapIn(), given.url(), usual(given))),
  openLater: given => toOpen(given, given.mapIn(), given.url(), usual(given))(),
  // More maps than the pool has threads, so that what comes after them waits; and what nothing keeps is freed
  // meanwhile. A string of some length has memory for itself.
  openMany(given) {
    const url = () => 'http://h/' + given.one(['a', '\u00e9', '\ud800']).repeat(given.one([1, 2000, 20000]));
    const calls = Array.from({ length: 4 }, () => toOpen(given, given.mapIn(), url()));
    for (let i = 0; i < 6; i++) given.later.push(SourceMap.open(HEAVY, 'http://h/'));
    for (const call of calls) call();
    for (let i = 0; i < 3; i++) collect();
    spoil(given);
  },
  take(given) {
    const number = given.number();
    // one that another thread waits for is left to it
    if (!given.awaited.has(number)) keep(given, SourceMap.take(number));
  },
  map(given) {
    const map = given.one(given.maps);
    if (map) MAP_CALLS[given.one(Object.keys(MAP_CALLS))](given, map);
  },
  scripts(given) {
    if (given.scripts.length < 3) given.scripts.push(new Scripts());
    const scripts = given.one(given.scripts);
    const map = given.one(given.maps);
    if (map) scripts.add(given.url(), map);
    const log = given.next(2) ? given.log() : given.bytes(given.log());
    const counts = scripts.translateAndCount(log, ways(given));
    assert.ok(counts.translated <= counts.lines);
    if (given.next(8) === 0) scripts.close();
  },
  // Without scripts everything stays.
  stays(given) {
    const log = given.next(2) ? given.log() : given.string();
    assert.ok(translate(log) === log);
  },
  frame: given => frame(given.next(2) ? given.log() : given.string()),
  links: given => LINK_CALLS[given.one(Object.keys(LINK_CALLS))](given),
  respell: given => respell(given.next(2) ? given.string() : given.bytes(given.string())),
  spell(given) {
    const number = () => (given.next(40) ? given.next(9) : 2 ** 32 - 1 - given.next(3));
    const text = spell(Uint32Array.from({ length: 6 * given.next(9) }, number));
    assert.equal(respell(text), text);
  },
  building(given) {
    const builder = new Builder(given.next(4) ? 'http://h/m' : given.url(), usual(given));
    for (let i = given.next(60); i > 0; i--) {
      allowed(outcome(() => BUILDER_CALLS[given.one(Object.keys(BUILDER_CALLS))](given, builder)));
    }
    keep(given, builder.finish());
  },
  tracing(given) {
    const map = given.map();
    if (map && given.next(2)) map.mappings = given.decoded();
    const traced = new tracing.TraceMap(given.next(2) ? map : JSON.stringify(map), given.url());
    const needle = () =>
      ({ line: given.number(), column: given.number(), source: 'a.js', bias: given.one([1, -1]) });
    for (let i = 0; i < 3; i++) {
      tracing.traceSegment(traced, given.next(5), given.next(9));
      tracing.originalPositionFor(traced, needle());
      tracing.allGeneratedPositionsFor(traced, needle());
    }
    tracing.decodedMap(traced);
    tracing.encodedMap(traced);
  },
  consumer(given) {
    const consumer = new SourceMapConsumer(given.map(), given.next(2) ? given.url() : undefined);
    consumer.eachMapping(() => 0, null, given.one([1, 2]));
    consumer.computeColumnSpans();
    consumer.originalPositionFor({ line: given.number(), column: given.number() });
    consumer.sourceContentFor(given.string(), true);
    consumer.destroy();
  },
  making(given) {
    const map = new making.GenMapping(), generator = new SourceMapGenerator();
    const at = () => ({ line: 1 + given.next(3), column: given.next(9) });
    for (let i = given.next(20); i > 0; i--) {
      const mapping = { generated: at(), original: at(), source: given.one(PIECES), name: given.one(VALUES) };
      given.one([making.addMapping, making.maybeAddMapping])(map, mapping);
      generator.addMapping(mapping);
    }
    const made = [making.toEncodedMap(map), generator.toJSON()];
    for (const { mappings } of made) assert.equal(respell(mappings), mappings);
    making.addSegment(map, given.number(), given.number(), given.value(), given.number(), given.number());
    making.toDecodedMap(making.fromMap(given.one(made)));
  },
  native(given) {
    // a number that is taken at random may be one that another thread waits for
    const { start, take, ...calls } = native;
    const word = () => (given.next(3) ? given.value() : given.one([native.scripts, aMap, aBuilder])());
    const promise = calls[given.one(Object.keys(calls))](...Array.from({ length: given.next(6) }, word));
    if (promise?.then) given.later.push(promise.catch(allowedOfNative));
  },
  worker(given) {
    if (given.next(10)) return;
    const code = `const { SourceMap } = require(${JSON.stringify(INDEX)});
      const { workerData: [text, url] } = require('node:worker_threads');
      const open = () => SourceMap.open(text, url).then(() => 0, () => 0);
      for (let i = 0; i < 9; i++) open();
      setInterval(open, 1);`;
    const worker = new Worker(code, { eval: true, workerData: [HEAVY, 'http://h/' + given.string()] });
    given.later.push(new Promise(done => setTimeout(done, given.next(80))).then(() => worker.terminate()));
  },
  // Another thread calls the maps of this one, which goes on with them. WebAssembly's memory is of one thread.
  shared(given) {
    if (native.isWasm || given.next(10)) return;
    const numbers = given.maps.map(map => outcome(() => map.share())).filter(Number.isInteger);
    for (const number of numbers) given.awaited.add(number);
    const code = `const { workerData } = require('node:worker_threads');
      require(${JSON.stringify(__filename)}).callShared(...workerData);`;
    const worker = new Worker(code, { eval: true, workerData: [given.next(2 ** 31), numbers] });
    if (given.next(3) === 0) setTimeout(() => worker.terminate(), given.next(80));
    given.later.push(new Promise((done, failed) => worker.on('error', failed).on('exit', done)));
  },
  spoil,
  collect,
};

// What was passed is written, shrinks, or goes to another thread.
function spoil(given) {
  for (const one of given.taken.splice(0)) {
    const buffer = one.buffer ?? one;
    if (given.next(2)) new Uint8Array(buffer, one.byteOffset ?? 0, one.byteLength).fill(given.next(256));
    else if (buffer.resizable) buffer.resize(given.next(buffer.maxByteLength + 1));
    else if (!(one instanceof Buffer) && !(buffer instanceof SharedArrayBuffer)) {
      structuredClone(buffer, { transfer: [buffer] });
    }
  }
}

// ---- what they may answer

const KINDS = [TypeError, RangeError, SmapError, SyntaxError];
// What the layers throw in words of the packages that they stand for.
const WORDS = /must be greater than|is a required argument|^Line must|^Column must|is not in the SourceMap/;

function allowed(answer) {
  if (!(answer instanceof Error)) return;
  const isTold = KINDS.some(kind => answer instanceof kind) || WORDS.test(answer.message);
  if (!isTold || answer instanceof assert.AssertionError) throw answer;
}

// What is no handle, text or number at all.
const allowedOfNative = answer => answer?.code === 'SMAP_INTERNAL' || allowed(answer);

function measured(name, call) {
  const before = process.cpuUsage();
  const answer = outcome(call);
  const { user, system } = process.cpuUsage(before);
  (name === 'native' ? allowedOfNative : allowed)(answer);
  assert.ok((user + system) / 1e6 < SLOW, `${name} took ${(user + system) / 1e6} s`);
  assert.ok(process.memoryUsage.rss() < LARGE, `${name}: ${process.memoryUsage.rss() / 1e6} MB`);
}

/** Makes the calls of a seed, and tells the name of each. */
async function round(seed, tell) {
  const given = new Given(seed);
  const names = Object.keys(CALLS_OF);
  for (let i = 0; i < CALLS; i++) {
    const name = given.one(names);
    tell(name);
    measured(name, () => CALLS_OF[name](given));
    if (given.next(20) === 0) await turn();
  }
  await Promise.all(given.later);
  return CALLS;
}

/** Makes calls of maps that another thread shares under these numbers. */
function callShared(seed, numbers) {
  const given = new Given(seed);
  given.maps = numbers.map(number => SourceMap.take(number));
  for (let i = 0; i < CALLS; i++) measured('map', () => CALLS_OF.map(given));
}

module.exports = { round, callShared };
