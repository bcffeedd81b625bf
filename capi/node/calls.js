'use strict';
// What native.js has, over WebAssembly: the calls of the addon, by the functions of wasm/glue.c. `x` is what
// smap.wasm exports, and `host` what host.js has.

// Where glue.c puts its answers, in bytes from the first one.
const AT = 32, LEN = 40, COUNTS = 48, NUMBER = 88, SECTION = 96, DEPTH = 160, HAS_PLACE = 164, LINE = 168,
  SEGMENT = 172, KIND_LEN = 176, TEXT_LEN = 180, YES = 184, KIND = 192, TEXT = 224, ALL = 488;
const FOUND = 8;
const OK = 0, REFUSED = 1, MEMORY = 4, CLOSED = 5, NONE = 6, RANGE = 7;
const HANDLE = 64; // bytes, more than a handle of the library takes
const ROWS = 16384; // of a table, at a time
const TEXTS = ['FILE', 'SOURCE_URL', 'SOURCE_CONTENT', 'WRITTEN_SOURCE', 'WRITTEN_ROOT', 'LISTED_NAME'];
// The functions of the module that change nothing, without js_.
const ASKING = ['out', 'code', 'held', 'same', 'count', 'lookup', 'listed_at', 'flags', 'table',
  'is_ignored'];
const WRITTEN = ['canonical', 'canonicalRelative', 'canonicalMappings', 'flatten'];

// What index.js gets for a map, for scripts, and for a builder.
class Handle {
  constructor(at, held) {
    this.at = at;
    this.held = held;
  }
}
class MapHandle extends Handle {}
class ScriptsHandle extends Handle {
  isClosed = false;
}
class BuilderHandle extends Handle {}

const coded = (error, code) => Object.assign(error, { code });

function number(given) {
  if (typeof given === 'number') return given;
  throw new TypeError('A number was expected');
}

function flag(given) {
  if (typeof given === 'boolean') return given;
  throw new TypeError('A boolean was expected');
}

function textIn(given) {
  if (typeof given === 'string' || given instanceof Uint8Array) return given;
  throw new TypeError('A string was expected');
}

function words(given) {
  if (given instanceof Uint32Array || given instanceof Int32Array) return given;
  throw new TypeError('not an array of numbers of 32 bits');
}

function handleOf(given, kind, none) {
  if (given instanceof kind) return given;
  throw new TypeError(none);
}

const mapOf = given => handleOf(given, MapHandle, 'not a source map').at;
const scriptsOf = given => handleOf(given, ScriptsHandle, 'not scripts');
const builderOf = given => handleOf(given, BuilderHandle, 'not a builder').at;

/** The calls, over one copy of the module and its memory. */
function callsOf(x, host) {
  let SmapError, makeBytes;
  const found = new Uint32Array(FOUND);
  const native = { isWasm: true };

  // ---- calls that don't return, as where JavaScript's stack, on which they run, has no room left

  // The stack of the module itself is taken back. Calls that change nothing may be made again then; after any
  // other, what it changed may be half done.
  const stack = x.__stack_pointer.value;
  let isBroken = false;

  const checkState = () => {
    if (isBroken) throw coded(new Error('an earlier call of the library did not return'), 'SMAP_INTERNAL');
  };
  const asking = call => (a, b, c, d, e) => {
    checkState();
    try {
      return call(a, b, c, d, e);
    } catch (error) {
      x.__stack_pointer.value = stack;
      throw error;
    }
  };
  const changing = call => (a, b, c, d, e, f, g, h) => {
    checkState();
    isBroken = true;
    try {
      const answer = call(a, b, c, d, e, f, g, h);
      isBroken = false;
      return answer;
    } finally {
      if (isBroken) x.__stack_pointer.value = stack;
    }
  };
  const call = {};
  for (const [name, it] of Object.entries(x)) {
    if (!name.startsWith('js_')) continue;
    const short = name.slice(3);
    call[short] = ASKING.includes(short) ? asking(it) : changing(it);
  }

  // ---- the memory: views of it end when it grows

  const at = call.out();
  let numbers = new Uint32Array(0), answers;

  function fresh() {
    if (numbers.length) return;
    numbers = new Uint32Array(x.memory.buffer, at, FOUND);
    answers = new DataView(x.memory.buffer, at, ALL);
  }

  function u32(field) {
    fresh();
    return answers.getUint32(field, true);
  }

  function f64(field) {
    fresh();
    return answers.getFloat64(field, true);
  }

  function putFound() {
    fresh();
    for (let i = 0; i < FOUND; i++) found[i] = numbers[i];
    return true;
  }

  const block = n => call.new(n) || fail(MEMORY);

  // ---- texts

  function string(from, length) {
    try {
      return host.textAt(x.memory.buffer, from, length);
    } catch (error) {
      throw coded(new RangeError('longer than a string can be', { cause: error }), 'SMAP_TOO_LONG');
    }
  }

  function bytes(from, length) {
    const to = makeBytes(length);
    if (to.length !== length) throw coded(new Error('a Buffer of another length'), 'SMAP_INTERNAL');
    to.set(new Uint8Array(x.memory.buffer, from, length));
    return to;
  }

  // Runs a call with texts, each of which lies in the memory meanwhile.
  function withTexts(texts, run) {
    const held = [];
    try {
      for (const text of texts.map(textIn)) {
        const length = typeof text === 'string' ? host.byteLength(text) : text.length;
        const to = block(length + 1);
        held.push(to, length);
        if (typeof text === 'string') host.write(text, x.memory.buffer, to, length);
        else new Uint8Array(x.memory.buffer, to, length).set(text);
      }
      return run(...held);
    } finally {
      for (let i = 0; i < held.length && !isBroken; i += 2) call.free(held[i]);
    }
  }

  // The same with numbers of mappings. Gives the index of the first mapping that is wrong, if one is.
  function withMappings(numbers, run) {
    const n = words(numbers).length, room = block(4 * n + 4);
    let code;
    try {
      new Uint32Array(x.memory.buffer, room, n).set(numbers);
      code = run(room, Math.floor(n / 6));
    } finally {
      if (!isBroken) call.free(room);
    }
    if (code === RANGE) return f64(COUNTS);
    check(code);
  }

  // ---- answers

  function fail(code) {
    if (code === REFUSED) {
      const words = ['SMAP_REFUSED', string(at + TEXT, u32(TEXT_LEN))];
      words.push(u32(KIND_LEN) ? string(at + KIND, u32(KIND_LEN)) : null);
      words.push(...(u32(HAS_PLACE) ? [u32(LINE), u32(SEGMENT)] : [null, null]), f64(NUMBER));
      throw new SmapError(...words, Array.from({ length: u32(DEPTH) }, (_, i) => f64(SECTION + 8 * i)));
    }
    call.code(code);
    throw new SmapError(string(at + KIND, u32(KIND_LEN)), string(at + TEXT, u32(TEXT_LEN)));
  }

  function check(code) {
    if (code !== OK) fail(code);
  }

  // Whether there is something.
  function isThere(code) {
    if (code === OK) return true;
    return code === NONE ? false : fail(code);
  }

  function told(make) {
    try {
      return make(f64(AT), f64(LEN));
    } finally {
      call.done();
    }
  }
  const toldBytes = code => (isThere(code) ? told(bytes) : null);
  const counted = n => Array.from({ length: n }, (_, i) => f64(COUNTS + 8 * i));

  // ---- handles

  const forgotten = new FinalizationRegistry(({ box, close }) => {
    if (isBroken) return;
    close(box);
    call.free(box);
  });

  function out(handle, close) {
    forgotten.register(handle, { box: handle.at, close });
    return handle;
  }

  const mapOut = box => out(new MapHandle(box, call.held(box)), call.close);
  const builderOut = box => out(new BuilderHandle(box, 0), call.builder_close);

  // ---- maps

  native.start = (error, make) => {
    if (SmapError) throw coded(new Error('started twice'), 'SMAP_INTERNAL');
    SmapError = error;
    makeBytes = make;
    return found;
  };

  // Up to which byte of the memory more is taken, for tests.
  native.limit = bytes => call.limit(number(bytes));

  native.version = () => {
    const n = call.version();
    return [n / 10000, (n / 100) % 100, n % 100].map(Math.floor).join('.');
  };

  native.open = (text, url, items, lines, urlBytes, word) => {
    const most = urlBytes === undefined ? -1 : Math.trunc(number(urlBytes)) || 0;
    const limits = [number(items), number(lines), most];
    const map = made(box => withTexts([text, url], (...held) => call.open(box, ...held, ...limits)));
    const isKnown = typeof text === 'string' && typeof word === 'string' && !text.includes('\0');
    if (word !== undefined) found[0] = !isKnown || text.includes(word) ? 1 : 0;
    return map;
  };

  // The map, or the builder, that a call makes.
  function made(run, handed = mapOut) {
    const box = block(HANDLE);
    let isOpen = false;
    try {
      check(run(box));
      isOpen = true;
    } finally {
      if (!isOpen && !isBroken) call.free(box);
    }
    return handed(box);
  }

  const madeOf = (it, boxOf = mapOf) => given => {
    const from = boxOf(given);
    return made(box => it(from, box));
  };

  native.thin = madeOf(call.thin);
  native.onlyUsed = madeOf(call.only_used);

  native.compose = (map, maps, leads, items) => {
    const outer = mapOf(map), inner = maps.map(mapOf), most = number(items), n = inner.length;
    const room = block(8 * n + 4 * words(leads).length + 8), last = room + 8 * n;
    try {
      new BigUint64Array(x.memory.buffer, room, n).set(inner.map(BigInt));
      new Uint32Array(x.memory.buffer, last, leads.length).set(leads);
      return made(box => call.compose(outer, room, n, last, leads.length, most, box));
    } finally {
      if (!isBroken) call.free(room);
    }
  };

  // There is no other thread that could read it.
  native.openLater = async (...given) => native.open(...given.slice(0, 5));

  native.close = map => {
    call.close(mapOf(map));
    map.held = 0;
  };

  native.held = map => {
    mapOf(map);
    return map.held;
  };

  native.same = (one, other) => {
    check(call.same(mapOf(one), mapOf(other)));
    return u32(YES) !== 0;
  };

  // Maps that wait to be taken, in this thread: no other has this memory.
  const shared = new Map();
  let lastShared = 0;

  native.share = map => {
    const from = mapOf(map);
    shared.set(++lastShared, made(box => call.share(from, box), box => box));
    return lastShared;
  };

  native.take = n => {
    const box = shared.get(number(n)) ?? fail(CLOSED);
    shared.delete(n);
    return mapOut(box);
  };

  native.lookup = (map, line, column) =>
    isThere(call.lookup(mapOf(map), number(line), number(column))) && putFound();

  native.listedAt = (map, line, column) =>
    isThere(call.listed_at(mapOf(map), number(line), number(column))) && putFound();

  native.count = map => {
    check(call.count(mapOf(map)));
    const [sources, listedSources, names, mappings, lines] = counted(5);
    return { sources, listedSources, names, mappings, lines };
  };

  native.isIgnored = (map, source) => {
    check(call.is_ignored(mapOf(map), number(source)));
    return u32(YES) !== 0;
  };

  TEXTS.forEach((name, i) => { native[name] = i; });

  native.text = (map, which, i) => {
    const box = mapOf(map);
    if (!(number(which) >>> 0 < TEXTS.length)) throw new TypeError('no text of a map');
    return isThere(call.text(box, which, number(i))) ? told(string) : null;
  };

  native.texts = (map, which, count) => {
    const all = new Array(number(count) >>> 0);
    for (let i = 0; i < all.length; i++) all[i] = native.text(map, which, i);
    return all;
  };

  // Has parts of an array of `count` numbers in each of some columns written one after another.
  function fill(to, columns, write) {
    const count = Math.floor(to.length / columns), most = Math.min(count, ROWS);
    const room = block(4 * columns * most);
    try {
      for (let from = 0; from < count; from += most) {
        const n = Math.min(most, count - from);
        check(write(room, from, n));
        for (let k = 0; k < columns; k++) {
          to.set(new Uint32Array(x.memory.buffer, room + 4 * k * n, n), k * count + from);
        }
      }
    } finally {
      if (!isBroken) call.free(room);
    }
  }

  native.flags = (map, which, to) => {
    const box = mapOf(map), kind = number(which);
    fill(words(to), 1, (room, from, n) => call.flags(box, kind, room, from, n));
  };

  native.table = (map, to) => {
    const box = mapOf(map);
    fill(words(to), 6, (room, from, n) => call.table(box, room, from, n));
  };

  WRITTEN.forEach((name, i) => {
    native[name] = (map, asBytes) => {
      const make = flag(asBytes) ? bytes : string;
      check(call.written(mapOf(map), i));
      return told(make);
    };
  });

  native.respell = text => {
    check(withTexts([text], call.respell));
    return told(string);
  };

  // A string, or the index of the first mapping that is wrong.
  native.spell = numbers => withMappings(numbers, call.spell) ?? told(string);

  // ---- maps that are built

  native.builderOpen = (url, items, lines) => {
    const limits = [number(items), number(lines)];
    const open = box => withTexts([url], (...held) => call.builder_open(box, ...held, ...limits));
    return made(open, builderOut);
  };

  native.builderClose = builder => call.builder_close(builderOf(builder));

  // Gives a builder a text, or null: whether it isn't null comes before it.
  function build(it, builder, text, ...more) {
    const box = builderOf(builder), has = text === null ? 0 : 1;
    check(withTexts([has ? text : ''], (...held) => it(box, ...more, has, ...held)));
  }

  native.builderFile = (builder, file) => build(call.builder_file, builder, file);
  native.builderContent = (builder, source, content) =>
    build(call.builder_content, builder, content, number(source));

  native.builderSource = (builder, url) => {
    build(call.builder_source, builder, url);
    return u32(YES);
  };

  native.builderIgnore = (builder, source, isIgnored) =>
    check(call.builder_ignore(builderOf(builder), number(source), flag(isIgnored) ? 1 : 0));

  native.builderName = (builder, name) => {
    const box = builderOf(builder);
    check(withTexts([name], (...held) => call.builder_name(box, ...held)));
    return u32(YES);
  };

  native.builderAdd = (builder, numbers) => {
    const box = builderOf(builder);
    return withMappings(numbers, (...held) => call.builder_add(box, ...held));
  };

  native.builderFinish = madeOf(call.builder_finish, builderOf);

  // ---- traces

  native.scripts = () => out(new ScriptsHandle(block(HANDLE), 0), call.close_scripts);

  native.addScript = (scripts, url, map, gone) => {
    const into = scriptsOf(scripts), from = mapOf(map);
    number(gone);
    if (into.isClosed) fail(CLOSED);
    check(withTexts([url], (to, n) => call.add_script(into.at, to, n, from)));
    return map.held;
  };

  native.closeScripts = scripts => {
    call.close_scripts(scriptsOf(scripts).at);
    scripts.isClosed = true;
  };

  native.translate = (scripts, trace, how, asBytes) => {
    const { at: box } = scriptsOf(scripts), bits = number(how) & 255, make = flag(asBytes) ? bytes : string;
    check(withTexts([trace], (to, n) => call.translate(box, to, n, bits)));
    const counts = counted(3);
    return [told(make), ...counts];
  };

  native.frame = line => (withTexts([line], call.frame) === OK ? counted(4) : null);

  // ---- which map belongs to a script

  native.inlineMap = url => toldBytes(withTexts([url], call.inline_map));
  native.fileUrl = path => toldBytes(withTexts([path], call.file_url));
  native.filePath = url => toldBytes(withTexts([url], call.file_path));
  native.resolveLink = (script, link) => toldBytes(withTexts([script, link], call.resolve_link));
  native.scriptUrl = (folder, name) => toldBytes(withTexts([folder, name], call.script_url));
  native.scriptName = (folder, url) => toldBytes(withTexts([folder, url], call.script_name));

  native.normalForm = (name, query) => {
    const withQuery = flag(query) ? 1 : 0;
    return toldBytes(withTexts([name], (to, n) => call.normal_form(to, n, withQuery)));
  };

  native.scriptLink = (text, css) => {
    const isCss = flag(css) ? 1 : 0;
    return toldBytes(withTexts([text], (to, n) => call.script_link(to, n, isCss)));
  };

  native.scriptMap = (folder, name, text, tried) => {
    const many = number(tried);
    const code = withTexts([folder, name, text], (...held) => call.script_map(...held, many));
    const kind = u32(YES);
    return [kind, toldBytes(code)];
  };

  native.areAlike = (one, other) => {
    check(withTexts([one, other], call.are_alike));
    return u32(YES) !== 0;
  };

  return native;
}

module.exports = { callsOf };
