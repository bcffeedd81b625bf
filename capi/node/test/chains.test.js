'use strict';
// Maps are composed with those that their sources lead to, as smap/register and smap/support ask for them. In the
// maps here, AAAA is a mapping from column 0 of line 1 to the same place of the first source, AAUE one to column 2
// of line 11; IAAI behind AAAA is one from column 4 to column 4, and IAEA behind AAUE one from column 4 to column 2
// of line 13.
const assert = require('node:assert');
const fs = require('node:fs');
const os = require('node:os');
const path = require('node:path');
const { spawnSync } = require('node:child_process');
const { test } = require('node:test');
const { pathToFileURL } = require('node:url');

const top = fs.realpathSync(fs.mkdtempSync(path.join(os.tmpdir(), 'smap chains ')));
test.after(() => fs.rmSync(top, { recursive: true }));

const mapOf = (sources, mappings, more) => JSON.stringify({ version: 3, sources, mappings, ...more });
const naming = (url, text = 'f();g()') => `${text}\n//# sourceMappingURL=${url}\n`;
const holding = (map, text) => naming(`data:application/json,${encodeURIComponent(map)}`, text);

// The map of app.js, that of a script which was made of app.js, and the same with the text of app.js.
const INNER = mapOf(['app.ts'], 'AAUE,IAEA');
const OUTER = mapOf(['app.js'], 'AAAA,IAAI');
const outer = text => mapOf(['app.js'], 'AAAA,IAAI', { sourcesContent: [text] });

const LAST = ['app.ts:11:2', 'app.ts:13:2'];
const FIRST = ['app.js:1:0', 'app.js:1:4'];
const ENDLESS = 'the sources of app.min.js: they lead on more than 16 deep, or back to a map before';

let count = 0;

// Writes files into a folder of their own, that of a package.
function lay(files) {
  const folder = path.join(top, String(count++));
  for (const [name, text] of Object.entries({ 'package.json': '{"name":"p"}', ...files })) {
    const file = path.join(folder, name);
    fs.mkdirSync(path.dirname(file), { recursive: true });
    fs.writeFileSync(file, text);
  }
  return folder;
}

function run(folder, words, env = {}) {
  const { NODE_OPTIONS, ...own } = process.env;
  const options = { encoding: 'utf8', cwd: folder, env: { ...own, ...env }, timeout: 60_000 };
  return spawnSync(process.execPath, words, options);
}

const ASK = `const { install, mapSourcePosition } = require(process.argv[1]);
const [script, hooks] = process.argv.slice(2);
install(eval(hooks));
const at = column => mapSourcePosition({ source: script, line: 1, column });
console.log(JSON.stringify([0, 4].map(at)));`;

// Where columns 0 and 4 of the first line of a script in a folder come from, and what NODE_DEBUG=smap says.
function asked(folder, { env, script = path.join(folder, 'app.min.js'), hooks = '({})' } = {}) {
  const words = ['--eval', ASK, require.resolve('smap/support'), script, hooks];
  const { stdout, stderr, status } = run(folder, words, { NODE_DEBUG: 'smap', ...env });
  assert.equal(status, 0, stderr);
  const own = text => text.replaceAll(`${folder}${path.sep}`, '');
  return {
    places: JSON.parse(stdout).map(({ source, line, column }) => `${own(source)}:${line}:${column}`),
    said: [...own(stderr).matchAll(/^SMAP \d+: no map for (.*)$/gm)].map(([, text]) => text),
  };
}

// The script, its map, and other files.
const files = (map, more) => ({ 'app.min.js': naming('app.min.js.map'), 'app.min.js.map': map, ...more });
const check = (map, more, places, said = [], how = {}) =>
  assert.deepEqual(asked(lay(files(map, more)), how), { places, said });

test('a source may hold its map', () => {
  check(outer(holding(INNER)), {}, LAST);
});

test('SMAP_CHAINS=0 leaves maps alone', () => {
  check(outer(holding(INNER)), {}, FIRST, [], { env: { SMAP_CHAINS: '0' } });
});

test('a source is looked at by its file, unless the map has its text', () => {
  const inFile = { 'app.js': naming('maps/in.map'), 'maps/in.map': mapOf(['../app.ts'], 'AAUE,IAEA') };
  check(OUTER, inFile, LAST);
  check(OUTER, { 'app.js': holding(INNER) }, LAST);
  check(outer(holding(INNER)), { 'app.js': naming('none.map') }, LAST);
  check(outer('f();g()'), inFile, FIRST);
  // The map next to a source isn't that of one that names none, or another.
  check(OUTER, { 'app.js': 'f();g()', 'app.js.map': INNER }, FIRST);
  check(OUTER, { 'app.js': naming('none.map'), 'app.js.map': INNER }, FIRST, ['app.js: what it names is missing']);
});

test('three levels', () => {
  check(OUTER, {
    'app.js': naming('app.js.map'),
    'app.js.map': mapOf(['es/app.js'], 'AACA,IAAI'),
    'es/app.js': naming('../es.map', "'use strict'\nf();g()"),
    'es.map': mapOf(['app.ts'], ';AAUE,IAEA'),
  }, LAST);
});

test('other sources, and what has no original, stay', () => {
  const sourcesContent = [holding(mapOf(['a'], 'AAAA,I')), ''];
  check(mapOf(['app.js', 'b.js'], 'AAAI,ICAJ', { sourcesContent }), {}, ['app.min.js:1:0', 'b.js:1:0']);
});

test('a map of another text is not followed', () => {
  const past = 'app.js: it is of another text: mappings begin past its end';
  check(outer(holding(INNER, 'f()')), {}, FIRST, [past]);
  check(outer(holding(mapOf(['app.ts'], ';;;;AAUE'))), {}, FIRST, [past]);
  check(OUTER, { 'app.js': naming('in.map', 'f()'), 'in.map': INNER }, FIRST, [past]);
  // A line ends in two ways, and its end is a position. What few tools count alike isn't looked at.
  check(outer(holding(mapOf(['app.ts'], 'AAUE,IAEA;;;A'), "'\u{1f600}'\r\n")), {}, LAST);
  check(outer(holding(mapOf(['app.ts'], 'AAUE,IAEA;;;A'), 'f();g()\rh()')), {}, LAST);
  check(outer(holding(mapOf(['app.ts'], 'AAUE,IAEA;;;;A'), "'\u{1f600}'\r\n")), {}, FIRST, [past]);
  check(outer(holding(INNER, 'f()\r\n')), {}, FIRST, [past]);
  check(outer(holding(mapOf(['app.ts'], 'AAUE,IAEA;;;;;;A'), 'f()\u2028')), {}, LAST);
});

test('a text that differs from the file is not followed', () => {
  const more = { 'app.js': naming('in.map'), 'in.map': INNER };
  check(outer(`\ufeff${naming('in.map').replaceAll('\n', '\r\n')}`), more, LAST);
  check(outer(naming('in.map', 'h();g()')), more, FIRST, ['app.js: its text in a map differs from its file']);
  check(outer(naming('in.map', 'h();g()')), { 'in.map': INNER }, LAST);
});

test('a map that is refused, or is not there, is not followed', () => {
  check(outer(holding('{"version":2}')), {}, FIRST, ['app.js: version']);
  check(outer(naming('data:application/json')), {}, FIRST, ['app.js: not a URL']);
  check(OUTER, { 'app.js': naming('in.map') }, FIRST, ['app.js: what it names is missing']);
  check(OUTER, { 'app.js': naming('in.map'), 'in.map': '{' }, FIRST, ['app.js: not json']);
  // Others are.
  const sourcesContent = [holding('{"version":2}'), holding(INNER)];
  const map = mapOf(['a.js', 'app.js'], 'AAAA,ICAI', { sourcesContent });
  check(map, {}, ['a.js:1:0', LAST[1]], ['a.js: version']);
});

test('a script that was written over its source leads nowhere', () => {
  check(mapOf(['app.min.js'], 'AAUE,IAEA'), {}, ['app.min.js:11:2', 'app.min.js:13:2']);
  const more = { 'app.js': naming('in.map'), 'in.map': mapOf(['app.js'], 'AAUE,IAEA') };
  check(OUTER, more, ['app.js:11:2', 'app.js:13:2']);
});

test('sources that lead back, or on and on, leave the map as it is', () => {
  check(OUTER, {
    'app.js': naming('app.js.map'), 'app.js.map': mapOf(['b.js'], 'AAAA,IAAI'),
    'b.js': naming('b.js.map'), 'b.js.map': mapOf(['app.js'], 'AAAA,IAAI'),
  }, FIRST, [ENDLESS]);
  let map = INNER;
  for (let level = 0; level < 16; level++) map = outer(holding(map));
  check(map, {}, LAST);
  check(outer(holding(map)), {}, FIRST, [ENDLESS]);
});

test('levels are counted on each way to a file', () => {
  const more = { 'app.js': naming('app.js.map'), 'app.js.map': mapOf(['b.js'], 'AAAA,IAAI') };
  Object.assign(more, { 'b.js': naming('b.js.map'), 'b.js.map': INNER });
  const through = levels => {
    let map = OUTER;
    while (--levels > 0) map = mapOf(['y.js'], 'AAAA,IAAI', { sourcesContent: [holding(map)] });
    return mapOf(['app.js', 'x.js'], 'AAAA,ICAI', { sourcesContent: [null, holding(map)] });
  };
  // b.js.map is two levels below the last of these maps.
  check(through(14), more, LAST);
  check(through(15), more, [FIRST[0], 'x.js:1:4'], [ENDLESS]);
});

// In each of 15 levels, eight sources have the same map.
test('a file is opened once', () => {
  const more = { '16.js': naming('16.js.map'), '16.js.map': INNER };
  for (let level = 1; level < 16; level++) {
    more[`${level}.js`] = naming(`${level}.js.map`);
    more[`${level}.js.map`] = mapOf([0, 1, 2, 3, 4, 5, 6, 7].map(i => `${level + 1}.js?${i}`), 'AAAA,IAAI');
  }
  check(mapOf(['1.js'], 'AAAA,IAAI'), more, LAST);
});

test('a file of another package is not looked at', () => {
  const other = lay({ 'app.js': holding(INNER), 'in.map': INNER });
  const source = path.join('..', path.basename(other), 'app.js');
  const { places, said } = asked(lay(files(mapOf([source], 'AAAA,IAAI'), {})));
  assert.deepEqual([places, said], [FIRST.map(place => path.join(other, place)), []]);
  const text = naming(path.join('..', path.basename(other), 'in.map'));
  check(outer(text), {}, FIRST, ['app.js: what it names is no file of the package']);
});

test('what a hook gives is followed, and a script may be named by its URL', () => {
  const map = JSON.stringify(outer(holding(INNER)));
  for (const given of [map, `JSON.parse(${map})`, `Buffer.from(${map})`]) {
    const hooks = `({ retrieveSourceMap: url => ({ url, map: ${given} }) })`;
    const script = path.join(top, 'none', 'app.min.js');
    const { places } = asked(top, { script, hooks });
    assert.deepEqual(places, LAST.map(place => `none${path.sep}${place}`));
  }
  const folder = lay(files(OUTER, { 'app.js': naming('in.map'), 'in.map': INNER }));
  const { places } = asked(folder, { script: pathToFileURL(path.join(folder, 'app.min.js')).href });
  assert.deepEqual(places, LAST.map(place => `${pathToFileURL(folder)}/${place}`));
});

test('stacks and the line of an error that nobody catches are those of the last source', () => {
  const text = `${'\n'.repeat(10)}  throw first();\n`;
  const code = "/*  */function a(){throw new Error('x')}a()";
  const inner = mapOf(['app.ts'], 'AAUE', { sourcesContent: [text] });
  const folder = lay({
    'app.min.js': naming('app.min.js.map', code),
    'app.min.js.map': mapOf(['app.js'], 'AAAA', { sourcesContent: [holding(inner)] }),
  });
  const { stderr } = run(folder, ['--require', require.resolve('smap/register'), path.join(folder, 'app.min.js')]);
  const place = `${path.join(folder, 'app.ts')}:11`;
  assert.ok(stderr.startsWith(`${place}\n  throw first();\n  ^\n`), stderr);
  assert.ok(stderr.includes(`(${place}:3)\n`), stderr);
});

// The first map has no texts of sources.
test('names of functions are those of the last source', () => {
  const text = "function total() {\n  return new Error('x');\n}\n";
  const folder = lay({
    'app.min.js': naming('app.min.js.map', "function a(){return new Error('x')}console.log(a().stack)"),
    // Column 20, that of the error, is column 20, and column 9 of line 2.
    'app.min.js.map': mapOf(['app.js'], 'oBAAoB'),
    'app.js': naming('in.map', "function b(){return new Error('x')}"),
    'in.map': mapOf(['app.ts'], 'oBACS', { sourcesContent: [text] }),
  });
  const words = ['--require', require.resolve('smap/register'), path.join(folder, 'app.min.js')];
  const named = `    at total (${path.join(folder, 'app.ts')}:2:10)\n`;
  for (const [env, has] of [[{}, true], [{ SMAP_NAMES: '0' }, false], [{ SMAP_CHAINS: '0' }, false]]) {
    const { stdout, stderr } = run(folder, words, env);
    assert.equal(stdout.includes(named), has, stdout + stderr);
  }
});
