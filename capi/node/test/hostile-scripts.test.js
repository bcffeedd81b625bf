'use strict';
// Scripts and maps that nobody should make, and what stacks and errors that nobody catches tell of them.
const assert = require('node:assert');
const fs = require('node:fs');
const os = require('node:os');
const path = require('node:path');
const { spawnSync } = require('node:child_process');
const { test } = require('node:test');
const { scriptLink } = require('smap');
const { getErrorSource, mapSourcePosition } = require('smap/support');
const { isQuick } = require('./quick.js');

const root = fs.realpathSync(fs.mkdtempSync(path.join(os.tmpdir(), 'smap-hostile-')));
test.after(() => fs.rmSync(root, { recursive: true }));

const below = name => path.join(root, name);

function write(name, text) {
  fs.mkdirSync(path.dirname(below(name)), { recursive: true });
  fs.writeFileSync(below(name), text);
}

function run(name, cwd = root) {
  const words = ['--require', require.resolve('smap/register'), below(name)];
  const { stdout, stderr, status } = spawnSync(process.execPath, words, { encoding: 'utf8', cwd });
  return { out: stdout, err: stderr, status };
}

// A script, each of whose positions comes from the first one of a source.
function writeScript(name, text, map) {
  const all = { version: 3, mappings: text.split('\n').map(() => 'AAAA').join(';'), ...map };
  write(name, `${text}\n//# sourceMappingURL=data:,${encodeURIComponent(JSON.stringify(all))}\n`);
}

// ---- what a comment may be

test('comments of any form are read in a time that grows with the text', () => {
  const [line, block] = ['//#sourceMappingURL=', '/*#sourceMappingURL='];
  const spaces = ' '.repeat(200000);
  const many = 'x '.repeat(200000);
  const rows = [
    [line.repeat(20000) + 'a', line.repeat(19999) + 'a'],
    [line.repeat(20000) + ' x', null],
    [block.repeat(20000), null],
    [block.repeat(20000) + '*/', block.repeat(19999)],
    [`${block}a*/`.repeat(20000), 'a'],
    [`${block}a*/`.repeat(20000) + 'x', null],
    [`${block}a b*/`.repeat(20000), null],
    [(line + block).repeat(10000) + ' x', null],
    [line.repeat(10000) + 'a' + spaces + 'x', null],
    [line.repeat(10000) + 'a' + spaces, line.repeat(9999) + 'a'],
    [block.repeat(10000) + 'a' + spaces + '*/x', null],
    [('//#' + ' '.repeat(500)).repeat(500) + 'sourceMappingURL=', null],
    ['/'.repeat(400000) + 'sourceMappingURL=', null],
    ['/*'.repeat(200000), null],
    ['/* '.repeat(200000), null],
    [`${line}a\n` + '/* '.repeat(200000), 'a'],
    [`${line}a\n` + '/**/'.repeat(100000), 'a'],
    [`${line}a` + '\n'.repeat(400000), 'a'],
    [`${line}a` + '\r\n//'.repeat(100000), 'a'],
    [`${line}a\n` + spaces + '//' + many, 'a'],
    [`${line}a\n` + spaces + many, null],
    ['\ufeff\u00a0'.repeat(100000) + `${line}a`, 'a'],
  ];
  for (const [text, wants] of rows) assert.equal(isQuick(() => scriptLink(text)), wants, text.slice(0, 60));
});

test('lines that end with U+2028 are read in a time that grows with their number', () => {
  const text = '//# sourceMappingURL=lines.js.map' + '\u2028'.repeat(400000);
  write('out/lines.js', text);
  write('out/lines.js.map', '{"version":3,"sources":["lines.ts"],"mappings":"AAUA"}');
  assert.equal(isQuick(() => scriptLink(text), 1), 'lines.js.map');
  const at = isQuick(() => mapSourcePosition({ source: below('out/lines.js'), line: 1, column: 0 }), 1);
  assert.deepEqual([at.source, at.line], [below('out/lines.ts'), 11]);
});

test('stacks of any form are read in a time that grows with the text', () => {
  for (const piece of [' (', ' (:1', ' (:1:1x', ':1', '1', ':', 'async ', '\n    at ']) {
    const stack = 'Error: x\n    at ' + piece.repeat(200000 / piece.length);
    for (const end of ['', 'x', ':1:1x', ':1:1)']) {
      assert.equal(isQuick(() => getErrorSource({ stack: stack + end })), null);
    }
  }
});

// ---- what reaches a terminal

// Control characters, what ends a line, and what turns the direction of a text.
const CONTROL = /[\p{Cc}\p{Zl}\p{Zp}\p{Bidi_Control}]/u;
const NAMES = ['a%0a    at forged (b.js:1:1)', '%1b]0;title%07', 'a%7f', '%c2%9b31m', '%e2%80%ae',
  '%e2%80%a8', '%09'];

test('no control character of a source gets into a stack', () => {
  for (const name of NAMES) {
    const print = 'console.log(JSON.stringify([new Error("x").stack, (() => { try { throw new Error("x") } ' +
      'catch (e) { return require("util").inspect(e) } })(), eval("new Error(`x`)").stack]))';
    writeScript('out/control.js', print, { sources: [name] });
    const { out, err } = run('out/control.js');
    assert.equal(err, '');
    for (const stack of JSON.parse(out)) {
      const lines = stack.split('\n');
      for (const line of lines) assert.ok(!CONTROL.test(line), JSON.stringify(line));
      assert.ok(lines.slice(1).every(line => line.startsWith('    at ')), stack);
      assert.ok(!lines.some(line => line.startsWith('    at forged')), stack);
      assert.ok(stack.includes(`file://${root}/out/`), stack);
    }
  }
});

test('no control character of a source gets into what is printed of an error that nobody catches', () => {
  for (const name of [...NAMES, 'plain.js']) {
    const sourcesContent = ['\ta\x1b]0;title\x07\x7f\x9b31m\u202e\u2028b'];
    writeScript('out/line.js', 'throw new Error("x")', { sources: [name], sourcesContent });
    const { err, status } = run('out/line.js');
    assert.equal(status, 1);
    const [place, line] = err.split('\n');
    assert.ok(place.endsWith(':1') && line.startsWith('\ta\ufffd]0;title\ufffd'), err);
    const lines = err.replaceAll('\t', '').split('\n');
    for (const one of lines) assert.ok(!CONTROL.test(one), JSON.stringify(one));
  }
});

test('a column behind the end of a line is marked there', () => {
  for (const column of ['+/////D', 'gggggQ']) {
    const map = { sources: ['a.js'], sourcesContent: ['throw 1'], mappings: `AAA${column}` };
    writeScript('out/column.js', 'throw new Error("x")', map);
    const { err, status } = run('out/column.js');
    assert.equal(status, 1);
    assert.ok(err.startsWith(`${below('out/a.js')}:1\nthrow 1\n       ^\n`), err.slice(0, 500));
  }
});

// ---- whose lines are shown

const THROW = 'throw new Error("x")';

// What is printed above an error that nobody catches, out of a script of these sources.
function lineAbove(name, sources, cwd) {
  writeScript(name, THROW, { sources });
  return run(name, cwd).err.split('\n')[1];
}

test('the line of a file is shown where that is in the package of the script', () => {
  write('secret.txt', 'a secret');
  write('app/secret.txt', 'a secret of the app');
  write('app/package.json', '{"name":"app"}');
  write('app/src/a.ts', 'a line of the source');
  write('app/dist/cjs/package.json', '{"type":"commonjs"}');
  write('app/node_modules/lib/package.json', '{"name":"lib"}');
  write('app/node_modules/lib/src/b.ts', 'a line of the library');
  write('app/node_modules/bare/src/b.ts', 'a line of the library');
  fs.symlinkSync(below('secret.txt'), below('app/src/link.ts'));
  const rows = [
    ['app/dist/a.js', '../src/a.ts', 'a line of the source'],
    ['app/dist/cjs/a.js', '../../src/a.ts', 'a line of the source'],
    ['app/dist/a.js', '../../secret.txt', THROW],
    ['app/dist/a.js', `file://${below('secret.txt')}`, THROW],
    ['app/dist/a.js', '../src/link.ts', THROW],
    ['app/dist/a.js', 'file:///etc/passwd', THROW],
    ['app/node_modules/lib/dist/a.js', '../src/b.ts', 'a line of the library'],
    ['app/node_modules/lib/dist/a.js', '../../../secret.txt', THROW],
    ['app/node_modules/bare/dist/a.js', '../src/b.ts', THROW],
  ];
  for (const [script, source, wants] of rows) {
    assert.equal(lineAbove(script, [source]), wants, `${source} of ${script}`);
    assert.equal(lineAbove(script, [source], below('app')), wants, `${source} of ${script}`);
  }
});

test('without a package, the line of a file is shown where that is below the working directory', () => {
  write('secret.txt', 'a secret');
  write('bare/src/a.ts', 'a line of the source');
  const rows = [['../src/a.ts', 'bare', true], ['../src/a.ts', '', true], ['../src/a.ts', 'bare/out', false],
    ['../../secret.txt', 'bare', false], ['file:///etc/passwd', 'bare', false]];
  for (const [source, cwd, isShown] of rows) {
    write('bare/out/x', '');
    const line = lineAbove('bare/out/a.js', [source], below(cwd));
    assert.equal(line, isShown ? 'a line of the source' : THROW, `${source} in ${cwd}`);
  }
  const line = lineAbove('bare/out/a.js', ['../src/a.ts'], '/');
  assert.equal(line, THROW);
});
