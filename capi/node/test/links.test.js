'use strict';
// Which map belongs to a script. What is expected comes from ECMA-426, from the URL Standard and the Fetch
// Standard as Node has them, and from Node's own module url.
const assert = require('node:assert');
const { test } = require('node:test');
const { fileURLToPath, pathToFileURL } = require('node:url');
const {
  SmapError, scriptLink, resolveLink, inlineMap, fileUrl, filePath, scriptUrl, scriptName, normalForm,
  areAlike,
} = require('smap');
const { numbers } = require('./many-maps.js');
const { isQuick } = require('./quick.js');
const native = require('../native.js');

const refuses = (code, call) => assert.throws(call, error => {
  assert.deepEqual([error.code, error.kind, error.line], [code, null, null], `${call}: ${error}`);
  return error instanceof SmapError && error.message !== '';
});

// ---- the comment

const COMMENT = '//# sourceMappingURL=a.map';

// A text, and what it names.
const SCRIPTS = [
  ['', null], ['f()', null],
  [COMMENT, 'a.map'],
  [`f()\n${COMMENT}\n`, 'a.map'],
  [`${COMMENT}\r\n\r\n \t\n`, 'a.map'],
  ['//#sourceMappingURL=a.map', 'a.map'],
  ['//@\tsourceMappingURL=a.map \u00a0', 'a.map'],
  ['//#\ufeff\u3000sourceMappingURL=a.map', 'a.map'],
  [`f(); ${COMMENT}`, 'a.map'],
  ['f(); /*# sourceMappingURL=a.map */ // the end', 'a.map'],
  ['/*# sourceMappingURL=a.map*/', 'a.map'],
  [`${COMMENT}\n// a remark\n/* another */\n`, 'a.map'],
  [`${COMMENT}\n//# sourceMappingURL=b.map`, 'b.map'],
  [`${COMMENT}\u2028// a remark\u2029`, 'a.map'],
  ['//# sourceMappingURL=', ''],
  ['s = "//# sourceMappingURL=a.map"', 'a.map"'],
  ['//# sourceMappingURL=data:application/json,{"a":1}', 'data:application/json,{"a":1}'],
  [`${COMMENT}\nf()`, null],
  [`${COMMENT}\u2028f()`, null],
  ['/*# sourceMappingURL=a.map */ f()', null],
  [`s = "http://h/"; ${COMMENT}`, null],
  ['//# sourceMappingURL=a b.map', null],
  ['//# sourcemappingurl=a.map', null], ['// # sourceMappingURL=a.map', null],
  ['//$ sourceMappingURL=a.map', null],
  ['//# sourceMappingURL =a.map', null],
  ['/*# sourceMappingURL=a.map', null],
  ['/*# sourceMappingURL=a.map\n*/', null],
  [`${COMMENT}\n/`, null],
  [`${COMMENT}\n/*`, 'a.map'],
  [`${COMMENT}\n/* x`, null],
];

test('a script names a map in its last comment', () => {
  for (const [text, wants] of SCRIPTS) {
    assert.equal(scriptLink(text), wants, JSON.stringify(text));
    assert.equal(scriptLink(text, { css: false }), wants, JSON.stringify(text));
    assert.equal(scriptLink(Buffer.from(text)), wants, JSON.stringify(text));
  }
});

test('a style sheet has comments of one kind', () => {
  const rows = [
    ['a {}\n/*# sourceMappingURL=a.css.map */\n', 'a.css.map'],
    ['a {} /*@sourceMappingURL=a.css.map*/\n\n', 'a.css.map'],
    [COMMENT, null],
    ...['// x', 'a {}'].map(behind => [`/*# sourceMappingURL=a.css.map */\n${behind}`, null]),
  ];
  for (const [text, wants] of rows) assert.equal(scriptLink(text, { css: true }), wants, text);
});

// The standard's algorithm step by step, which finds the comment without parsing.
function extracted(source) {
  let last = null;
  for (const line of source.split(/\r\n|[\n\r\u2028\u2029]/)) {
    let i = 0;
    while (i < line.length) {
      const first = line[i++];
      if (first === '/' && i < line.length) {
        const second = line[i++];
        if (second === '/') {
          last = matched(line.slice(i)) ?? last;
          i = line.length;
        } else if (second === '*') {
          const from = i;
          let isOpen = true;
          while (isOpen && i + 1 < line.length) {
            isOpen = !(line[i] === '*' && line[i + 1] === '/');
            i++;
          }
          if (!isOpen) last = matched(line.slice(from, i++ - 1)) ?? last;
        } else {
          last = null;
        }
      } else if (!/[\t\v\f\ufeff\p{Zs}]/u.test(first)) {
        last = null;
      }
    }
  }
  return last;
}

function matched(comment) {
  const match = /^[@#]\s*sourceMappingURL=(\S*?)\s*$/.exec(comment);
  return match && match[1];
}

const PIECES = ['//#', '//@', '/*#', '/*@', 'sourceMappingURL=', COMMENT, '/*# sourceMappingURL=b.map*/', ' ',
  '\n', '\t', '*/', '*', '/', 'a', "'", '\r', '\r\n', '\u2028', '\u2029', 'x y', '//', '/*', '\u00a0',
  '\ufeff', '\u3000', '\u0085', '\u200b', '\u180e', '\u00e9', '\u{1f600}', '\u4028', '\u20a8'];

test('the comment is the one that the algorithm of the standard finds', () => {
  const next = numbers(1);
  let count = 0;
  for (const [text, wants] of SCRIPTS) assert.equal(extracted(text), wants, JSON.stringify(text));
  for (let i = 0; i < 100000; i++) {
    const text = Array.from({ length: next(9) }, () => PIECES[next(PIECES.length)]).join('');
    const wants = extracted(text);
    assert.equal(scriptLink(text), wants, JSON.stringify(text));
    count += wants !== null;
  }
  assert.ok(count > 5000, `${count} comments`);
});

test('a long URL comes back whole', () => {
  for (const length of [1019, 1020, 1023, 1024, 1025, 5000]) {
    for (const url of ['x'.repeat(length), '\u00e9'.repeat(length), '\u{1f600}'.repeat(length)]) {
      assert.equal(scriptLink(`f()\n//# sourceMappingURL=${url}\n`), url);
      assert.deepEqual(scriptLink(`//# sourceMappingURL=${url}`, { buffer: true }), Buffer.from(url));
    }
  }
});

test('what is no UTF-8 is passed over, unless the URL has it', () => {
  assert.equal(scriptLink(`s = '\ud800';\n${COMMENT}`), 'a.map');
  assert.equal(scriptLink(Buffer.from(`s = '\xff';\n${COMMENT}`, 'latin1')), 'a.map');
  const bytes = Buffer.from('//# sourceMappingURL=\xff.map', 'latin1');
  refuses('SMAP_NOT_UTF8', () => scriptLink(bytes));
  refuses('SMAP_NOT_UTF8', () => scriptLink('//# sourceMappingURL=\ud800'));
  assert.deepEqual(scriptLink(bytes, { buffer: true }), Buffer.from('\xff.map', 'latin1'));
  assert.equal(scriptLink('f()', { buffer: true }), null);
});

const inPlace = { skip: native.isWasm ? 'WebAssembly: a text is copied into its memory' : false };

test('only the end of a large script is looked at', inPlace, () => {
  const text = Buffer.alloc(5e7, 'f();\n');
  text.write(`\n${COMMENT}\n`, text.length - COMMENT.length - 2);
  // Under the sanitizers bounds.c reads all of it.
  assert.equal(isQuick(() => scriptLink(text), process.env.ASAN_OPTIONS ? 3 : 0.05), 'a.map');
});

// ---- resolving

test('the URL of a map is resolved as the URL Standard does it', () => {
  const links = ['a.map', '../a b.map', '/x.map', '//o/x.map', 'http://o/x', '?q', '#f', '', '\u00e9.map',
    '.', '%2e%2e/x', 'a\\b.map', 'data:,x', './/x', '\ta.map\n', 'file:///x', '\u{1f600}', "a'b|c.map"];
  const bases = [
    ['http://h/m/out.js', 'http://h/m/out.js'],
    ['HTTP://H:80/m/../out.js?x#y', 'http://h/out.js?x#y'],
    ['file:///a%20b/out.mjs', 'file:///a%20b/out.mjs'],
    ['webpack:///src/a.js', 'webpack:///src/a.js'],
    ['/a b/\u00e9/%41#?.js', pathToFileURL('/a b/\u00e9/%41#?.js')],
    ['C:\\a b\\\u00e9.js', 'file:///C:/a%20b/%C3%A9.js'],
  ];
  for (const [script, base] of bases) {
    for (const link of links) {
      const wants = new URL(link, base).href;
      assert.equal(resolveLink(script, link), wants, `${link} from ${script}`);
      assert.equal(resolveLink(Buffer.from(script), Buffer.from(link)), wants);
    }
  }
  assert.equal(resolveLink(new URL('http://h/a/b.js'), 'c.map'), 'http://h/a/c.map');
  assert.equal(resolveLink('http://h/a.js', new URL('http://o/c.map')), 'http://o/c.map');
});

test('what makes no URL is refused', () => {
  for (const script of ['', 'a.js', 'out/a.js', './a.js', '../a.js', 'http://[', 'evalmachine.<anonymous>']) {
    refuses('SMAP_NOT_URL', () => resolveLink(script, 'a.map'));
  }
  refuses('SMAP_NOT_URL', () => resolveLink('http://h/a.js', 'http://['));
  refuses('SMAP_NOT_URL', () => resolveLink('data:,x', 'a.map'));
  for (const bad of ['\ud800', 'a\udc00', Buffer.from([0xff])]) {
    refuses('SMAP_NOT_UTF8', () => resolveLink('http://h/a.js', bad));
    refuses('SMAP_NOT_UTF8', () => resolveLink(bad, 'a.map'));
  }
});

// ---- data: URLs

const BASE64 = Buffer.from('{"a":"\u00e9>?"}').toString('base64');

// A URL, and the bytes that it holds.
const DATA = [
  ['data:,', ''],
  ['data:application/json,{}', '{}'],
  ['data:application/json,%7B%22a%22:1%7D', '{"a":1}'],
  ['data:application/json;charset=utf-8,%c3%a9', '\u00e9'],
  ['data:,\u00e9', '\u00e9'],
  ['data:,a,b?c', 'a,b?c'],
  ['data:,a%2', 'a%2'],
  ['data:,%zz%', '%zz%'],
  ['data:,a#b', 'a'],
  ['data:,a%23b', 'a#b'],
  [`data:application/json;base64,${BASE64}`, '{"a":"\u00e9>?"}'],
  [`data:application/json;charset=utf-8;base64,${BASE64}`, '{"a":"\u00e9>?"}'],
  [`DATA:;BASE64,${BASE64.replace(/=+$/, '')}`, '{"a":"\u00e9>?"}'],
  ['data:; base64,e30', '{}'],
  ['data:;base64,e3 0 =', '{}'],
  ['data:;base64,e30%3D', '{}'],
  ['data:;base64,%65%33%30=', '{}'],
  ['data:;base64,e31', '{}'],
  ['data:;base64,', ''],
  ['data:;base64=1,e30', 'e30'],
  ['data:base64,e30', 'e30'],
  ['data:;base64;charset=utf-8,e30', 'e30'],
  ['data:;base64,e30#x', '{}'],
];

test('a data: URL holds what the Fetch Standard finds in it', async () => {
  for (const [url, wants] of DATA) {
    assert.equal(Buffer.from(await (await fetch(url)).arrayBuffer()).toString(), wants, `fetch of ${url}`);
    assert.equal(inlineMap(url).toString(), wants, url);
    assert.equal(inlineMap(Buffer.from(url)).toString(), wants, url);
  }
  assert.equal(inlineMap(new URL('data:;base64,e30')).toString(), '{}');
  assert.deepEqual([...inlineMap('data:,%ff%00')], [0xff, 0]);
});

test('a broken data: URL is refused, and no other URL is one', async () => {
  for (const body of ['e_0-', 'e30==', 'e', 'e30=x', '=', '====', 'e3\u00e90', '%ff', '{}']) {
    await assert.rejects(fetch(`data:;base64,${body}`), TypeError, body);
    refuses('SMAP_NOT_BASE64', () => inlineMap(`data:;base64,${body}`));
  }
  for (const url of ['data:', 'data:application/json', 'data:;base64', 'data:text/plain#,']) {
    await assert.rejects(fetch(url), TypeError, url);
    refuses('SMAP_NOT_URL', () => inlineMap(url));
  }
  for (const url of ['', 'a.map', 'http://h/data:,x', 'data', 'datax:,x', '/data:,x', new URL('http://h/')]) {
    assert.equal(inlineMap(url), null, String(url));
  }
});

test('a data: URL of some length is read at once', () => {
  const bytes = Buffer.alloc(1.5e7, '{"a":1}');
  assert.ok(isQuick(() => inlineMap(`data:;base64,${bytes.toString('base64')}`)).equals(bytes));
  assert.ok(isQuick(() => inlineMap(`data:,${bytes}`)).equals(bytes));
  refuses('SMAP_NOT_BASE64', () => isQuick(() => inlineMap(`data:;base64,${'e'.repeat(2e7)}-`)));
  assert.equal(isQuick(() => inlineMap('data:,' + '%'.repeat(1e7))).length, 1e7);
});

// ---- files

// Node has the rules of Windows on other systems from 20.13 on.
const windows = { windows: true };
const hasWindows = pathToFileURL('C:\\a', windows).href === 'file:///C:/a';

test('a path has the URL that Node gives it, and back', () => {
  const paths = ['/', '/a', '/a/b.js', '/a b/\u00e9.js', '/%41%', '/a#b?c', '/"<>`{}\\', '/\u{1f600}/\u2028',
    '/a\tb\nc\rd\u007f', "/!$&'()*+,;=:@-._", '/a/', '/a%20b', '/\u00ff'];
  for (const path of paths) {
    const { href } = pathToFileURL(path);
    assert.equal(fileUrl(path), href);
    assert.equal(fileUrl(Buffer.from(path)), href);
    assert.equal(filePath(href), path);
    assert.equal(filePath(new URL(href)), path);
    assert.equal(fileURLToPath(href), path);
  }
});

test('of ASCII what the URL Standard has in paths stays, but for the percent sign and the backslash', () => {
  for (let code = 1; code < 128; code++) {
    const sign = String.fromCharCode(code);
    // The path percent-encode set, and what a path in a URL would be misread by.
    const isEncoded = code < 32 || code === 127 || ' "#<>?^`{}%\\'.includes(sign);
    const hex = code.toString(16).toUpperCase().padStart(2, '0');
    assert.equal(fileUrl(`/a${sign}b`), `file:///a${isEncoded ? `%${hex}` : sign}b`);
    assert.equal(filePath(fileUrl(`/a${sign}b`)), `/a${sign}b`);
    assert.ok(areAlike(fileUrl(`/a${sign}b`), pathToFileURL(`/a${sign}b`).href));
  }
});

test('a path of Windows', () => {
  const rows = [
    ['C:\\a\\b.js', 'file:///C:/a/b.js'],
    ['c:\\a b\\\u00e9.js', 'file:///c:/a%20b/%C3%A9.js'],
    ['Z:\\%41#.js', 'file:///Z:/%2541%23.js'],
    ['C:\\a\\', 'file:///C:/a/'],
  ];
  for (const [path, url] of rows) {
    assert.equal(fileUrl(path), url);
    assert.equal(fileUrl(path.replaceAll('\\', '/')), url);
    assert.equal(filePath(url), path);
    if (!hasWindows) continue;
    assert.equal(pathToFileURL(path, windows).href, url);
    assert.equal(fileURLToPath(url, windows), path);
  }
  assert.deepEqual([fileUrl('C:\\'), filePath('file:///C:/')], ['file:///C:/', 'C:\\']);
});

test('what has no URL, or no path', () => {
  for (const path of ['', 'a.js', './a', '../a', 'C:a', 'http://h/a', 'file:///a', '1:\\a', 'CC:\\a']) {
    assert.equal(fileUrl(path), null, path);
  }
  for (const url of ['', '/a.js', 'a.js', 'http://h/a.js', 'data:,x', 'node:fs', new URL('https://h/')]) {
    assert.equal(filePath(url), null, String(url));
  }
  assert.equal(filePath('file:///a.js?x#y'), fileURLToPath('file:///a.js?x#y'));
  assert.equal(filePath('FILE://LocalHost/a%20b'), fileURLToPath('FILE://LocalHost/a%20b'));
});

test('the path of a URL is refused where it would be misread', () => {
  for (const url of ['file://h/a.js', 'file:///a%2Fb.js', 'file:///a%2fb.js']) {
    assert.throws(() => fileURLToPath(url), TypeError);
    refuses('SMAP_NOT_URL', () => filePath(url));
  }
  for (const url of ['file:///C:/a%5Cb.js', 'file:///C:/a%2Fb.js']) {
    if (hasWindows) assert.throws(() => fileURLToPath(url, windows), TypeError);
    refuses('SMAP_NOT_URL', () => filePath(url));
  }
  // Node gives a path with a NUL, which it then opens no file by.
  refuses('SMAP_NOT_URL', () => filePath('file:///a%00b.js'));
  assert.throws(() => fileURLToPath('file:///%ff'), URIError);
  refuses('SMAP_NOT_UTF8', () => filePath('file:///%ff'));
  for (const path of ['/\ud800', '/a\udc00.js', Buffer.from('/\xff', 'latin1')]) {
    refuses('SMAP_NOT_UTF8', () => fileUrl(path));
  }
});

// ---- scripts below a folder

// A name, and what it is below a URL, below a path, and below one of Windows.
const encoded = name => name.split('/').map(encodeURIComponent).join('/');
const NAMES = ['a.js', 'a b/\u00e9.js', '%41.js', 'a#b?c.js', 'x/y/z/\u{1f600}.js', '..a/b..', '...', '.a'];

test('a script below a folder has a URL, and its name back', () => {
  for (const name of NAMES) {
    const rows = [
      ['http://h/s/', 'http://h/s/' + encoded(name)],
      ['file:///s%20t/', 'file:///s%20t/' + encoded(name)],
      ['/s t/', '/s t/' + name],
      ['C:\\s\\', 'C:\\s\\' + name.replaceAll('/', '\\')],
      ['C:/s/', 'C:/s/' + name],
    ];
    for (const [folder, url] of rows) {
      assert.equal(scriptUrl(folder, name), url);
      assert.equal(scriptName(folder, url), name);
    }
  }
  assert.equal(scriptUrl(new URL('http://h/s/'), Buffer.from('a b.js')), 'http://h/s/a%20b.js');
  assert.equal(scriptName(new URL('http://h/s/'), new URL('http://h/s/a%20b.js')), 'a b.js');
  assert.equal(scriptUrl('http://h/', '[x].js'), 'http://h/[x].js');
});

test('a script that is elsewhere has no name below a folder', () => {
  const below = ['', '../a.js', './a.js', '/a.js', 'a/../b', 'a/', 'a%2Fb.js', '%2e%2e/a.js', 'a%00.js',
    '%61.js', 'a b.js', 'a%c3%a9.js'];
  const urls = ['http://h/sa.js', 'http://o/s/a.js', '/s/a.js', '', 'HTTP://h/s/a.js'];
  for (const url of [...urls, ...below.map(name => `http://h/s/${name}`)]) {
    assert.equal(scriptName('http://h/s/', url), null, url);
  }
  for (const url of ['/s/', '/s/../a.js', '/s//a.js', '/s/a\0', '/t/a.js', 'file:///s/a.js']) {
    assert.equal(scriptName('/s/', url), null, url);
  }
  assert.equal(scriptName('C:\\s\\', 'C:\\s\\..\\a.js'), null);
});

test('the name of a file need not be UTF-8', () => {
  const name = Buffer.from('\xff.js', 'latin1');
  assert.equal(scriptUrl('http://h/', name), 'http://h/%FF.js');
  refuses('SMAP_NOT_UTF8', () => scriptName('http://h/', 'http://h/%FF.js'));
  assert.deepEqual(scriptName('http://h/', 'http://h/%FF.js', { buffer: true }), name);
  refuses('SMAP_NOT_UTF8', () => scriptUrl('/s/', name));
  const path = scriptUrl('/s/', name, { buffer: true });
  assert.deepEqual(path, Buffer.from('/s/\xff.js', 'latin1'));
  assert.deepEqual(scriptName('/s/', path, { buffer: true }), name);
  assert.equal(scriptName('/s/', '/t/a.js', { buffer: true }), null);
});

// ---- names that are alike

const ALIKE = [
  ['HTTPS://H:443/a.js?v=1#x', 'https://h/a.js'],
  ['http://h/a/./b/../c.js', 'http://h/a/c.js'],
  ['http://b\u00fccher.example/a.js', 'http://xn--bcher-kva.example/a.js'],
  ['http://h/\u00e9 .js?', 'http://h/%C3%A9%20.js'],
  ['http://h/%61.js', 'http://h/a.js'],
  ['http://h/%5bx%5D/%c3%a9.js', 'http://h/[x]/\u00e9.js'],
  ['webpack:///a.js?1', 'webpack:///a.js?2'],
  ['/a b/\u00e9.js', 'file:///a%20b/%C3%A9.js'],
  ['/[x].js', 'file:///%5Bx%5D.js'],
  ['/a/../b.js', '/b.js'],
  ['c:\\a b\\x.js', 'file:///C:/a%20b/x.js'],
  ['C:/a.js', 'c:\\a.js'],
  ['file:///a.js?x', '/a.js'],
  ['a.js', 'a.js'],
  ['', ''],
  ['\ud800', '\ud800'],
];

const UNLIKE = [
  ['https://h:444/a.js', 'https://h/a.js'],
  ['http://h/a.js', 'https://h/a.js'],
  ['http://h/A.js', 'http://h/a.js'],
  ['http://h/a.js', 'http://h/a.js/'],
  ['http://h/a%2Fb.js', 'http://h/a/b.js'],
  ['file://h/a.js', '/a.js'],
  ['/a?b.js', '/a?c.js'],
  ['/A.js', '/a.js'],
  ['C:\\A.js', 'C:\\a.js'],
  ['a.js', './a.js'],
  ['a.js?x', 'a.js'],
  ['file:///%FE', 'file:///%FF'],
  ['\ud800', '\ud801'],
];

test('names are alike if they have the same normal form', () => {
  const form = name => normalForm(name, { buffer: true });
  for (const [pairs, wants] of [[ALIKE, true], [UNLIKE, false]]) {
    for (const [one, other] of pairs) {
      assert.equal(areAlike(one, other), wants, `${one} and ${other}`);
      assert.equal(areAlike(other, one), wants, `${other} and ${one}`);
      assert.equal(form(one).equals(form(other)), wants, `${one} and ${other}`);
      assert.ok(areAlike(one, one) && areAlike(other, other));
    }
  }
  assert.ok(areAlike(new URL('http://h:80/a.js?x'), Buffer.from('http://h/a.js')));
});

test('with the query, names with another one have another normal form', () => {
  const form = name => normalForm(name, { query: true });
  assert.equal(form('HTTP://H:80/a.js?x#y'), form('http://h/a.js?x'));
  assert.equal(form('/a.js'), form('file:///a.js#y'));
  for (const other of ['http://h/a.js', 'http://h/a.js?', 'http://h/a.js?z', 'http://h/a.js?x?', 'http://h/b.js?x']) {
    assert.notEqual(form(other), form('http://h/a.js?x'), other);
  }
  assert.notEqual(form('/a?b.js'), form('file:///a?b.js'));
});

test('the normal form of a URL is that of the URL Standard, without query and fragment', () => {
  const urls = ['HTTP://U:P@H:80/a/../b c.js?x#y', 'https://h', 'http://0x7f.1/\u00e9', 'http://[::1]:80/a?b',
    'file://h/a%20b?x', 'webpack:///./a.js'];
  for (const name of urls) {
    const url = new URL(name);
    url.search = url.hash = '';
    assert.equal(normalForm(name), url.href);
  }
  assert.equal(normalForm('file:///a%20b/%C3%A9.js?x'), fileURLToPath('file:///a%20b/%C3%A9.js'));
  assert.equal(normalForm('/a b/\u00e9.js'), '/a b/\u00e9.js');
  assert.equal(normalForm('no URL'), 'no URL');
  assert.deepEqual(normalForm('file:///%FF', { buffer: true }), Buffer.from('/\xff', 'latin1'));
  for (const name of ['file:///%FF', '\ud800', Buffer.from([0xff])]) {
    refuses('SMAP_NOT_UTF8', () => normalForm(name));
  }
});

// ---- what is passed

const of = {
  scriptLink: [given => scriptLink(given)],
  resolveLink: [given => resolveLink(given, 'a'), given => resolveLink('http://h/', given)],
  inlineMap: [given => inlineMap(given)],
  fileUrl: [given => fileUrl(given)],
  filePath: [given => filePath(given)],
  scriptUrl: [given => scriptUrl(given, 'a'), given => scriptUrl('http://h/', given)],
  scriptName: [given => scriptName(given, 'a'), given => scriptName('http://h/', given)],
  normalForm: [given => normalForm(given)],
  areAlike: [given => areAlike(given, 'a'), given => areAlike('a', given)],
};

test('what is neither a text nor a name is a TypeError', () => {
  const bad = [undefined, null, true, 0, 1n, Symbol('x'), {}, [], ['a'], () => 0, { toString: () => '/a' }];
  for (const [name, calls] of Object.entries(of)) {
    for (const call of calls) for (const one of bad) assert.throws(() => call(one), TypeError, name);
  }
  // The text of a script, a path and the name of a file are no URLs.
  for (const call of [scriptLink, fileUrl, name => scriptUrl('http://h/', name)]) {
    assert.throws(() => call(new URL('file:///a')), TypeError);
  }
});

test('the maps that a script may have, which only the package asks for', () => {
  const [UNSAID, NOTHING, INLINE, FILE, LEAVES] = [0, 1, 2, 3, 7];
  const next = (text, tried) => {
    const [kind, map] = native.scriptMap('/', 'out/a.js', text, tried);
    return [kind, map && map.toString()];
  };
  const rows = [['', UNSAID], ['f()', NOTHING], ['//# sourceMappingURL=data:,%7B%7D', INLINE, '{}'],
    ['//# sourceMappingURL=../b%20c.map?v=1#x', FILE, 'b c.map'], ['//# sourceMappingURL=http://h/a.map', LEAVES]];
  for (const [text, kind, ...named] of rows) {
    for (const [tried, map] of [...named, 'out/a.js.map', null, null].entries()) {
      assert.deepEqual(next(text, tried), [kind, map], text);
      assert.deepEqual(next(Buffer.from(text), tried), [kind, map], text);
    }
  }
});

test('a text is a string, or its bytes', () => {
  const bytes = Uint8Array.from(Buffer.from('data:;base64,e30'));
  const shared = new Uint8Array(new SharedArrayBuffer(bytes.length));
  shared.set(bytes);
  const inside = Buffer.concat([Buffer.from('xx'), bytes, Buffer.from('yy')]).subarray(2, -2);
  for (const given of [bytes, bytes.buffer, new DataView(bytes.buffer), shared, shared.buffer, inside]) {
    assert.equal(inlineMap(given).toString(), '{}');
  }
  for (const empty of ['', Buffer.alloc(0), new ArrayBuffer(0)]) {
    for (const call of [scriptLink, inlineMap, fileUrl, filePath]) assert.equal(call(empty), null);
    assert.deepEqual([normalForm(empty), scriptUrl(empty, empty), scriptName(empty, empty)], ['', '', null]);
    assert.equal(areAlike(empty, empty), true);
  }
  const taken = new Uint8Array(8);
  structuredClone(taken.buffer, { transfer: [taken.buffer] });
  for (const call of Object.values(of).flat()) {
    try {
      call(taken);
    } catch (error) {
      assert.ok(error instanceof TypeError || error.code === 'SMAP_NOT_URL', String(error));
    }
  }
});

// One of them is refused by the library, and the other behind it.
test('what is no UTF-8 is refused in the same words', () => {
  for (const call of [() => fileUrl('/\ud800'), () => normalForm('\ud800')]) {
    assert.throws(call, { name: 'SmapError', code: 'SMAP_NOT_UTF8', message: 'not UTF-8' });
  }
});
