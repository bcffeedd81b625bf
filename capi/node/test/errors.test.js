'use strict';
const assert = require('node:assert');
const fs = require('node:fs');
const path = require('node:path');
const { test } = require('node:test');
const { SourceMap, SmapError } = require('smap');

const BASE = 'http://h/m/out.js.map';
const flat = fields => ({ version: 3, sources: ['a'], names: ['n'], mappings: '', ...fields });
const at = (line, column, map) => ({ offset: { line, column }, map });
const index = (...sections) => ({ version: 3, sections });
const nested = (depth, map) => (depth ? nested(depth - 1, index(at(0, 0, map))) : map);

// One map for each kind of error, with the line and segment of its mappings and the number where it has them;
// docs/FORMAT.md says what each kind is.
const KINDS = {
  Prefix: [")]}'"],
  Json: ['{'],
  NotObject: ['[]'],
  Version: [flat({ version: '3' })],
  File: [flat({ file: 3 })],
  Both: [flat({ sections: [] })],
  SourceRoot: [flat({ sourceRoot: 3 })],
  Sources: [flat({ sources: [3] })],
  SourcesContent: [flat({ sourcesContent: [3] })],
  Names: [flat({ names: [3] })],
  IgnoreList: [flat({ ignoreList: [1] })],
  Mappings: [flat({ mappings: null })],
  Sections: [index() && { version: 3, sections: {} }],
  Offset: [index(at(-1, 0, flat({})))],
  SectionMap: [index(at(0, 0, 3))],
  Nested: [nested(9, flat({}))],
  Order: [index(at(1, 0, flat({})), at(0, 0, flat({})))],
  Overlap: [index(at(0, 0, flat({ mappings: ';A' })), at(0, 5, flat({})))],
  TooMany: [flat({ names: ['n', 'm'] }), null, null, 0, { items: 1 }],
  SourceUrl: [flat({ sources: ['a', 'http://['] }), null, null, 1],
  Empty: [flat({ mappings: 'A,' }), 0, 1, 0],
  Unfinished: [flat({ mappings: 'A;g' }), 1, 0, 1],
  Character: [flat({ mappings: 'AA!A' }), 0, 0, 3],
  TooLarge: [flat({ mappings: 'gggggggggD' }), 0, 0, 1],
  NegativeZero: [flat({ mappings: 'AAAB' }), 0, 0, 4],
  Count: [flat({ mappings: 'A,AA' }), 0, 1, 2],
  GeneratedLine: [flat({ mappings: ';;A' }), 2, 0, 0, { lines: 2 }],
  Column: [flat({ mappings: 'D' }), 0, 0, 0],
  Source: [flat({ mappings: 'A;A,ACAA' }), 1, 1, 0],
  OriginalLine: [flat({ mappings: 'AADA' }), 0, 0, 0],
  OriginalColumn: [flat({ mappings: 'AAAD' }), 0, 0, 0],
  Name: [flat({ mappings: 'AAAAC' }), 0, 0, 0],
};

for (const [kind, [map, line = null, segment = null, number = 0, limits]] of Object.entries(KINDS)) {
  test(`a map with the error ${kind} is refused`, () => {
    assert.throws(() => new SourceMap(map, BASE, { limits }), error => {
      assert.ok(error instanceof SmapError && error instanceof Error);
      const has = [error.name, error.code, error.kind, error.line, error.segment, error.number];
      assert.deepEqual(has, ['SmapError', 'SMAP_REFUSED', kind, line, segment, number]);
      assert.ok(error.message.length > 3 && Array.isArray(error.section), error.message);
      return true;
    });
  });
}

test('an error in a section says which', () => {
  const bad = index(at(0, 0, flat({})), at(1, 0, index(at(0, 0, flat({ mappings: '!' })))));
  assert.throws(() => new SourceMap(bad, BASE), { kind: 'Character', line: 0, segment: 0, section: [1, 0] });
  assert.throws(() => new SourceMap('{', BASE), { kind: 'Json', section: [] });
});

test('the other codes', () => {
  const text = JSON.stringify(flat({}));
  const code = (code, call) => assert.throws(call, error => {
    const { kind, line, number, section } = error;
    assert.deepEqual([error.code, kind, line, number, section], [code, null, null, null, null]);
    return error instanceof SmapError && error.message !== '';
  });
  for (const url of ['no url', '', '/a', '\ud800', 'http://h/\udc00']) {
    code('SMAP_NOT_URL', () => new SourceMap(text, url));
  }
  code('SMAP_LIMITS', () => new SourceMap(text, BASE, { limits: { items: 2 ** 31 } }));
  code('SMAP_LIMITS', () => new SourceMap(text, BASE, { limits: { lines: 2 ** 24 + 1 } }));
  code('SMAP_URL_BYTES', () => new SourceMap(text, BASE, { limits: { urlBytes: 0 } }));
  code('SMAP_RANGE', () => new SourceMap(text, BASE).content(1));
  code('SMAP_CLOSED', () => SourceMap.take(2 ** 40));
});

test('half a surrogate pair is no JSON, and is not mended', () => {
  for (const given of ['\ud800', flat({ file: '\udc00' }), `{"version":3,"mappings":"","file":"\udfff"}`]) {
    assert.throws(() => new SourceMap(given, BASE), { code: 'SMAP_REFUSED', kind: 'Json' });
  }
  for (const byte of [0xff, 0xc0, 0x80]) {
    const bytes = Buffer.from([...Buffer.from('{"version":3,"mappings":"","file":"'), byte, 0x22, 0x7d]);
    assert.throws(() => new SourceMap(bytes, BASE), { code: 'SMAP_REFUSED', kind: 'Json' });
  }
});

// ---- the tables of names, where the repository is around

const header = path.join(__dirname, '..', '..', 'smap.h');
const is = { skip: fs.existsSync(header) ? false : 'no smap.h beside the package' };
const kindsOf = types => /type SmapErrorKind =([^;]*);/.exec(types)[1].match(/\w+/g);
const words = name => name.toLowerCase().replace(/(^|_)([a-z])/g, (_, __, letter) => letter.toUpperCase());

test('the names of kinds and codes are those of the header', is, () => {
  const text = fs.readFileSync(header, 'utf8');
  const source = fs.readFileSync(path.join(__dirname, '..', 'native', 'library.h'), 'utf8');
  const types = fs.readFileSync(path.join(__dirname, '..', 'index.d.ts'), 'utf8');
  const kinds = [...text.matchAll(/^ {4}SMAP_FAULT_([A-Z_]+) = \d+/gm)].map(match => match[1]);
  assert.ok(kinds.includes('PREFIX'));
  assert.deepEqual(kindsOf(types), kinds.map(words));
  const codes = [...text.matchAll(/^ {4}(SMAP_[A-Z0-9_]+) = \d+,? +\/\*/gm)].map(match => match[1])
    .filter(name => !/FAULT|KEPT|HIDE|ANYWHERE|IGNORE|NAMED|FILE/.test(name));
  assert.deepEqual([...source.matchAll(/\[(SMAP_(?!FAULT)\w+)\] = "\1"/g)].map(match => match[1]), codes);
  assert.equal(codes.length, 12);
  const given = /type SmapErrorCode =([^;]*);/.exec(types)[1].match(/SMAP_\w+/g);
  const thrown = codes.filter(code => !['SMAP_OK', 'SMAP_NONE'].includes(code));
  assert.deepEqual(given, thrown);
  const page = fs.readFileSync(path.join(__dirname, '..', 'README.md'), 'utf8');
  assert.deepEqual(/^`code` is (.*), and `kind`/m.exec(page)[1].match(/SMAP_\w+/g), thrown);
});

test('each kind has a map above, but one that no URL parser gives cause for', is, () => {
  const types = fs.readFileSync(path.join(__dirname, '..', 'index.d.ts'), 'utf8');
  assert.deepEqual(Object.keys(KINDS), kindsOf(types).filter(kind => kind !== 'UnstableUrl'));
});
