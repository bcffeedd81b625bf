// What a page and a worker ask the library, and what it has to answer.
const BASE = 'http://h/m/out.js.map';
const TEXT = '{"version":3,"sources":["\u00e4.js"],"names":["\u20ac"],"mappings":"AAUE,IAEAA"}';

function codeOf(call) {
  try {
    call();
    return null;
  } catch (error) {
    return error.code;
  }
}

export async function checks(library, mapFile) {
  const { SourceMap, Builder, Scripts, frame } = library;
  const { scriptLink, resolveLink, inlineMap, fileUrl, filePath, areAlike } = library;
  const map = new SourceMap(TEXT, BASE);
  const { source, sourceLine, sourceColumn, name } = map.lookup(0, 7);
  const large = JSON.stringify({ version: 3, sources: ['a'], mappings: 'AAAA' + ',CAAC'.repeat(200000) });
  const many = new SourceMap(new TextEncoder().encode(large), BASE);
  const table = many.table();
  const bytes = await (await fetch(mapFile)).arrayBuffer();
  const scripts = new Scripts({ 'http://h/u': new SourceMap(bytes, 'http://h/u.map') });
  const told = scripts.translateAndCount('Error\n@http://h/u:1:2\n\ud800');
  const later = await SourceMap.open(bytes, BASE);
  const builder = new Builder(BASE);
  builder.add(0, 4, builder.source('a'), 1, 2);
  const closed = new SourceMap(TEXT, BASE);
  closed.close();
  return {
    found: [source, sourceLine, sourceColumn, name],
    listed: map.names,
    far: [many.lookup(0, 199999).sourceColumn, table.length, table.find(0, 150000), many.counts.mappings],
    canonical: map.canonical(),
    bytes: new TextDecoder().decode(map.canonical({ buffer: true })) === map.canonical(),
    log: [told.log.split('\n')[1], told.translated, told.log.at(-1) === '\ud800'],
    later: later.counts.mappings > 0,
    built: builder.finish().canonicalMappings(),
    links: [scriptLink('f();\n//# sourceMappingURL=a.map'), resolveLink('http://h/a/b.js', 'c.map'),
      new TextDecoder().decode(inlineMap('data:application/json;base64,e30=')), fileUrl('C:\\a.js'),
      filePath('file:///a%20b.js'), areAlike('HTTP://h:80/a', 'http://h/a')],
    frame: frame('    at f (http://h/\u00e4.js:1:2)'),
    refused: codeOf(() => new SourceMap('{', BASE)),
    closed: codeOf(() => closed.lookup(0, 0)),
    lacking: SourceMap.fromFile === undefined,
  };
}
