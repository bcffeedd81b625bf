// What the types have to allow, and what they have to refuse.
import {
  SourceMap, Builder, Scripts, SmapError, translate, frame, respell, spell,
  scriptLink, resolveLink, inlineMap, fileUrl, filePath, scriptUrl, scriptName, normalForm, areAlike,
  version,
} from 'smap';
import { TraceMap, originalPositionFor, LEAST_UPPER_BOUND, type Segment } from 'smap/trace-mapping';
import {
  GenMapping, addMapping, addSegment, fromMap, setIgnore, toDecodedMap, toEncodedMap,
} from 'smap/gen-mapping';
import { SourceMapConsumer, BasicSourceMapConsumer, SourceMapGenerator, SourceNode } from 'smap/source-map';
import { install, type Options } from 'smap/support';
import 'smap/register';

const map: SourceMap = new SourceMap('{}', new URL('http://h/'), { limits: { items: 3 } });
const found = map.lookup(0, Infinity);
const source: string | null | undefined = found?.source;
const line: number | null = found!.sourceLine;
const next: number = found!.index + 1;
const written: string[] = map.writtenSources.map(({ source, root }) => (root ?? '') + (source ?? next));
for (const mapping of map) console.log(mapping.column + 1, mapping.isIgnored, source, line, written);
const text: string = map.canonical({ relative: true });
const log: string = map.translate('x', 'http://h/', { hideIgnored: true, anywhere: true });
const later: Promise<SourceMap> = SourceMap.open({ version: 3 }, 'http://h/');
const shared: number = map.share();
map.close();
const scripts = new Scripts({ a: map }).add(new URL('http://h/'), SourceMap.take(shared));
const { lines }: { lines: number } = scripts.translateAndCount(log);
const told: string = translate(text, new Map([['a', map]]));
const parts: { url: string; line: number; column: number } | null = frame(told);
const short: string = respell(version) + spell(new Uint32Array(6));
const columns: Int32Array = map.table().column;
const builder = new Builder(new URL('http://h/'), { limits: { items: 3 } });
builder.setFile(null);
const at: number = builder.source('a', { content: 'x', ignored: true });
builder.source(null, { content: null });
builder.add(0, 0);
builder.add(0, 0, at, 0, 0, builder.name('n'));
builder.addAll(new Uint32Array(6));
builder.addAll([0, 0, at, 0, 0, 0]);
const built: SourceMap = builder.finish();
const link: string | null = scriptLink('f()', { css: true });
const inline: Uint8Array | null = inlineMap(resolveLink(new URL('http://h/a.js'), link ?? 'a.map'));
const file: string | null = filePath(fileUrl('/a.js') ?? new URL('file:///a.js'));
const below: string | null = scriptName('/s/', scriptUrl('/s/', new Uint8Array(3), { buffer: true }));
const form: Uint8Array = normalForm('/a.js', { buffer: true });
const alike: boolean = areAlike(form, normalForm('/a.js'));

function handle(error: unknown): number | null {
  if (!(error instanceof SmapError)) return null;
  return error.code === 'SMAP_REFUSED' && error.kind === 'Overlap' ? error.number : error.line;
}

const segment: Segment = [0, 0, 0, 0, 1];
const original = originalPositionFor(new TraceMap({}, null), { line: 1, column: 0, bias: LEAST_UPPER_BOUND });
const consumer: SourceMapConsumer = new BasicSourceMapConsumer('{}');
const options: Options = { retrieveSourceMap: script => ({ url: script, map: '{}' }), hookRequire: true };
install(options);
const made: GenMapping = fromMap(toEncodedMap(new GenMapping({ file: 'f.js' })));
addSegment(made, 0, 0, 'a.js', 0, 0, 'n', 'text');
addMapping(made, { generated: { line: 1, column: 1 } });
setIgnore(made, 'a.js');
const column: number = toDecodedMap(made).mappings[0][0][0];
const generator: SourceMapGenerator = SourceMapGenerator.fromSourceMap(consumer);
generator.addMapping({ generated: { line: 1, column }, source: 'a.js', original: { line: 1, column: 0 } });
generator.applySourceMap(SourceMapConsumer.fromSourceMap(generator), 'a.js');
const node: SourceNode = new SourceNode(1, 0, 'a.js', ['f', new SourceNode()]).add('()');
console.log(node.toStringWithSourceMap().map.toJSON().mappings);
console.log(later, lines, parts, short, columns, handle, segment, original.name, consumer.sources);
console.log(inline, file, below, alike, built);

// @ts-expect-error: a program that lacks Symbol.dispose doesn't get it from here
map[Symbol.dispose]();
// @ts-expect-error: a column is missing
map.lookup(0);
// @ts-expect-error: a map that is built has no bound on the bytes of URLs
new Builder('http://h/', { limits: { urlBytes: 1 } });
// @ts-expect-error: no such option
map.translate('x', 'y', { hide: true });
// @ts-expect-error: the text of a script is no URL
scriptLink(new URL('http://h/a.js'));
// @ts-expect-error: there may be no name
const name: string = scriptName('/s/', '/s/a.js');
// @ts-expect-error: no such kind
if (handle instanceof SmapError && handle.kind === 'Nothing') console.log(map);
// @ts-expect-error: a map's counts can't be written
map.counts = null;
// @ts-expect-error: a source without its position
addMapping(made, { generated: { line: 1, column: 0 }, source: 'a.js' });
// @ts-expect-error: an original without its source
generator.addMapping({ generated: { line: 1, column: 0 }, original: { line: 1, column: 0 } });
// @ts-expect-error: a bias is -1 or 1
originalPositionFor(new TraceMap('{}'), { line: 1, column: 0, bias: 2 });
