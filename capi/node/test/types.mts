// What an ECMAScript module has of the types: names, and no default export, as when it runs.
import { SourceMap, version } from 'smap';
import { TraceMap } from 'smap/trace-mapping';
import { GenMapping } from 'smap/gen-mapping';
import { SourceMapConsumer, SourceMapGenerator, SourceNode } from 'smap/source-map';
import { install } from 'smap/support';
import remapping, { type SourceMapLoader } from 'smap/remapping';
import 'smap/register';

const bytes: Buffer = new SourceMap('{}', 'http://h/').canonical({ buffer: true });
console.log(bytes, version, TraceMap, GenMapping, SourceMapConsumer, SourceMapGenerator, SourceNode, install);

const load: SourceMapLoader = (file, { depth }) => (depth > 1 ? null : { file });
const mappings: unknown = remapping('{}', load, { decodedMappings: true }).mappings;
const composed: SourceMap = new SourceMap('{}', 'http://h/').compose({}, { limits: { items: 1 } }).thinned().used();
console.log(mappings, composed);

// @ts-expect-error: no default export
import smap from 'smap';
// @ts-expect-error: no default export
import traceMapping from 'smap/trace-mapping';
// @ts-expect-error: no default export
import genMapping from 'smap/gen-mapping';
// @ts-expect-error: no default export
import sourceMap from 'smap/source-map';
// @ts-expect-error: no default export
import support from 'smap/support';
console.log(smap, traceMapping, genMapping, sourceMap, support);
