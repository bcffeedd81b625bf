// What the types for browsers have to allow, and what they have to refuse.
import { open, type Library, type Mapping, type SourceMap } from './browser.mjs';

const library: Library = await open();
await open(new URL('http://h/smap.wasm'));
await open(new Uint8Array(8));
const map: SourceMap = new library.SourceMap('{}', 'http://h/', { limits: { urlBytes: 1 } });
const found: Mapping | null = map.lookup(0, 0);
const bytes: Uint8Array = map.canonical({ buffer: true });
const scripts = new library.Scripts({ 'http://h/out.js': map });
const log: string = scripts.translate('x', { anywhere: true });
const link: string | null = library.scriptLink(log);
console.log(found, bytes, link, library.version);

// @ts-expect-error: a browser opens no files
library.SourceMap.fromFile('a');
// @ts-expect-error: a memory is of one thread
map.share();
// @ts-expect-error: the classes are members of what `open` gives
import { Scripts } from './browser.mjs'; console.log(new Scripts());
