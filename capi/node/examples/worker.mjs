// A worker of a page, which keeps maps off the page's own thread. It is bundled, or `smap/browser` is mapped to
// the file browser.mjs.
//
//     const worker = new Worker('worker.js', { type: 'module' });
//     worker.onmessage = ({ data }) => console.log(data.log ?? data.error);
//     worker.postMessage({ wasm: 'smap.wasm', script: 'https://h/out.js', map: 'https://h/out.js.map', log });
import { open } from 'smap/browser';

let library;

async function translated({ wasm, script, map, log }) {
  const { SourceMap } = await (library ??= open(new URL(wasm, self.location)));
  const bytes = await (await fetch(map)).arrayBuffer();
  const opened = new SourceMap(bytes, new URL(map, self.location));
  try {
    return opened.translate(log, script, { anywhere: true });
  } finally {
    opened.close();
  }
}

self.onmessage = ({ data }) => {
  translated(data).then(log => self.postMessage({ log }), error => self.postMessage({ error: error.message }));
};
