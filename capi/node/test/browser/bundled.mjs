// Bundled by esbuild: the library of bytes that the page has, and a worker that translates a log.
import { open } from 'smap/browser';
import { checks } from './checks.mjs';

function ofWorker(log) {
  const worker = new Worker('bundled/examples/worker.js', { type: 'module' });
  const wasm = new URL('smap/smap.wasm', location).href, map = new URL('trace.map', location).href;
  return new Promise((resolve, reject) => {
    worker.onerror = event => reject(new Error(event.message));
    worker.onmessage = ({ data }) => resolve(data);
    worker.postMessage({ wasm, script: 'http://h/u', map, log });
  });
}

try {
  const bytes = await (await fetch('smap/smap.wasm')).arrayBuffer();
  const answer = await checks(await open(bytes), 'trace.map');
  window.answer = { ...answer, worker: await ofWorker('2026 x http://h/u:1:2\n') };
} catch (error) {
  window.answer = { error: String(error.stack ?? error) };
}
