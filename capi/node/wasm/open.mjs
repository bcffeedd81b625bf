
async function moduleOf(from) {
  if (from instanceof WebAssembly.Module) return from;
  if (from instanceof ArrayBuffer || ArrayBuffer.isView(from)) return WebAssembly.compile(from);
  const response = await fetch(from);
  if (!response.ok) throw new Error(`${response.url}: ${response.status} ${response.statusText}`);
  return WebAssembly.compile(await response.arrayBuffer());
}

/** The library, with a memory of its own: browser.d.mts says more. */
export async function open(from = new URL('./smap.wasm', import.meta.url)) {
  const instance = await WebAssembly.instantiate(await moduleOf(from));
  const loaded = {};
  const load = name => {
    if (!loaded[name]) {
      const module = { exports: {} };
      files[name](module, load);
      loaded[name] = module.exports;
    }
    return loaded[name];
  };
  loaded['./native.js'] = load('./calls.js').callsOf(instance.exports, load('./host.js'));
  const library = load('./index.js');
  delete library.SourceMap.fromFile;
  return library;
}
