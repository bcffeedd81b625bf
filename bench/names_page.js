'use strict';
// Runs scripts for names.py and keeps the stacks of their calls, in a page and in Node:
//
//     node names_page.js FILE GLOBAL
//
// prints as JSON what a page has in `stacks`, once it has `finished`, after `runScript(FILE, GLOBAL)`: for each
// stack a key, which is the same for another build of the script, and its text. The application of names_app.py
// calls `runScenarios` and `capture`. Of a library, the global GLOBAL, all functions are called, with arguments that
// keep a stack when they are looked at or called; a parser calls back at each token.
(root => {
  const MOST = 3; // stacks of one call
  const TEXT = 'class A { get b() { return [1, `c${d => d?.e}`, /f/g]; } async *h({ i = 2, ...j }) { '
    + 'for (;;) try { await k; } catch { break; } } }\n'
    + 'label: switch (m) { case 1: var n = (o, p), q = new R(); }';
  const YAML = 'a: &b [1, {c: d}, "e"]\nf: |\n  g\nh:\n  - *b\n  - ? i\n    : j\n';
  const stacks = [];
  let scenario = 'before', counts = new Map();
  Error.stackTraceLimit = 60;
  root.stacks = stacks;
  root.nothing = undefined;

  function keep(id, error) {
    const count = (counts.get(id) || 0) + 1;
    counts.set(id, count);
    stacks.push([`${scenario} ${id} ${count}`, String(error.stack)]);
    return count;
  }

  function begin(name) {
    scenario = name;
    counts = new Map();
  }

  root.capture = id => {
    keep(id, new Error('x'));
    return id % 7 + 1;
  };

  root.runScenarios = async list => {
    for (let i = 0; i < list.length; i++) {
      begin(i);
      try {
        await list[i]();
      } catch (error) {
        keep('thrown', error);
      }
    }
    root.finished = true;
  };

  function attempt(name, call) {
    begin(name);
    try {
      return call();
    } catch (error) {
      if (error instanceof Error) keep('thrown', error);
    }
  }

  // What keeps a stack at each look at it, up to some looks; then it throws.
  function probe() {
    const seen = () => {
      if (keep('seen', new Error('x')) >= MOST) throw 'enough';
    };
    const target = { 0: 'b', 1: 'a', a: 1, toString: () => (seen(), 'a') };
    return new Proxy(target, {
      get: (of, key) => (seen(), key === 'length' ? 2 : of[key]),
      has: (of, key) => (seen(), key in of),
      ownKeys: of => (seen(), Reflect.ownKeys(of)),
    });
  }

  function shapes() {
    const call = a => {
      if (keep('called', new Error('x')) >= MOST) throw 'enough';
      return a;
    };
    return [
      [[3, 1, 2], call], [{ a: 1, b: 2 }, call], [call, [3, 1, 2]], [call, 2], [probe(), call],
      [probe(), 'a', probe()], [[probe(), probe()], call], [[1, 2], [2, 3], call], ['a-b', probe()],
      [{ a: probe() }, { a: probe() }, call], [2, call], [call, probe()],
    ];
  }

  function callAll(library, prefix) {
    for (const name of Object.keys(library).sort()) {
      const { [name]: method } = library;
      if (typeof method !== 'function' || /^(runInContext|mixin|noConflict|defer|delay)$/.test(name)) continue;
      for (let i = 0; i < shapes().length; i++) {
        const key = `${prefix}.${name} ${i}`;
        const made = attempt(key, () => method.apply(library, shapes()[i]));
        if (typeof made === 'function') attempt(`${key} made`, () => made.apply(library, shapes()[i]));
      }
    }
  }

  const PARSERS = {
    acorn: (library, call) => library.parse(TEXT, { ecmaVersion: 2022, onToken: call }),
    jsyaml: (library, call) => library.load(YAML, { listener: call }),
  };

  root.callLibrary = (library, name) => {
    const call = () => void keep('token', new Error('x'));
    root.setTimeout = () => 0;
    if (PARSERS[name]) attempt(name, () => PARSERS[name](library, call));
    else callAll(library, name);
    root.finished = true;
  };

  root.runScript = (file, name) => {
    const script = root.document.createElement('script');
    if (/\/main\.js$/.test(file)) script.type = 'module';
    if (name) script.onload = () => root.callLibrary(root[name], name);
    script.src = file;
    root.document.head.append(script);
  };

  if (typeof document !== 'undefined') return;
  const [file, name] = process.argv.slice(2);
  process.on('exit', () => require('fs').writeSync(1, JSON.stringify(stacks)));
  if (/\/main\.js$/.test(file)) import(file);
  else if (name) root.callLibrary(require(file), name);
  else require(file);
})(globalThis);
