// A script for babel: classes with private parts, generators, optional chaining, and names outside the first plane.
'use strict';

class Events {
  #handlers = new Map();
  static #instances = 0;
  static all = [];
  static { Events.all.push(Events.#instances) }
  𝑥 = 1; 'quoted name' = null; [`computed${1 + 1}`] = () => this.#handlers;

  constructor(...names) {
    Events.#instances++;
    for (const [i, name] of names.entries()) this.on(name, (event) => this.log?.(`${i}: ${event?.detail ?? '∅'} 💥`));
  }

  on(name, handler, { once = false, ...options } = {}) {
    const list = this.#handlers.get(name) ?? [];
    list.push({ handler, once, options });
    this.#handlers.set(name, list);
    return () => void list.splice(list.findIndex(({ handler: it }) => it === handler) >>> 0, 1);
  }

  async emit(name, detail) {
    const handlers = [...(this.#handlers.get(name) || [])];
    let done = 0n;
    for await (const { handler, once } of handlers) {
      try { await handler.call(this, { name, detail }); done += 1n } catch { continue } finally {
        if (once) this.#drop(name, handler);
      }
    }
    return done ** 2n;
  }

  #drop(name, handler) { this.#handlers.get(name)?.filter?.((entry) => entry.handler !== handler) }
  get #size() { return this.#handlers.size }
  static isEvents(value) { return #handlers in value && value.#size >= 0 }
}

function* zipped(...lists) {
  const most = Math.max(0, ...lists.map(({ length }) => length));
  for (let i = 0; i < most; i++) {
    const row = lists.map((list) => list[i]);
    if (row.every((cell) => cell === undefined)) return;
    yield row;
  }
}

var 𝒢 = { 𝛼: 1_000, β: 0xff, 'γ 😀': .5e+3, get δ() { return this.𝛼 }, async *ε() { yield* zipped([1], '2') } };
label: for (let { 𝛼 = 0, ...others } = 𝒢, i = 0; i < 2; i++) { if (i) continue label; others.i ||= 𝛼; others.j &&= i; others.k ??= () => i }
