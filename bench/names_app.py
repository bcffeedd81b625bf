"""Writes an application of many small functions for names.py, as TypeScript and as JavaScript.

A function is made by one of the templates below, and calls others that were made before it, down to one that
calls `capture`, which keeps its stack, or throws. Where a template has a type between ⟨ and ⟩, the JavaScript
has blanks, so that a position is the same in both. `@f`, `@g` and `@h` are fresh names, `@C` and `@D` fresh names
of classes, `@in` is a call of an earlier function, and `@wait` such a call that may be of an asynchronous one.
Behind `--` is a call of what the template has made; one that begins with `await` is asynchronous.
"""

import itertools
import random
import re

VERBS = """
add apply build check collect count create draw enter filter find format group join keep load merge open pack
parse pick plan print query read resolve save send show sort split store sum track update visit wrap
""".split()
NOUNS = """
account address basket batch bill branch buyer card cart claim coupon credit debit delivery discount event fee gift
goods group invoice item label ledger limit line list market member month note number offer order page parcel
payment period price product profile quote rate record refund region rule sale seller shelf shop stock table tariff
tax total unit user value voucher week
""".split()

TEMPLATES = r"""
function @f(x⟨: number⟩)⟨: number⟩ {
  return x + @in;
}
-- @f(1)

function @f(x⟨: number⟩, y = @in) {
  return x * y;
}
-- @f(2)

const @f = (x⟨: number⟩)⟨: number⟩ => x - @in;
-- @f(3)

const @f = (x⟨: number⟩) => {
  const y = @in;
  if (y > 1e9) return @in;
  return x + y;
};
-- @f(4)

const @f = function (x⟨: number⟩) {
  return x + @in + @in;
};
-- @f(5)

const @f = function @g(x⟨: number⟩)⟨: number⟩ {
  return x > 2 ? @g(x - 1) : @in;
};
-- @f(4)

let @f⟨: (x: number) => number⟩;
@f = x => x + @in;
-- @f(5)

class @C {
  ⟨private⟩ rate = 2;
  constructor(x⟨: number⟩) {
    this.rate = x + @in;
  }
  @f(x⟨: number⟩)⟨: number⟩ {
    return this.rate * @in;
  }
}
-- new @C(3).@f(2)

class @C⟨<T>⟩ {
  static @f(x⟨?: number⟩) { return @in; }
  static async @g(x⟨: number⟩) { return x + @in; }
  get @h()⟨: number⟩ { return @in; }
  set @h(x⟨: number⟩) { @in; }
}
-- @C.@f(1) + new @C().@h + (new @C().@h = 3)
-- await @C.@g(6)

class @C {
  #@f(x⟨: number⟩) { return x + @in; }
  get #@g() { return this.#@f(@in); }
  @h(x⟨: number⟩) { return this.#@f(x) + this.#@g; }
}
-- new @C().@h(4)

class @C {
  @f = (x⟨: number⟩)⟨: number⟩ => x + @in;
  @g = function (x⟨: number⟩) { return @in; };
  'quoted'() { return @in; }
  ["@h"](x⟨: number⟩) { return x + @in; }
}
-- new @C().@f(1) + new @C().@g(2) + new @C().quoted() + new @C().@h(5)

⟨abstract⟩ class @C {
  ⟨abstract @g(): number;⟩
  ⟨protected⟩ @f(x⟨: number⟩)⟨: number⟩ { return x + this.@g(); }
}
class @D extends @C {
  @g() { return @in; }
  @f(x⟨: number⟩) { return super.@f(x) + 1; }
}
-- new @D().@f(2)

class @C {
  constructor(⟨readonly ⟩x⟨: number⟩) { this.total = x + @in; }
}
const @D = class extends @C {
  constructor(x⟨: number⟩) { super(x); }
  *@f() { yield @in; yield @in; }
};
-- [...new @D(2).@f()].length

class @C extends Error {
  constructor(text⟨: string⟩) { super(text); this.name = '@C'; }
}
function @f(x⟨: number⟩)⟨: never⟩ {
  throw new @C(`of ${x}`);
}
-- @f(7)

function @f(x⟨: any⟩) {
  if (!x.ready) throw new RangeError('not ready');
  return @in;
}
-- @f({})

function @f(x⟨: any⟩) {
  return nothing.total(x);
}
-- @f(3)

const @f = {
  @g(x⟨: number⟩)⟨: number⟩ { return x + @in; },
  @h: (x⟨: number⟩) => x + @in,
  size: function (x⟨: number⟩) { return @in; },
  get first() { return @in; },
  async later(x⟨: number⟩) { return x + @in; },
};
-- @f.@g(2) + @f.@h(3) + @f.size(1) + @f.first
-- await @f.later(2)

const @f⟨: any⟩ = {};
@f.@g = function (x⟨: number⟩) { return x + @in; };
@f.@h = (x⟨: number⟩) => @in;
-- @f.@g(1) + @f.@h(2)

function @C(x⟨: number⟩) {
  this.x = x + @in;
}
@C.prototype.@f = function (x⟨: number⟩) {
  return this.x + @in;
};
-- new (@C⟨ as any⟩)(2).@f(4)

function @f(x⟨: number⟩)⟨: number⟩ {
  function @g(y⟨: number⟩) { return y + @in; }
  const @h = (z⟨: number⟩) => @g(z) + @in;
  return @h(x) * 2;
}
-- @f(9)

function @f(list⟨: number[]⟩)⟨: number⟩ {
  return list.map(x => x + @in).reduce((a, b) => a + b, 0);
}
-- @f([1, 2])

function @f(list⟨: number[]⟩) {
  list.forEach(function @g(x) { @in; });
  return list.filter(x => { return @in > x; }).length;
}
-- @f([5, 3])

const @f = (list⟨: number[]⟩) => [...list].sort((a, b) => a - b + 0 * @in)[0];
-- @f([7, 2])

function @f⟨<T>⟩(call⟨: (x: T) => number⟩, x⟨: T⟩) { return call(x); }
function @g(x⟨: number⟩) { return x + @in; }
-- @f(@g, 3) + @f(x => x + 1, 2)

const @f = (a⟨: number⟩) => (b⟨: number⟩) => (c⟨: number⟩) => a + b + c + @in;
-- @f(1)(2)(3)

const @f = (call⟨: any⟩) => function @g(x⟨: number⟩) { return call(x) + 1; };
const @h = @f((x⟨: number⟩) => x + @in);
-- @h(2)

function* @f(x⟨: number⟩)⟨: Generator<number>⟩ {
  try { yield x + @in; } finally { @in; }
}
function @g() { let sum = 0; for (const x of @f(2)) sum += x; return sum; }
-- @g()

async function @f(x⟨: number⟩)⟨: Promise<number>⟩ {
  const y = await @wait;
  return x + y + @in;
}
-- await @f(2)

const @f = async (x⟨: number⟩) => {
  await null;
  return x + await @wait;
};
-- await @f(3)

class @C {
  async @f(x⟨: number⟩)⟨: Promise<number>⟩ {
    await Promise.resolve(x);
    return this.@g(x) + await @wait;
  }
  @g(x⟨: number⟩) { return x + @in; }
}
-- await new @C().@f(4)

async function @f(list⟨: number[]⟩) {
  for await (const x of list) @in;
  return (await Promise.all(list.map(async x => x + await @wait))).length;
}
-- await @f([1, 2])

async function @f(x⟨: number⟩) {
  try { return await @wait; } catch (error) { @in; throw error; } finally { @in; }
}
-- await @f(1)

function @f(x⟨: number⟩) {
  return x <= 0 ? @in : @g(x - 1);
}
function @g(x⟨: number⟩)⟨: number⟩ {
  return @f(x);
}
-- @f(3)

function @f(x⟨: any⟩) { return `${x} of ${@in} {`.length; }
const @g = { toString() { return '' + @in; }, valueOf() { return @in; } };
-- @f(@g) + (@g⟨ as any⟩) * 2

const @f = new Proxy({}⟨ as any⟩, { get(target, key) { return @in; } });
-- @f.price

function @f(x⟨: number⟩, ...rest⟨: number[]⟩) { return @in + rest.length; }
-- @f.call(null, 1, 2) + @f.apply(null, [1, 2]) + @f.bind(null, 3)(4)

const { @f = (x⟨: number⟩) => x + @in } = {}⟨ as any⟩;
-- @f(6)

const @f = (() => { let kept = 1; return (x⟨: number⟩) => kept += x + @in; })();
-- @f(6)

function @f(x⟨: number⟩)⟨: number⟩ { const y = x / 2 / @in; return /[/"'`}]\/{/.test('' + y) ? @in : y; }
const @g = (x⟨: number⟩) => @f(x), @h = (x⟨: number⟩) => @g(x) + @in;
-- @h(8)

function @f(x⟨: number⟩) {
  switch (x) {
    case 1: { return @in; }
    default: again: for (;;) { if (x) break again; }
  }
  return (x && @in, x || @in);
}
-- @f(1) + @f(2)

function @f(x⟨: number⟩) { return @in } function @g(x⟨: number⟩) { return @f(x) + @in } const @h = () => @g(1)
-- @h()

const @f = JSON.stringify({ x: 1, toJSON() { return @in; } });
function @g(x⟨: number⟩) { return JSON.parse('[1]', (key, value) => @in)?.length ?? @in; }
-- @g(1)

class @C {
  static #@g = 1;
  static @f() { return @C.#@g + @in; }
  @h(x⟨: number⟩) { const call = () => this.own(x); return call(); }
  own = x => x + @in;
}
-- @C.@f() + new @C().@h(2)

var @f = function () { return @in; }, @g = { deep: { @h: function () { return @in; } } };
-- @f() + @g.deep.@h()

function @f(x⟨: number⟩)⟨: string | { a: number }⟩ { return '' + @in; }
const @g = (x⟨: unknown⟩)⟨: x is number⟩ => !!@in;
-- @f(1).length + +@g(2)

const @f = Object.assign((x⟨: number⟩) => x + @in, { @g: (x⟨: number⟩) => x + @in });
-- @f(2) + @f.@g(3)
"""


class Unit:
    """What one template makes: its module, names, calls of it, how deep they go, whether they throw, and whether
    it makes calls when it is loaded, which must not throw."""

    def __init__(self, module, template):
        self.module, self.names, self.calls, self.depth = module, [], [], 1
        self.throws = "throw new" in template or "nothing." in template
        self.calls_at_load = "JSON.stringify" in template


class App:
    """The modules' texts, with ⟨types⟩, by their names."""

    DEEPEST = 7

    def __init__(self, seed, rounds, modules=12):
        self.random = random.Random(seed)
        self.words = [f"{verb}{noun.title()}" for verb, noun in itertools.product(VERBS, NOUNS)]
        self.random.shuffle(self.words)
        self.classes = [f"{a.title()}{b.title()}" for a, b in itertools.permutations(NOUNS, 2)]
        self.random.shuffle(self.classes)
        self.units, self.count, self.uses = [], 0, set()
        templates = [text.strip() for text in TEMPLATES.strip().split("\n\n")] * rounds
        self.random.shuffle(templates)
        size = -(-len(templates) // modules)
        self.texts = {}
        for i in range(modules):
            self.module(self.words.pop(), templates[i * size : (i + 1) * size])
        self.texts["main"] = self.main()

    def module(self, name, templates):
        """Makes a module, with what its templates make, all exported."""
        self.uses, made, texts = set(), [], []
        for template in templates:
            texts.append(self.unit(name, template))
            made += self.units[-1].names
        lines = [*self.imports(name), *texts, f"export {{ {', '.join(made)} }};"]
        self.texts[name] = "\n".join(["// @ts-nocheck", *lines, ""])

    def imports(self, name):
        """What a module imports: all of the earlier modules that it uses."""
        used = {}
        for unit in sorted((unit for unit in self.uses if unit.module != name), key=self.units.index):
            used.setdefault(unit.module, []).extend(unit.names)
        return [f"import {{ {', '.join(names)} }} from './{module}.js';" for module, names in used.items()]

    def unit(self, module, template):
        """The text of a template, filled in; what it made can be called from then on."""
        names = {word: self.words.pop() for word in ("@f", "@g", "@h")}
        names |= {word: self.classes.pop() for word in ("@C", "@D")}
        for word, name in names.items():
            template = re.sub(f"{word}\\b", name, template)
        unit = Unit(module, template)
        text, *unit.calls = re.split(r"\n-- ", template)
        text = re.sub("@(in|wait)", lambda found: self.inner(unit, found[1] == "wait"), text)
        is_used = r"(?<![\w'])(?<!\w\.)(?<!\)\.){}\b"
        used = " ".join(unit.calls)
        unit.names = [name for name in names.values() if re.search(is_used.format(name), used)]
        self.units.append(unit)
        return text

    def inner(self, caller, wait):
        """A call of an earlier function, or of `capture`."""
        fit = [unit for unit in self.units[-60:] if unit.depth < self.DEEPEST]
        unit = self.random.choice(fit) if fit and self.random.random() < 0.8 else None
        if unit and not (unit.throws and caller.calls_at_load):
            plain = [call for call in unit.calls if not call.startswith("await ")]
            calls = [call for call in unit.calls if call not in plain] if wait else plain
            if calls := calls or plain:
                self.uses.add(unit)
                caller.depth = max(caller.depth, unit.depth + 1)
                caller.throws = caller.throws or unit.throws
                return f"({self.random.choice(calls).removeprefix('await ')})"
        self.count += 1
        return f"capture({self.count})"

    def main(self):
        """The module that makes all calls."""
        self.uses = set(self.units)
        calls = [f"  async () => {call}," for unit in self.units for call in unit.calls]
        return "\n".join(["// @ts-nocheck", *self.imports("main"), "runScenarios([", *calls, "]);", ""])

    def write(self, folder):
        """Writes the application into folder/ts and folder/js."""
        for language in "ts", "js":
            (folder / language).mkdir()
            for name, text in self.texts.items():
                if language == "ts":
                    text = re.sub("[⟨⟩]", "", text)
                else:
                    text = re.sub("⟨([^⟩]*)⟩", lambda found: " " * len(found[1]), text)
                (folder / language / f"{name}.{language}").write_text(text, encoding="utf-8")
