// Lines that end without a semicolon.
const first = () => work()
const second = x => x
  ? work(x)
  : other(x)
work()
const third = a => b => work(a, b)
other()
class Lines {
  field = () => work()
  other = 1
  method() { work() }
  static made = function () { work() }
  get = 5
  set;
  async
  run() { work() }
  *steps() { yield work() }
  'quoted'() { work() }
  ['computed']() { work() }
  [work()]() { work() }
  12() { work() }
  static { work() }
  static async *both() { work() }
  get value() { return work() }
  set value(v) { work(v) }
  #hidden() { work() }
  #kept = () => work()
}
let i = 0
i
++
i
label: {
  work()
}
loop: for (;;) { work(); break loop }
switch (i) {
  case 1: other = function () { work() }
  case i ? 2 : 3: { work() }
  default: other = () => { work() }
}
function plain() { return {
  a: function () { work() },
  b() { work() },
  c: () => work(),
  async d() { work() },
  get e() { return work() },
  async: () => work(),
  get: function () { work() },
  function() { work() },
  class: () => work(),
  if() { work() },
  'quoted': function () { work() },
} }
var x = function () { work() }.call(this)
var y = (function () { work() })()
var z = function own() { work() }
const { p = () => work(), q: { r = function () { work() } } } = i
function withDefaults(a = () => work(), { b = work() } = {}) { work() }
export default () => work()
i = i ? () => work() : function () { work() }
i.name.deep = function () { work() }
i['word'] = function () { work() }
i[work()] = function () { work() }
i ||= () => work()
i ??= async () => work()
const started = async function () { await work() }
async function* generated() { for await (const each of work()) { work(each) } }
new class { constructor() { work() } run() { throw new Error(work()) } }
const Named = class { constructor() { work() } run() { work() } }
class Derived extends (class Inner { run() { work() } }) { constructor() { super(); work() } }
do work(); while (i)
if (i) work(); else other()
try { work() } catch { other() } finally { work() }
for (const f of [() => work(), function () { work() }]) f()
