// What begins with a slash.
function divided(a, b) { const c = a / b / work(); return c }
function matched(text) { return /[/\]({]+/g.test(text) && /}/.exec(text) }
function tested(text) { if (text) /\//.test(text); while (text) /{/.test(text) }
function inTemplates(a) { return `${a / 2} ${`{${work({ a: `}` })}`} \${ { \` ` + work() }
function afterBraces() { const a = { b: 1 } / work(); { work() } /{/.test(work()) }
function afterWords(a) { return typeof /(/ && void /[)]/ + work(a) }
function increased(a) { a++ / work(a); return a-- / /[/]/.test(work()) }
const arrow = a => /}/.test(a) ? work() : a / 2 / work()
function shifted(a, b) { return (a << b) + (a<<b) + (a>>b) + (a>>>b) + work(a < b, b > a) }
function compared(a, b) { return a<b && b>a ? work() : a<(b) }
function quoted() { return '{\'' + "\"}" + '\
{' + work() }
function optional(a) { return a?.b?.(work()) ?? (a?.1:work()) }
function numbers() { return 1.e3 + .5 + 0xe+1 + 1_000n + 5..toString(work()) }
/* { */ function commented(/* ) */ a /* { */) /* } */ { // }
  work(a) /* */ }
function lastLine() { work() } // {
