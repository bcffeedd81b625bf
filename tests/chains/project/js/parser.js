// Another script for babel: a small reader of expressions, with regular expressions and templates.
const TOKEN = /\s*(?:(?<number>\d+(?:\.\d+)?)|(?<word>[\p{ID_Start}$_][\p{ID_Continue}$]*)|(?<sign>\*\*|[-+*/()]))/suy;
const SIGNS = Object.freeze({ '+': [1, (a, b) => a + b], '-': [1, (a, b) => a - b], '*': [2, (a, b) => a * b], '/': [2, (a, b) => a / b], '**': [3, (a, b) => a ** b, 'right'] });

const tokens = function* (text) {
  TOKEN.lastIndex = 0;
  while (TOKEN.lastIndex < text.trimEnd().length) {
    const at = TOKEN.lastIndex, found = TOKEN.exec(text);
    if (!found) throw Object.assign(new SyntaxError(`what is this? “${text.slice(at, at + 8)}…” 🤔`), { at });
    const [[kind, value]] = Object.entries(found.groups).filter(([, it]) => it !== undefined);
    yield { kind, value, at };
  }
};

class Parser {
  constructor(text, names = new Proxy({}, { get: (_, key) => key.length })) {
    Object.assign(this, { names, rest: [...tokens(text)] });
  }

  next(wanted) {
    const token = this.rest.shift();
    if (wanted && token?.value !== wanted) throw new SyntaxError(String.raw`no \${wanted} here: ${token?.value}`);
    return token ?? { kind: 'end' };
  }

  operand() {
    const { kind, value } = this.next();
    switch (kind) {
      case 'number': return () => +value;
      case 'word': return () => this.names[value];
      case 'sign':
        if (value === '-') { const inner = this.operand(); return () => -inner() }
        if (value === '(') { const inner = this.expression(); this.next(')'); return inner }
      // falls through
      default: throw new SyntaxError(`unexpected ${value ?? kind}`);
    }
  }

  expression(least = 0) {
    let left = this.operand();
    for (;;) {
      const [strength, compute, side] = SIGNS[this.rest[0]?.value] ?? [-1];
      if (strength < least || strength < 0) return left;
      this.next();
      const before = left, right = this.expression(side ? strength : strength + 1);
      left = () => compute(before(), right());
    }
  }
}

const evaluated = (strings, ...values) => new Parser(strings.reduce((text, part, i) => `${text}(${values[i - 1]})${part}`)).expression()();
if (typeof exports === 'object') Object.assign(exports, { evaluated, Parser }); else globalThis.auswerten = evaluated;
console.log(evaluated`1 + ${2} * größe ** 2`, `a${`b${`c\u{1F600}`}`}`, /[/\]]+\/(?=😀)/u.test('/😀'), async () => (await import('./x.js')).default);
