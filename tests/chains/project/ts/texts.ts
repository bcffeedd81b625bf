// Strings, templates and regular expressions.
const word = /(?<=^|[^\p{L}])[\p{L}\p{M}]+/gu;
const escaped = /[\\/"'`\u2028\u2029<>]|\$\{/g;
const ends: { [key: string]: string } = {
  '\n': '␊', '\t': '⇥', '\u2028': 'LS', "it's": 'é\
combined', 'ключ': 'значение', '👩‍👩‍👧': 'family 👩‍👩‍👧 of code units',
};

export function words(text: string): string[] { return text.match(word) || [] }

export function joined(parts: readonly string[], between = ' · ') {
  return parts
    .filter((part): part is string => part != null && part !== '')
    .map((part, i) => (i ? between : '') + part.replace(escaped, (found) => `\\${found}`))
    .join('');
}

export const label = (key: string, { count = 1, unit: { name: einheit = 'Stück' } = {} as { name?: string } } = {}) =>
  `${ends[key] ?? key}: ${count.toLocaleString()} ${einheit}${count === 1 ? '' : 'e'} ${
    count > 1e3 ? `(${(count / 1e3).toFixed(1)} k 🎉)` : ''
  }`;

export const table = [
  ['a', 1, true], ['β', 2.5e-3, false], ['γ', 0x1F, null], ['𝛿', 0b101, undefined],
] as const;

export default function (text: TemplateStringsArray, ...values: unknown[]) {
  return text.raw.map((part, i) => part + (i in values ? String(values[i]) : '')).join('');
}
