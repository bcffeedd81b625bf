// Names outside of ASCII, also that of the file where it is built: größe.ts.
import tagged, { table } from './texts';

export const größte = (zahlen: number[]): number => {
  let größe = -Infinity; const π = Math.PI; /* 🥧 */ for (const zahl of zahlen) größe = Math.max(größe, zahl * π);
  return größe;
};

export const ñamed = tagged;
export const 変数 = { größte, 'schlüssel': 変える('値 😀'), [`${1 + 1}é`]: table.length, get 長さ() { return this.schlüssel.length } };

function 変える(値: string): string { return 値.split('').reverse().join('') + /^[あ-ん]+$/.exec(値)?.index }
