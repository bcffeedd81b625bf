// Maps, builders and scripts can be declared by `using` where the libraries have Symbol.dispose.
import { SourceMap, Builder, Scripts } from 'smap';

// As lib.esnext.disposable.d.ts of TypeScript 5.2 has it.
declare global {
  interface SymbolConstructor {
    readonly dispose: unique symbol;
  }
  interface Disposable {
    [Symbol.dispose](): void;
  }
}

const all: Disposable[] = [new SourceMap('{}', 'http://h/'), new Builder('http://h/'), new Scripts()];
for (const one of all) one[Symbol.dispose]();
