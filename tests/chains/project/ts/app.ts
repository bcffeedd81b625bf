// The first file of the TypeScript: what runs, over all others.
import { Circle, Shape, Square, Squares } from './shapes';
import { counted, retried, Waiting } from './tasks';
import * as texts from './texts';
import { größte, ñamed } from './größe';

interface Options { readonly name?: string; shapes: Shape[]; retries: number }

const defaults: Options = { shapes: [], retries: 3 };

function log(target: any, key: string, descriptor: PropertyDescriptor) {
  const method = descriptor.value as (...args: unknown[]) => unknown;
  descriptor.value = function (...args: unknown[]) {
    console.log(`${key}(${args.map((arg) => JSON.stringify(arg)).join(', ')}) 🚀`);
    return method.apply(this, args);
  };
  return descriptor;
}

export class App {
  private static instances = 0;
  protected readonly options: Options;

  constructor(public title: string, { name = 'ñandú 🐦', ...rest }: Partial<Options> = {}) {
    App.instances += 1;
    this.options = { ...defaults, ...rest, name };
  }

  get name() { return this.options.name ?? 'none' }
  set name(value: string) { throw new TypeError(`${value} can’t be set: 名前`) }

  @log
  area(scale = 1): number {
    let sum = 0;
    for (const shape of this.options.shapes) sum += shape.area() * scale ** 2;
    return sum;
  }

  async run(...names: string[]): Promise<string> {
    try {
      const parts = await retried(this.options.retries, async (round) => {
        if (round < 2) throw new Waiting(round);
        return [...names, ...texts.words(this.title)];
      });
      for await (const part of counted(parts)) console.log(part);
      return texts.joined(parts);
    } catch (error) {
      if (error instanceof Waiting && error.round > 0) return 'waited';
      throw error;
    } finally {
      App.instances--;
    }
  }
}

const app = new App('Über alles: "quoted" \u{1F600} 😀', {
  shapes: [new Circle(2), new Square(3), ...Squares.upTo(3)],
});
app.run('a', `b${app.area(2)}`).then(
  (text) => { console.log(text, größte([3, 1, 2]), ñamed`x${1}y${'é'}z`) },
  (error: Error) => { console.error(error?.stack?.split('\n')[0]) },
);
export default app;
