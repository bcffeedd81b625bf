// Asynchronous functions and generators.
export class Waiting extends Error {
  constructor(readonly round: number) {
    super(`round ${round} ⏳`);
    Object.setPrototypeOf(this, Waiting.prototype);
  }
}

const pause = (milliseconds: number) => new Promise<void>((done) => setTimeout(done, milliseconds));

export async function retried<T>(most: number, task: (round: number) => Promise<T>): Promise<T> {
  let last: unknown;
  outer: for (let round = 0; round <= most; round++) {
    try {
      return await task(round);
    } catch (error) {
      last = error;
      switch (true) {
        case error instanceof Waiting:
          await pause(1 << round);
          continue outer;
        case round === most: break outer;
        default:
      }
    }
  }
  throw last;
}

export async function* counted<T>(items: Iterable<T>): AsyncGenerator<[number, T]> {
  let i = 0;
  for (const item of items) {
    await null;
    yield [i++, item];
  }
  yield [i, undefined as unknown as T];
}

export const all = async <K extends string, V>(tasks: Record<K, () => Promise<V>>) => {
  const entries = Object.entries<() => Promise<V>>(tasks as Record<string, () => Promise<V>>);
  const found = await Promise.all(entries.map(async ([key, task]) => [key, await task()] as const));
  return found.reduce((map, [key, value]) => map.set(key, value), new Map<string, V>());
};
