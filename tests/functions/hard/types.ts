// Types, which have arrows, braces and brackets of their own.
declare function decorate(...rest: unknown[]): any;
declare function work(...rest: unknown[]): any;
type Handler = (event: { name: string }) => void;
type Made = new (a: number) => { run(): void };
interface Shape { area(): number; readonly name: string; on(event: (a: string) => void): { off(): void } }
function generic<T extends { a: () => void }, U = (b: T) => T>(a: T, b: U): { c: T } { return work(a, b); }
function bound<F extends (...args: any[]) => any>(f: F): F | ((a: number) => void) { return work(f); }
function asserts(a: unknown): asserts a is { b: string } { work(a); }
function keyed<T>(a: T): a is T & { b: keyof T } { return work(a); }
const typed: (a: number) => void = (a: number): void => { work(a); };
const returned = (a: number): { b: number } => ({ b: work(a) });
const conditional = <T,>(a: T): T extends string ? number : { b: T } => work(a);
let optional: Handler | undefined = function (event) { work(event); };
function overloaded(a: string): void;
function overloaded(a: number): void;
function overloaded(a: any) { work(a); }
abstract class Base<T extends object = {}> {
  private readonly first: () => void = () => { work(); };
  protected second?: Handler;
  third!: (a: number) => { b: string };
  static readonly fourth = (a: number): void => work(a);
  constructor(private a: T, public readonly b: () => void = () => work()) { work(a, b); }
  abstract run(a: T): void;
  method<U>(a: U, b?: (c: U) => void): Promise<{ d: U }> { return work(a, b); }
  get value(): { a: T } { return work(); }
  optional?(): void { work(); }
  async *steps<U>(this: Base<T>): AsyncGenerator<U> { yield work(); }
  private async hidden(): Promise<void> { await work(); }
  override declare other: number;
  [Symbol.iterator](): Iterator<T> { return work(); }
}
@decorate({ selector: 'a', make: () => work() })
class Decorated extends Base<{ a: () => void }> implements Shape, Record<string, () => void> {
  @decorate() field: string = work();
  @decorate(() => work()) method() { work(); }
  @decorate()
  @decorate({ a() { work(); } })
  async other(@decorate() a: string) { work(a); }
  run(a: { a: () => void }) { work(a); }
  area() { return work(); }
  name = 'a' as const;
  on(event: (a: string) => void) { return { off() { work(event); } }; }
}
enum Color { Red = work(), Green = 'g'.length }
namespace Space { export function inside() { work(); } export const arrow = () => work(); }
const value = <Handler>function (event) { work(event); };
const satisfied = { a: () => work(), b: function () { work(); } };
export = function () { work(); };
