// Elements, whose text isn't code.
declare function work(...rest: unknown[]): any;
const Plain = () => <div>It's {work()} &amp; done</div>;
function Nested({ a, b }: { a: string; b: () => void }) {
  const made = a < b && b > work();
  return (
    <section className="it's" onClick={() => work(a)} {...work()} data-a='"' disabled>
      {/* } */}
      <Item<string> render={function () { return <b>{work()}</b>; }} />
      text ( with { work() } brackets [
      <a.b.c key={`${work()}`}>{a ? <i/> : <u>{work()}</u>}</a.b.c>
      <></>
      {[1].map(each => <li key={each}>{work(each)}</li>)}
    </section>
  );
}
const generic = <T,>(a: T) => { work(a); };
const extending = <T extends object>(a: T): T => { work(a); return a; };
class Component extends Base<{ a: string }> {
  state = { run: () => work() };
  handle = (event: Event) => { work(event); };
  render() { return <div onClick={this.handle}>{this.list((each) => <b>{work(each)}</b>)}</div>; }
}
export default function App() { return <Component a="1">{() => { work(); }}</Component>; }
function after() { return work() }
