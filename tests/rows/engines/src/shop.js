// What browsers write into their stacks: record.py runs it in a page, and keeps what the page sends.
import { total } from "./cart.js";

const lines = [];

function attempt(title, action) {
  try {
    action();
  } catch (error) {
    keep(title, error);
  }
}

function keep(title, error) {
  lines.push("# " + title, error.stack.trim());
}

class Shop {
  constructor(items) {
    if (!items) throw new RangeError("no items");
    this.items = items;
  }

  get label() {
    return this.owner.name;
  }

  async checkout() {
    await null;
    return total(this.items);
  }
}

async function visit() {
  await new Shop([{}]).checkout();
}

function announce() {
  console.trace("announced");
  console.error(new Error("told"));
  console.error(new Error("said").stack);
}

attempt("anonymous functions", () => total([{}]));
attempt("a constructor", () => new Shop());
attempt("a getter", () => new Shop([]).label);
window.order = () => total([{}]);
attempt("eval", () => (0, eval)("order()"));
attempt("Function", () => new Function("order", "order()")(window.order));
attempt("a callback", () => JSON.parse("[1]", () => total([{}])));
visit().catch((error) => keep("async", error));
Promise.resolve([{}]).then((items) => total(items)).catch((error) => keep("a promise", error));
setTimeout(() => attempt("a timer", () => total([{}])));
setTimeout(function () {
  announce();
  lines.push(JSON.stringify({ level: "error", stack: new Error("in JSON").stack.trim() }));
  total([{}]);
});
setTimeout(() => fetch("/log", { method: "POST", body: lines.join("\n") + "\n" }), 500);
