'use strict';
// As much of jest as the tests of other packages ask for: they are collected, and `expect` throws.
const assert = require('node:assert');
const { inspect } = require('node:util');

class Matcher {
  constructor(matches) {
    this.matches = matches;
  }
}

const isObject = value => typeof value === 'object' && value !== null;

// Whether a value is like another, where what is undefined is as good as missing; or only like a part of it.
function isLike(has, wants, isPart = false) {
  if (wants instanceof Matcher) return wants.matches(has);
  if (!isObject(has) || !isObject(wants)) return Object.is(has, wants);
  const isList = Array.isArray(wants);
  if (isList !== Array.isArray(has) || (isList && has.length !== wants.length)) return false;
  const keys = Object.keys(isPart ? wants : { ...has, ...wants });
  return keys.every(key => (!isPart || key in has) && isLike(has[key], wants[key], isPart));
}

const matchers = {
  toBe: (has, wants) => Object.is(has, wants),
  toEqual: (has, wants) => isLike(has, wants),
  toMatchObject: (has, wants) => isLike(has, wants, true),
  toHaveLength: (has, length) => has.length === length,
  toHaveProperty: (has, key, ...wants) => key in has && (!wants.length || isLike(has[key], wants[0])),
  toHaveBeenCalled: call => call.calls.length > 0,
  toHaveBeenCalledTimes: (call, times) => call.calls.length === times,
  toHaveBeenCalledWith: (call, ...wants) => call.calls.some(args => isLike(args, wants)),
  toThrow(call) {
    try {
      call();
      return false;
    } catch {
      return true;
    }
  },
};

function expect(has) {
  const all = { not: {} };
  for (const [name, matches] of Object.entries(matchers)) {
    const check = isWanted => (...wants) => {
      if (matches(has, ...wants) === isWanted) return;
      const shown = [has.calls ?? has, ...wants].map(one => inspect(one, { depth: 9 }));
      assert.fail(`${isWanted ? '' : 'not '}${name}: ${shown.join('\n')}`);
    };
    all[name] = check(true);
    all.not[name] = check(false);
  }
  return all;
}
expect.anything = () => new Matcher(has => has != null);
expect.objectContaining = wants => new Matcher(has => isLike(has, wants, true));

function fn(usual) {
  const next = [];
  const mock = (...args) => {
    mock.calls.push(args);
    return (next.shift() ?? usual)?.(...args);
  };
  mock.calls = [];
  mock.mockImplementationOnce = call => (next.push(call), mock);
  mock.mockReturnValueOnce = value => mock.mockImplementationOnce(() => value);
  mock.mockReturnValue = value => ((usual = () => value), mock);
  return mock;
}

/** Makes jest's names global. `add` is given each test: its name, and the call. */
function start(add) {
  const around = [];
  const describe = (name, call) => {
    around.push(name);
    call();
    around.pop();
  };
  const test = (name, call) => add([...around, name].join(', '), call);
  test.skip = () => {};
  Object.assign(globalThis, { describe, test, it: test, expect, jest: { fn } });
}

module.exports = { start };
