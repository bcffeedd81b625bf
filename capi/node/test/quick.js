'use strict';
const assert = require('node:assert');

/**
 * What a call gives, which may take so many seconds of the processor: others may use it too. The sanitizers
 * take a few times as long.
 */
function isQuick(call, seconds = 3) {
  const before = process.cpuUsage();
  const result = call();
  const { user, system } = process.cpuUsage(before);
  assert.ok((user + system) / 1e6 < seconds, `${(user + system) / 1e6} s`);
  return result;
}

module.exports = { isQuick };
