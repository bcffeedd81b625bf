'use strict';
// random.js [--seconds N] [SEED]: calls the package at random, for a minute unless another time is given.
// What is passed is large, broken, closed, shared, written, or taken away meanwhile, and each answer has to be
// one that the calls may give. A seed stands for the same calls always. The seeds follow one another, from the
// given one or else from one that nobody chose. The calls are made in another process: if that crashes or
// hangs, its seed is told. `random.js --only SEED` makes the calls of one seed, and names each.
//
// Under the sanitizers tests/node/run links bounds.c, which has the library's reads and writes checked too.
const { spawn } = require('node:child_process');
const { randomInt } = require('node:crypto');
const fs = require('node:fs');
const { parseArgs } = require('node:util');

const HANGS = 120; // seconds; the calls of a seed take one or two

const { values, positionals } = parseArgs({
  options: { seconds: { type: 'string' }, only: { type: 'string' }, rounds: { type: 'boolean' } },
  allowPositionals: true,
});
const seconds = Number(values.seconds ?? 60);
const first = Number(positionals[0] ?? randomInt(2 ** 31));
if (!Number.isSafeInteger(first) || !(seconds > 0)) throw new Error('a seed and seconds are numbers');

// ---- the process that makes the calls

async function rounds() {
  const { round } = require('./random-calls.js');
  const end = Date.now() + 1000 * seconds;
  let calls = 0;
  let seed = first;
  for (; Date.now() < end; seed++) {
    fs.writeSync(1, `seed ${seed}\n`);
    calls += await round(seed, () => {});
  }
  fs.writeSync(1, `${seed - first} seeds from ${first}, ${calls} calls\n`);
}

async function only(seed) {
  const { round } = require('./random-calls.js');
  console.log(`${await round(seed, call => fs.writeSync(1, `${call}\n`))} calls`);
}

// ---- the process that watches

function watch() {
  const words = [...process.execArgv, __filename, '--rounds', '--seconds', String(seconds), String(first)];
  const child = spawn(process.execPath, words, { stdio: ['ignore', 'pipe', 'pipe'] });
  let said = '';
  let errors = '';
  let isHanging = false;
  const hangs = () => {
    isHanging = true;
    child.kill('SIGKILL');
  };
  let timer = setTimeout(hangs, 1000 * HANGS);
  child.stdout.on('data', data => {
    said = (said + data).slice(-1000);
    clearTimeout(timer);
    timer = setTimeout(hangs, 1000 * HANGS);
  });
  child.stderr.on('data', data => (errors = (errors + data).slice(0, 20000)));
  child.on('close', (status, signal) => {
    clearTimeout(timer);
    const last = said.trimEnd().split('\n').at(-1);
    if (status === 0 && / calls$/.test(last)) return console.log(last);
    const why = isHanging ? `no end within ${HANGS} seconds` : `it ended by ${signal ?? `status ${status}`}`;
    console.log(`FAILED at ${last}: ${why}\n${errors}`);
    console.log(`once more: node --expose-gc capi/node/test/random.js --only ${last.replace('seed ', '')}`);
    process.exitCode = 1;
  });
}

if (values.only !== undefined) only(Number(values.only));
else if (values.rounds) rounds();
else watch();
