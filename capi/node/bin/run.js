'use strict';
// Runs a program: what each command beside this file does. It is that of the package for this platform or,
// where there is none, the same as WebAssembly.
const { spawn } = require('node:child_process');
const os = require('node:os');
const { failure, fileOf } = require('../platform.js');
const { canRun, runHere } = require('../programs/run.js');

// The status with which a shell says that it can't find a command.
const NOT_FOUND = 127;
const SIGNALS = ['SIGHUP', 'SIGINT', 'SIGQUIT', 'SIGTERM'];

function fail(name, error) {
  process.stderr.write(`${name}: ${error.message}\n`);
  process.exitCode = NOT_FOUND;
}

// The process ends as the program did.
function endAs(status, signal) {
  process.exitCode = signal ? 128 + os.constants.signals[signal] : status;
  if (signal) process.kill(process.pid, signal);
}

// A signal that comes while the program is started is passed on once it is there.
function start(file, name) {
  const pass = signal => child.kill(signal);
  for (const signal of SIGNALS) process.on(signal, pass);
  const child = spawn(file, process.argv.slice(2), { argv0: name, stdio: 'inherit' });
  child.on('error', ({ message }) => fail(name, failure(`its program can't be run here: ${message}`)));
  child.on('exit', (status, signal) => {
    for (const one of SIGNALS) process.off(one, pass);
    endAs(status, signal);
  });
}

// The program of the package for this platform, or null where that isn't here.
function nativeProgram() {
  try {
    return fileOf('bin/smap');
  } catch (error) {
    if (canRun()) return null;
    throw error;
  }
}

/**
 * Runs a program with the arguments and the streams of this process. All are one program, which looks at the
 * name that it is called by.
 */
function run(name) {
  try {
    const file = nativeProgram();
    if (file) start(file, name);
    else runHere(name);
  } catch (error) {
    fail(name, error);
  }
}

module.exports = { run };
