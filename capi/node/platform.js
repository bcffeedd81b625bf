'use strict';
// The package for this platform, which has the addon and the programs.
const platform = `${process.platform}-${process.arch}`;
const BUILT = ['linux-x64', 'linux-arm64'];

/** An error that says what keeps smap from running here. */
function failure(why, cause) {
  const error = new Error(`smap runs on Linux on x86-64 and aarch64, and ${why}`, cause && { cause });
  return Object.assign(error, { code: 'SMAP_NOT_BUILT' });
}

function whatIsMissing() {
  if (!BUILT.includes(platform)) return `this is ${platform}`;
  return `its package smap-${platform}, which has what is compiled, is not installed`;
}

/** The path of a file in that package. */
function fileOf(name) {
  try {
    return require.resolve(`smap-${platform}/${name}`);
  } catch (error) {
    throw failure(whatIsMissing(), error);
  }
}

module.exports = { failure, fileOf };
