'use strict';
// Other packages that the tests compare with, where they are installed: Debian's are in /usr/share/nodejs,
// which Debian's Node searches, and any other one if NODE_PATH names it.

/** A package, or null. */
function peer(name) {
  try {
    return require(name);
  } catch (error) {
    if (error.code !== 'MODULE_NOT_FOUND') throw error;
    return null;
  }
}

/** The option of a test that needs a package: it is left out without it, and the report says why. */
const needs = (name, found) => ({ skip: found ? false : `no package ${name} here` });

module.exports = { peer, needs };
