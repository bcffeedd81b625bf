'use strict';
// What takes the place of another package. Where the library can't be loaded, that package itself stands there.

// The version of a package, or null if it isn't installed.
function versionOf(name) {
  try {
    return require(`${name}/package.json`).version;
  } catch {
    return null;
  }
}

/**
 * The module that `load` gives; or without the library the package that it stands for, in a version that begins
 * with `version`. Where that is missing too, the error says so.
 */
function layer(load, name, version = '') {
  try {
    return load();
  } catch (error) {
    if (error.code !== 'SMAP_NOT_BUILT') throw error;
    if (versionOf(name)?.startsWith(version)) return require(name);
    const wanted = version === '' ? name : `${name} ${version}`;
    const message = `${error.message}; nor is ${wanted} installed, which would be used instead`;
    throw Object.assign(new Error(message, { cause: error }), { code: error.code });
  }
}

module.exports = { layer };
