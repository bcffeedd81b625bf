'use strict';
// Which files belong to a script's package.
const fs = require('node:fs');
const path = require('node:path');
const { filePath } = require('./index.js');

const pathOf = name => fs.realpathSync(filePath(name) ?? name);

// Builds write files of that name that only say how scripts are read, into the folder of these.
function hasName(file) {
  try {
    return typeof JSON.parse(fs.readFileSync(file, 'utf8')).name === 'string';
  } catch {
    return false;
  }
}

// As everywhere in Node, a package isn't looked for above a folder node_modules.
function folderOf(script) {
  for (let folder = path.dirname(script); ; folder = path.dirname(folder)) {
    if (path.basename(folder) === 'node_modules') return null;
    if (hasName(path.join(folder, 'package.json'))) return folder;
    if (folder === path.dirname(folder)) return fs.realpathSync('.');
  }
}

/**
 * Whether a file is in the package of a script: below the nearest folder above the script that has a
 * package.json with a name, or below the working directory if no folder has one. Links count as what they
 * lead to. Both are named by a path or a `file:` URL.
 */
function isOfPackage(file, script) {
  try {
    const place = pathOf(file);
    const folder = folderOf(pathOf(script));
    return folder !== null && place.startsWith(folder + path.sep);
  } catch {
    return false;
  }
}

module.exports = { isOfPackage };
