'use strict';
// trace.js URL=MAP .. <LOG: a log at positions in the sources. MAP is the file of the map of the script at URL.
// How many lines there were goes to standard error.
const fs = require('node:fs');
const { Scripts, SourceMap } = require('smap');

function main(words) {
  const scripts = new Scripts();
  for (const word of words) {
    const at = word.lastIndexOf('=');
    const url = word.slice(0, at);
    try {
      const map = new SourceMap(fs.readFileSync(word.slice(at + 1)), `${url}.map`);
      scripts.add(url, map);
      map.close();
    } catch (error) {
      console.error(`trace: ${word}: ${error.message}`);
      return 1;
    }
  }
  const { log, lines, translated } = scripts.translateAndCount(fs.readFileSync(0));
  process.stdout.write(log);
  console.error(`${lines} lines, ${translated} translated`);
  return 0;
}

process.exitCode = main(process.argv.slice(2));
