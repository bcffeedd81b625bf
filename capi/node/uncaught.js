'use strict';
// Values that are thrown, are no errors, and are caught by nobody. They have no stack: Node alone knows where
// they were thrown, and prints the line of the script; or that of the source, if it reads source maps and has
// one of the script. So each script with a map gets one there that asks the library. Whatever goes wrong on
// the way, Node prints the line of the script.
const Module = require('node:module');
const { fileURLToPath } = require('node:url');
const maps = require('./maps-of-scripts.js');

// Stands before a script's URL, where a map has the name of its script.
const MARK = 'smap:';

// The URLs of the scripts that V8 has with a comment that names a map.
function scriptsWithMaps() {
  const { Session } = require('node:inspector');
  const session = new Session();
  const urls = new Set();
  session.on('Debugger.scriptParsed', ({ params }) => {
    if (params.sourceMapURL) urls.add(params.url);
  });
  session.connect();
  session.post('Debugger.enable');
  session.disconnect();
  return urls;
}

// Gives Node a map for a script: that of a text which is evaluated and says that it is this script. A name
// with a line feed would be code there.
function putMap(url) {
  if (!/^file:\S+$/.test(url)) return;
  const map = JSON.stringify({ version: 3, file: MARK + url, sources: [], mappings: '' });
  const link = `data:application/json;base64,${Buffer.from(map).toString('base64')}`;
  (0, eval)(`//# sourceURL=${url}\n//# sourceMappingURL=${link}`);
}

// A script is known by its path, or a module by its URL.
function originalOf(url, line, column) {
  const by = source => maps.originalOf({ source, line: line + 1, column });
  return by(fileURLToPath(url)) ?? by(url);
}

// What Node asks of a map for the line that it prints: the place, and the text of the source up to there.
function answer(map, url, line, column) {
  const at = originalOf(url, line, column);
  const code = at && maps.lineOf(at.source, at.line);
  if (!code) return {};
  const text = '\n'.repeat(at.line - 1) + code;
  Object.defineProperty(map, 'payload', { value: { sources: [at.source], sourcesContent: [text] } });
  return { originalSource: at.source, originalLine: at.line - 1, originalColumn: at.column };
}

/** Makes Node print the line of the source for what ends the process now. */
function tellSource() {
  const { prototype } = Module.SourceMap;
  const { findEntry } = prototype;
  prototype.findEntry = function (line, column) {
    const { file } = this.payload;
    if (!file?.startsWith(MARK)) return findEntry.call(this, line, column);
    return answer(this, file.slice(MARK.length), line, column);
  };
  try {
    process.setSourceMapsEnabled(true);
    scriptsWithMaps().forEach(putMap);
  } catch (error) {
    maps.debug('no place of what was thrown: %s', error.message);
  }
}

module.exports = { tellSource };
