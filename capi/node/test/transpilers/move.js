'use strict';
// What the programs in this folder share, which stand for packages that compile what `require` reads. Their
// compiler puts three lines above a text, and moves each line seven columns to the right.
const path = require('node:path');
const { encode } = require('../vlq.js');

const LINES = 3, COLUMNS = 7;

exports.compile = text => '\n'.repeat(LINES) + text.replace(/^/gm, ' '.repeat(COLUMNS));

/** The map of a file, which is its own source. */
exports.mapOf = (file, text) => {
  const segments = (line, l) => Array.from({ length: line.length + 1 }, (_, c) => [c + COLUMNS, 0, l, c]);
  const mappings = ';'.repeat(LINES) + encode(text.split('\n').map(segments));
  return JSON.stringify({ version: 3, sources: [path.basename(file)], sourcesContent: [text], mappings });
};

exports.comment = map =>
  `\n//# sourceMappingURL=data:application/json;charset=utf-8;base64,${Buffer.from(map).toString('base64')}`;

/** Makes the text of stacks, as source-map-support does, of the files that were compiled. */
exports.formatter = files => (error, frames) => {
  const told = frame => {
    const [file, line, column] = [frame.getFileName(), frame.getLineNumber(), frame.getColumnNumber()];
    if (!files.has(file)) return String(frame);
    const moved = `${file}:${line - LINES}:${column - COLUMNS}`;
    return String(frame).replace(`${file}:${line}:${column}`, () => moved);
  };
  return `${error}${frames.map(frame => `\n    at ${told(frame)}`).join('')}`;
};

// What a program runs is compiled, and not what it stands on.
exports.isOfProgram = file => file.startsWith(process.cwd() + path.sep);
