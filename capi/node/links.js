'use strict';
// Which map belongs to a script. The rules are the library's, and docs/LINKING.md has them; native/links.c
// asks it. index.d.ts says what each function does.
const native = require('./native.js');
const { SmapError } = require('./errors.js');
const { checkLength } = require('./halves.js');
const host = require('./host.js');
const { textOf } = require('./inputs.js');

const nameIn = given => textOf(given instanceof URL ? given.href : given, 'a name');

// A string, or the bytes if they are asked for: those of a percent-encoded name may be any.
function told(bytes, asBuffer = false) {
  if (bytes === null || asBuffer) return bytes;
  if (!host.isUtf8(bytes)) throw new SmapError('SMAP_NOT_UTF8', 'not UTF-8');
  checkLength(bytes.length);
  return host.decode(bytes);
}

function scriptLink(text, { css = false, buffer = false } = {}) {
  return told(native.scriptLink(textOf(text, 'the text of a script'), Boolean(css)), buffer);
}

function resolveLink(script, link) {
  return told(native.resolveLink(nameIn(script), nameIn(link)));
}

function inlineMap(url) {
  return native.inlineMap(nameIn(url));
}

function fileUrl(path) {
  return told(native.fileUrl(textOf(path, 'a path')));
}

function filePath(url) {
  return told(native.filePath(nameIn(url)));
}

function scriptUrl(folder, name, { buffer = false } = {}) {
  return told(native.scriptUrl(nameIn(folder), textOf(name, 'the name of a file')), buffer);
}

function scriptName(folder, url, { buffer = false } = {}) {
  return told(native.scriptName(nameIn(folder), nameIn(url)), buffer);
}

function normalForm(name, { query = false, buffer = false } = {}) {
  return told(native.normalForm(nameIn(name), Boolean(query)), buffer);
}

function areAlike(one, other) {
  return native.areAlike(nameIn(one), nameIn(other));
}

module.exports = {
  scriptLink, resolveLink, inlineMap, fileUrl, filePath, scriptUrl, scriptName, normalForm, areAlike,
};
