'use strict';
// The maps of the scripts that run: those that the scripts name, or that a program hooks in. What a script
// names, and what a name stands for, the library says; here are the files, and what was read of them.
const fs = require('node:fs');
const path = require('node:path');
const { debuglog } = require('node:util');
const { SmapError, scriptLink, resolveLink, inlineMap, fileUrl, filePath, areAlike } = require('./index.js');
const inside = require('./inside.js');
const { follow } = require('./maps-of-sources.js');
const native = require('./native.js');
const { nodesMap } = require('./compiled.js');
const { isOfPackage } = require('./packages.js');

const debug = debuglog('smap');
const tellNone = (script, error) => debug('no map for %s: %s', script, error.message);

// Whether frames get the names of functions, where the library is sure of them by the texts of sources.
const areNamed = process.env.SMAP_NAMES !== '0';

// Whether maps are composed with those that their sources lead to.
const areFollowed = process.env.SMAP_CHAINS !== '0';

// The library is asked for them as for lines of a log: how these begin, and what their script is called.
const AT = '    at ', SCRIPT = 'script.js';

// For each map, of how many lines the answers are kept, and how many characters of sources are read for them
// in all, which takes about ten seconds.
const MOST_TOLD = 10_000, MOST_READ = 2 ** 28;

let files = new Map();   // path: text, for what isn't read from the disk
let maps = new Map();    // script: what `read` gives, or null
let fileHooks = { calls: [], only: false };
let mapHooks = { calls: [], only: false };

function forget() {
  files = new Map();
  maps = new Map();
}

function addHook(hooks, call, only) {
  if (only) {
    hooks.calls.length = 0;
    hooks.only = true;
  }
  hooks.calls.unshift(call);
}

const hookFiles = (call, only) => addHook(fileHooks, call, only);
const hookMaps = (call, only) => addHook(mapHooks, call, only);

function unhook() {
  fileHooks = { calls: [], only: false };
  mapHooks = { calls: [], only: false };
}

/** What was compiled for a file, where that isn't what the file has. */
function putFile(name, text) {
  files.set(name, text);
  maps.delete(name);
}

// A script or a map is named by a URL or a path, and Node takes a path that isn't absolute for one below the
// working directory.
const whole = name => (fileUrl(name) !== null || URL.canParse(name) ? name : path.resolve(name));

// The file that a name stands for; null for what is none here, such as a web address.
function fileOf(name) {
  const own = whole(name);
  const file = fileUrl(own) === null ? filePath(own) : own;
  return file !== null && path.isAbsolute(file) ? file : null;
}

// A pipe or a device isn't read: the process would wait for it.
function readDisk(name) {
  try {
    const file = fileOf(name);
    return file !== null && fs.statSync(file).isFile() ? fs.readFileSync(file, 'utf8') : '';
  } catch {
    return '';
  }
}

// What the hooks have in place of the disk, or null.
function hooked(name) {
  for (const call of fileHooks.calls) {
    const text = call(name);
    if (text) return text;
  }
  return fileHooks.only ? '' : null;
}

// The text of a file or a script, and whether it is the disk's.
function found(name) {
  const text = files.get(name) ?? hooked(name);
  return text === null ? { text: readDisk(name), isFile: true } : { text, isFile: false };
}

const readFile = name => found(name).text;

// The file of a script of this machine: the root of its file system, and its name there; or null.
function placeOf(script) {
  try {
    const file = fileOf(script);
    const { root } = path.parse(file ?? '');
    return root && { root, name: file.slice(root.length).replaceAll(path.sep, '/') };
  } catch {
    return null;
  }
}

// What a script names for its map, as smap.h numbers it.
const NAMED_INLINE = 2, NAMED_FILE = 3;

// The map of a script of this machine, or null: of those that the library says it may have the first that can be
// read. They may be anywhere here. One next to the script isn't that of something else that was compiled for it.
function ownMap(script, { text, isFile }) {
  const place = placeOf(script);
  for (let tried = 0; place; tried++) {
    const [kind, bytes] = native.scriptMap(place.root, place.name, text, tried);
    const isNamed = tried === 0 && (kind === NAMED_INLINE || kind === NAMED_FILE);
    if (bytes === null || !(isNamed || isFile)) break;
    if (isNamed && kind === NAMED_INLINE) return { url: script, map: bytes };
    const file = path.join(place.root, bytes.toString());
    const url = fileUrl(whole(script)) === null ? fileUrl(file) : file;
    const map = readFile(url);
    if (map) return { url, map };
  }
  return null;
}

// What is read of a map elsewhere that a script names, or null; throws where it names none.
function linkedMap(script, code) {
  const link = scriptLink(code);
  // An empty one leads to the script itself.
  if (!link) return null;
  const map = inlineMap(link);
  if (map) return { url: script, map };
  const own = whole(script);
  const url = resolveLink(own, link);
  // The map of a script that is named by its path is named so too.
  const name = fileUrl(own) === null ? url : filePath(url) ?? url;
  const text = readFile(name);
  return text ? { url: name, map: text } : null;
}

// A script's map and its URL or path, or null.
function retrieve(script) {
  for (const call of mapHooks.calls) {
    const got = call(script);
    if (got) return got;
  }
  if (mapHooks.only) return null;
  const map = files.has(script) ? null : nodesMap(script);
  if (map) return { url: script, map };
  const it = found(script);
  return ownMap(script, it) ?? linkedMap(script, it.text);
}

/** The text of a script's map and its URL or path; null if there is none, or the script names it wrongly. */
function retrieveSourceMap(script) {
  try {
    const got = retrieve(script);
    return Buffer.isBuffer(got?.map) ? { ...got, map: got.map.toString() } : got;
  } catch (error) {
    if (!(error instanceof SmapError)) throw error;
    tellNone(script, error);
    return null;
  }
}

// What a terminal obeys, or a reader takes for the end of a line.
const CONTROL = /[\p{Cc}\p{Zl}\p{Zp}\p{Bidi_Control}]/gu;

// Beside a map that is named by its path, a source is named so too. Where the path has control characters the
// URL stands, which has none, and where there is no path: on another host, say.
function pathNamed(url) {
  if (url === null) return null;
  try {
    const name = filePath(url);
    return name === null || name.search(CONTROL) >= 0 ? url : name;
  } catch {
    return url;
  }
}

// Opens what was read of the map of a script, for maps-of-sources.js too.
function open(got, script) {
  const base = whole(String(got.url ?? script));
  const url = fileUrl(base);
  const { map, mayHaveWord } = inside.open(got.map, url ?? base, 'sourcesContent');
  return { map, nameOf: url === null ? name => name : pathNamed, hasTexts: mayHaveWord };
}

// A text without what tools change in it.
const normal = text => text.replace(/^\ufeff|\r/g, '');

// What a source names for its map, or null. It is looked at as a script, by files of the package of the one that
// runs alone. The file of a script that was written over its source is the script's.
function leadOf(running, source, content, script) {
  const text = content ?? (areAlike(source, script) ? '' : textOnDisk(source, running));
  if (!text.includes('sourceMappingURL=')) return null;
  const got = ownMap(source, { text, isFile: false }) ?? linkedMap(source, text);
  if (!got && scriptLink(text)) throw new Error('what it names is missing');
  if (!got) return null;
  if (got.url === source) return { got, isInline: true, text };
  if (!isOfPackage(got.url, running)) throw new Error('what it names is no file of the package');
  const inFile = content === null ? '' : textOnDisk(source, running);
  if (inFile && normal(inFile) !== normal(text)) throw new Error('its text in a map differs from its file');
  return { got, isInline: false, text };
}

function read(script) {
  const got = retrieve(script);
  if (!got || !got.map) return null;
  const opened = open(got, script);
  const ways = { leadOf: (...source) => leadOf(script, ...source), open, tell: tellNone };
  const { map, hasTexts } = areFollowed ? follow(script, opened, ways) : opened;
  const scripts = areNamed && hasTexts ? inside.scriptsOf(SCRIPT, map) : null;
  return { map, names: map.sources.map(opened.nameOf), scripts, told: new Map(), lengths: [], read: 0 };
}

// The map of a script, read once. One that is refused is none: a trace must not fail because of it.
function mapOf(script) {
  if (maps.has(script)) return maps.get(script);
  // Set first, for errors that are made while it is read.
  maps.set(script, null);
  try {
    maps.set(script, read(script));
  } catch (error) {
    tellNone(script, error);
  }
  return maps.get(script);
}

/** Where a position comes from, or null. The line counts from 1, the column from 0. */
function originalOf({ source, line, column }) {
  const known = line >= 1 && column >= 0 ? mapOf(source) : null;
  const found = known && known.map.lookup(line - 1, column);
  if (!found || found.source === null) return null;
  return {
    source: known.names[found.sourceIndex],
    line: found.sourceLine + 1,
    column: found.sourceColumn,
    name: found.name,
  };
}

// Asks for lines that aren't known, together: the library reads the sources anew in each call.
function ask(known, lines, sources) {
  const asked = [...new Set(lines)].filter(line => !known.told.has(line) && !line.includes('\n'));
  if (asked.length === 0 || known.read > MOST_READ) return;
  for (const i of new Set(sources)) known.read += known.lengths[i] ??= known.map.content(i)?.length ?? 0;
  if (known.told.size + asked.length > MOST_TOLD) known.told.clear();
  const answers = known.scripts.translate(asked.join('\n'), { names: true }).split('\n');
  asked.forEach((line, i) => known.told.set(line, answers[i]));
}

function nameIn(known, frames) {
  const lines = frames.map(({ before, place, after }) =>
    `${AT}${before}${SCRIPT}:${place.line}:${place.column}${after}`);
  const originals = frames.map(({ place }) => known.map.lookup(place.line - 1, place.column - 1));
  ask(known, lines, originals.map(({ sourceIndex }) => sourceIndex));
  frames.forEach((frame, i) => {
    const line = known.told.get(lines[i]) ?? '';
    const { source, sourceLine, sourceColumn } = originals[i];
    const place = `${source}:${sourceLine + 1}:${sourceColumn + 1}`;
    const from = line.lastIndexOf(place);
    if (from < 0) return;
    frame.before = line.slice(AT.length, from);
    frame.after = line.slice(from + place.length);
  });
}

/**
 * Puts the names of functions into what frames have before and behind their places: each a script, and a line
 * and a column from 1, which has an original.
 */
function nameFrames(frames) {
  const byMap = new Map();
  for (const frame of frames) {
    const known = maps.get(frame.place.script);
    if (known?.scripts) byMap.set(known, [...byMap.get(known) ?? [], frame]);
  }
  try {
    for (const [known, its] of byMap) nameIn(known, its);
  } catch (error) {
    debug('no names of functions: %s', error.message);
  }
}

// The text of a source that its map doesn't have. What the hooks have under a script's own name is what was
// compiled, and not its source.
function textOf(source, script) {
  return (source === script ? null : hooked(source)) ?? textOnDisk(source, script);
}

const textOnDisk = (source, script) => (!fileHooks.only && isOfPackage(source, script) ? readDisk(source) : '');

// A tab stays, as in what Node prints.
const shown = line => line.replace(CONTROL, one => (one === '\t' ? one : '\ufffd'));

/** A line of a source that a script's map lists, counted from 1, without control characters; or null. */
function lineOf(source, line) {
  for (const [script, known] of maps) {
    const i = known ? known.names.indexOf(source) : -1;
    const text = i < 0 ? '' : known.map.content(i) ?? textOf(source, script);
    if (text) return shown(text.split(/\r\n|\r|\n/)[line - 1] ?? '') || null;
  }
  return null;
}

module.exports = {
  forget, hookFiles, hookMaps, unhook, putFile, retrieveSourceMap, originalOf, nameFrames,
  lineOf, debug,
};
