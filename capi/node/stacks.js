'use strict';
// Stack traces of this process at their positions in the sources: the interface of source-map-support.
const fs = require('node:fs');
const { inspect, types } = require('node:util');
const { isMainThread } = require('node:worker_threads');
const { isTranspiling, hookRequire } = require('./compiled.js');
const maps = require('./maps-of-scripts.js');
const { tellSource } = require('./uncaught.js');

let isFresh = false;       // whether what is known is forgotten before each trace
let isFormatting = false;
let earlier = null;        // what made the text of stacks before
let isCatching = false;

function mapSourcePosition(position) {
  return maps.originalOf(position) ?? position;
}

// ---- frames

// The place of a call to eval, in `eval at f (/a/out.js:1:2)` or inside another of these.
function mapEvalOrigin(origin) {
  let match = /^eval at ([^(]+) \((.+):(\d+):(\d+)\)$/.exec(origin);
  if (match && !match[2].startsWith('eval at ')) {
    const at = mapSourcePosition({ source: match[2], line: +match[3], column: match[4] - 1 });
    return `eval at ${match[1]} (${at.source}:${at.line}:${at.column + 1})`;
  }
  match = /^eval at ([^(]+) \((.+)\)$/.exec(origin);
  return match ? `eval at ${match[1]} (${mapEvalOrigin(match[2])})` : origin;
}

// What stands for `from` in the text of a frame, and the position; or null if that stays.
function placeOf(frame) {
  if (frame.isNative()) return null;
  const file = frame.getFileName() || frame.getScriptNameOrSourceURL();
  if (file) {
    const line = frame.getLineNumber();
    const column = frame.getColumnNumber();
    if (file.startsWith('node:') || line === null || column === null) return null;
    const at = maps.originalOf({ source: file, line, column: column - 1 });
    if (!at) return null;
    const from = `${file}:${line}:${column}`;
    return { from, to: `${at.source}:${at.line}:${at.column + 1}`, at, script: file, line, column };
  }
  const origin = frame.isEval() && frame.getEvalOrigin();
  if (!origin) return null;
  const to = mapEvalOrigin(origin);
  return to === origin ? null : { from: origin, to, at: null };
}

// The same, or null where that fails: a trace must not.
function safePlaceOf(frame) {
  try {
    return placeOf(frame);
  } catch (error) {
    maps.debug('%s: %s', String(frame), error.message);
    return null;
  }
}

const originalOf = frame => safePlaceOf(frame)?.at ?? null;

// The text that V8 makes, before and behind the place, if that is replaced.
function partsOf(frame) {
  const text = String(frame);
  const place = safePlaceOf(frame);
  const i = place ? text.lastIndexOf(place.from) : -1;
  if (i < 0) return { before: text, place: null, after: '' };
  return { before: text.slice(0, i), place, after: text.slice(i + place.from.length) };
}

// Only the place is replaced there, and the name of the function.
function textsOf(frames) {
  const all = frames.map(partsOf);
  maps.nameFrames(all.filter(({ place }) => place?.at));
  return all.map(({ before, place, after }) => before + (place ? place.to : '') + after);
}

// The name of a frame's function, whose place has an original.
function nameOf(frame, place) {
  const name = frame.getFunctionName();
  const asked = { before: name ? `${name} (` : '', place, after: name ? ')' : '' };
  maps.nameFrames([asked]);
  return asked.before.slice(0, -' ('.length) || name;
}

function wrapCallSite(frame) {
  const place = placeOf(frame);
  if (!place) return frame;
  const own = {};
  for (const name of Object.getOwnPropertyNames(Object.getPrototypeOf(frame))) {
    if (typeof frame[name] === 'function') own[name] = (...words) => frame[name](...words);
  }
  own.toString = () => textsOf([frame])[0];
  if (place.at) {
    own.getFunctionName = () => nameOf(frame, place);
    own.getFileName = own.getScriptNameOrSourceURL = () => place.at.source;
    own.getLineNumber = () => place.at.line;
    own.getColumnNumber = () => place.at.column + 1;
  } else {
    own.getEvalOrigin = () => place.to;
  }
  return own;
}

// The first lines of a stack, as V8 makes them; Node's own errors tell their code.
function headOf(error) {
  try {
    const { name, code, message } = error;
    const own = `${name} [${code}]: ${message}`;
    const isNodes = typeof code === 'string' && /^ERR_/.test(code) &&
      error.toString !== Error.prototype.toString && String(error) === own;
    return isNodes ? own : Error.prototype.toString.call(error);
  } catch {
    return '<error>';
  }
}

// For each error whose stack was made here, the position of its first frame, if that has one in a source.
const firsts = new WeakMap();

function prepareStackTrace(error, frames) {
  if (isFresh) maps.forget();
  if (frames.length > 0) firsts.set(error, originalOf(frames[0]));
  if (earlier) return amended(earlier.call(this, error, frames), error, frames);
  return [headOf(error), ...textsOf(frames)].join('\n    at ');
}

// ---- beside another package that was here first, such as a transpiler's

const AT = '    at ';
const isFrame = line => line.startsWith(AT);

// Where the frames begin in the text of a stack: behind the message, which may say anything.
function behindMessage(text, error) {
  try {
    const message = String(error.message ?? '');
    const i = text.indexOf(message);
    return i < 0 ? 0 : i + message.length;
  } catch {
    return 0;
  }
}

// Where a place stands in a text, from an index on, and isn't a part of a longer one; or -1.
function indexOfPlace(text, place, from) {
  const isWhole = i =>
    /^[\s("'`<[{,=]?$/.test(text.charAt(i - 1)) && !/^\d/.test(text.charAt(i + place.length));
  let i = text.indexOf(place, from);
  while (i >= 0 && !isWhole(i)) i = text.indexOf(place, i + 1);
  return i;
}

// What the other package made of a stack. It may know maps that can't be found otherwise, so only places that
// it left as V8 has them are replaced.
function amended(text, error, frames) {
  if (typeof text !== 'string') return text;
  const head = text.slice(0, behindMessage(text, error));
  const lines = text.slice(head.length).split('\n');
  const first = lines.findIndex(isFrame);
  const hasLineEach = lines.length - first === frames.length && lines.slice(first).every(isFrame);
  if (!hasLineEach) return head + withPlaces(lines.join('\n'), frames);
  // A place that it made for one frame may be that of another frame in the script.
  const texts = textsOf(frames);
  const told = (line, i) => (line === AT + frames[i] ? AT + texts[i] : withPlaces(line, [frames[i]]));
  return head + [...lines.slice(0, first), ...lines.slice(first).map(told)].join('\n');
}

// A text with the places of frames replaced, one behind the other.
function withPlaces(text, frames) {
  let from = 0;
  let out = '';
  const gone = new Set();
  for (const frame of frames) {
    const place = safePlaceOf(frame);
    if (!place || gone.has(place.from)) continue;
    const i = indexOfPlace(text, place.from, from);
    if (i < 0) {
      gone.add(place.from);
      continue;
    }
    out += text.slice(from, i) + place.to;
    from = i + place.from.length;
  }
  return out + text.slice(from);
}

// ---- errors that nobody catches

const POSITION = /:(\d+):(\d+)\)?$/;

// The first frame of an error whose stack is a text, as that of one that comes from a worker.
function firstIn(stack) {
  for (const line of stack.split('\n').slice(1)) {
    const match = isFrame(line) ? POSITION.exec(line) : null;
    if (!match) continue;
    const place = line.slice(AT.length, match.index).replace(/^async /, '');
    // `f (/a/out.js:1:2)`, or a place alone.
    const from = match[0].endsWith(')') ? place.indexOf(' (') : -1;
    return { source: from < 0 ? place : place.slice(from + 2), line: +match[1], column: match[2] - 1 };
  }
  return null;
}

function getErrorSource(error) {
  const { stack } = error;
  if (typeof stack !== 'string') return null;
  const at = firsts.has(error) ? firsts.get(error) : firstIn(stack);
  const code = at && maps.lineOf(at.source, at.line);
  if (!code) return null;
  return `${at.source}:${at.line}\n${code}\n${' '.repeat(Math.min(at.column, code.length))}^`;
}

// All of it, also into a pipe that is full for a while.
function writeError(text) {
  let bytes = Buffer.from(text);
  while (bytes.length > 0) {
    try {
      bytes = bytes.subarray(fs.writeSync(2, bytes));
    } catch (error) {
      if (error.code !== 'EAGAIN') return;
    }
  }
}

// As Node prints it, but for the line of the source. Where that isn't known, or the error's own code throws,
// Node prints the error itself.
function printed(error) {
  try {
    const source = getErrorSource(error);
    if (!source) return null;
    const colors = Boolean(process.stderr.isTTY && process.stderr.hasColors());
    return `${source}\n\n${inspect(error, { colors })}\n\nNode.js ${process.version}\n`;
  } catch {
    return null;
  }
}

function tell(error) {
  const text = printed(error);
  if (text) {
    writeError(text);
    process.exit(1);
  }
  if (!types.isNativeError(error)) tellSource();
}

function catchUncaught() {
  const { emit } = process;
  process.emit = function (type, error) {
    if (type === 'uncaughtException' && this.listenerCount(type) === 0) tell(error);
    return emit.apply(this, arguments);
  };
}

// ---- installing

const ENVIRONMENTS = ['node', 'auto', 'browser'];

function install(options = {}) {
  if (options.environment && !ENVIRONMENTS.includes(options.environment)) {
    throw new Error(`environment ${options.environment} is none of ${ENVIRONMENTS.join(', ')}`);
  }
  if (options.retrieveFile) maps.hookFiles(options.retrieveFile, options.overrideRetrieveFile);
  if (options.retrieveSourceMap) maps.hookMaps(options.retrieveSourceMap, options.overrideRetrieveSourceMap);
  if (options.hookRequire ?? isTranspiling()) hookRequire(maps.putFile);
  if (options.emptyCacheBetweenOperations) isFresh = true;
  if (!isFormatting) {
    isFormatting = true;
    if (typeof Error.prepareStackTrace === 'function') earlier = Error.prepareStackTrace;
    Error.prepareStackTrace = prepareStackTrace;
  }
  if (!isCatching && isMainThread && (options.handleUncaughtExceptions ?? true)) {
    isCatching = true;
    catchUncaught();
  }
}

const { retrieveSourceMap, unhook: resetRetrieveHandlers } = maps;
module.exports = {
  install, wrapCallSite, mapSourcePosition, retrieveSourceMap, getErrorSource, resetRetrieveHandlers,
};
