'use strict';
// What other tools' rules say of frames, for names.py. Reads one JSON object: `script` and `map`, texts; `stacks`,
// of each stack its frames, `[line, column]` in the script, from 1, 0 for one in another script, null for what has no
// position; `files`, the sources by their names, and `places` in them, `[file, line, column]`. Writes for each frame
// `[place, caller, token]`: its original position; the name by source-map-support's rule, that of the mapping at the
// next frame below with a position; and the name by Sentry's, the token that names the innermost function in the
// script, as the map has it, or as it is. For each place it writes the name of the innermost function there, with
// its class. Functions are those of TypeScript's parser.
const { TraceMap, originalPositionFor, traceSegment } = require('@jridgewell/trace-mapping');
const ts = require('typescript');
const { SyntaxKind: K } = ts;

const NAMES = new Set([K.Identifier, K.PrivateIdentifier, K.StringLiteral]);
const isName = node => node && NAMES.has(node.kind);
const SETS = new Set([
  K.EqualsToken, K.BarBarEqualsToken, K.AmpersandAmpersandEqualsToken, K.QuestionQuestionEqualsToken,
]);

// The node that names what is assigned.
function target(left) {
  if (ts.isPropertyAccessExpression(left)) return left.name;
  if (ts.isElementAccessExpression(left)) return left.argumentExpression;
  return left;
}

// The node that names a function or class without a name of its own.
function given(node) {
  let at = node;
  while (ts.isAsExpression(at.parent) || ts.isParenthesizedExpression(at.parent)) at = at.parent;
  const up = at.parent;
  if (up.initializer === at && up.name) return up.name;
  if (ts.isBinaryExpression(up) && up.right === at && SETS.has(up.operatorToken.kind)) return target(up.left);
  return null;
}

const unwrapped = name => (name && ts.isComputedPropertyName(name) ? name.expression : name);
const nameOf = node => unwrapped(node.name || given(node));

// Where a text has functions: the start, the end, and the nodes of the name and the class.
function functionsOf(text, file) {
  const source = ts.createSourceFile(file, text, ts.ScriptTarget.Latest, true);
  const found = [];
  const visit = node => {
    if (ts.isConstructorDeclaration(node)) found.push([node.getStart(), node.end, nameOf(node.parent), null]);
    else if (ts.isFunctionLike(node) && node.body) {
      const holder = ts.isPropertyDeclaration(node.parent) ? node.parent.parent : node.parent;
      const owner = ts.isClassLike(holder) ? nameOf(holder) : null;
      found.push([node.getStart(), node.end, nameOf(node), owner]);
    } else if (ts.isClassLike(node) || ts.isClassStaticBlockDeclaration(node)) {
      found.push([node.getStart(), node.end, null, null]);
    }
    node.forEachChild(visit);
  };
  visit(source);
  return { source, found };
}

// The innermost function at a line and column from 1.
function innermost({ source, found }, line, column) {
  const at = source.getPositionOfLineAndCharacter(line - 1, column - 1);
  return found.filter(([start, end]) => start <= at && at < end).pop();
}

const textOf = node => (isName(node) ? node.text : null);

function parsedName(text, line, column) {
  const [, , name, owner] = innermost(text, line, column) || [];
  const own = textOf(name);
  return own && textOf(owner) ? `${textOf(owner)}.${own}` : own;
}

function tokenName(script, map, line, column) {
  const [, , name] = innermost(script, line, column) || [];
  if (!isName(name)) return null;
  const at = script.source.getLineAndCharacterOfPosition(name.getStart());
  const segment = traceSegment(map, at.line, at.character);
  const isThere = segment?.length === 5 && segment[0] >= at.character - 1;
  return isThere ? map.names[segment[4]] : name.text;
}

// A function of a place that is called once for each.
function once(call) {
  const known = new Map();
  return place => {
    const key = String(place);
    if (!known.has(key)) known.set(key, call(place));
    return known.get(key);
  };
}

function answers({ script, map, files, stacks, places }) {
  const texts = {};
  const parsed = file => (texts[file] ??= functionsOf(files[file], file));
  const answer = { places: places.map(([file, line, column]) => parsedName(parsed(file), line, column)) };
  if (!script) return answer;
  const trace = new TraceMap(map);
  const functions = functionsOf(script, 'script.js');
  const original = once(([line, column]) => originalPositionFor(trace, { line, column: column - 1 }));
  const tokens = once(([line, column]) => tokenName(functions, trace, line, column));
  answer.stacks = stacks.map(frames => {
    let below = null;
    return frames.reverse().map(frame => {
      if (frame === null) return null;
      const caller = below;
      const { source, line, column, name } = frame ? original(frame) : {};
      below = name ?? null;
      const place = source ? [source.replace(/.*\/|\.[jt]s(\?.*)?$/g, ''), line, column + 1] : null;
      return frame ? [place, caller, tokens(frame)] : null;
    }).reverse();
  });
  return answer;
}

console.log(JSON.stringify(answers(JSON.parse(require('fs').readFileSync(0, 'utf8')))));
