// Prints what TypeScript's parser says of files, for tests/functions/run: a line of JSON for each path on
// standard input, `[path, language, places]`. A place is a byte of the file at which something is called, made
// or thrown, or `.name` is read; and the name of the innermost function there, with its class, or null.
'use strict';
const fs = require('fs');
const ts = require(process.env.TYPESCRIPT || '/usr/share/nodejs/typescript');

const K = ts.SyntaxKind;
const SETS = new Set([
  K.EqualsToken, K.BarBarEqualsToken, K.AmpersandAmpersandEqualsToken, K.QuestionQuestionEqualsToken,
]);
const SOURCES = { '.ts': ts.ScriptKind.TS, '.mts': ts.ScriptKind.TS, '.cts': ts.ScriptKind.TS };
SOURCES['.tsx'] = ts.ScriptKind.TSX;

// The text of a name, or null for one that is computed.
function textOf(name) {
  if (!name) return null;
  if (ts.isIdentifier(name) || ts.isPrivateIdentifier(name)) return name.text;
  if (ts.isStringLiteral(name)) return name.text;
  if (ts.isComputedPropertyName(name) && ts.isStringLiteral(name.expression)) return name.expression.text;
  return null;
}

// What is set by an assignment to this.
function targetOf(left) {
  if (ts.isIdentifier(left)) return left.text;
  if (ts.isPropertyAccessExpression(left)) return left.name.text;
  if (ts.isElementAccessExpression(left) && ts.isStringLiteral(left.argumentExpression)) {
    return left.argumentExpression.text;
  }
  return null;
}

// The name that a function or a class without one has from where it stands, and its class.
function given(node) {
  let at = node;
  // The parser alone takes `X = function () {} as T` for a value that isn't the function.
  while (ts.isAsExpression(at.parent) || ts.isNonNullExpression(at.parent)
    || (ts.isSatisfiesExpression && ts.isSatisfiesExpression(at.parent))) at = at.parent;
  const up = at.parent;
  if (ts.isVariableDeclaration(up) || ts.isParameter(up) || ts.isBindingElement(up)) {
    return up.initializer === at && ts.isIdentifier(up.name) ? [textOf(up.name), null] : [null, null];
  }
  if (ts.isPropertyAssignment(up)) return [textOf(up.name), null];
  if (ts.isShorthandPropertyAssignment(up)) return [textOf(up.name), null];
  if (ts.isPropertyDeclaration(up) && up.initializer === at) return [textOf(up.name), classOf(up.parent)];
  if (ts.isBinaryExpression(up) && up.right === at && SETS.has(up.operatorToken.kind)) {
    return [targetOf(up.left), null];
  }
  if (ts.isExportAssignment(up) && !up.isExportEquals) return ['default', null];
  return [null, null];
}

const isDefault = node => ts.canHaveModifiers?.(node) !== false
  && (node.modifiers || []).some(modifier => modifier.kind === K.DefaultKeyword);

function classOf(node) {
  if (node.name) return node.name.text;
  return isDefault(node) ? 'default' : given(node)[0];
}

// The name of a function, and its class; undefined if the node is none.
function nameOf(node) {
  if (ts.isClassLike(node) || ts.isClassStaticBlockDeclaration(node)) return [null, null];
  if (ts.isMethodDeclaration(node) || ts.isGetAccessor(node) || ts.isSetAccessor(node)) {
    return [textOf(node.name), ts.isClassLike(node.parent) ? classOf(node.parent) : null];
  }
  if (ts.isConstructorDeclaration(node)) return [classOf(node.parent), null];
  if (ts.isFunctionDeclaration(node) || ts.isFunctionExpression(node)) {
    if (node.name) return [node.name.text, null];
    return isDefault(node) ? ['default', null] : given(node);
  }
  return ts.isArrowFunction(node) ? given(node) : undefined;
}

const isWord = text => text !== null && /^#?[\p{ID_Start}$_][\p{ID_Continue}$\u200c\u200d]*$/u.test(text);

function shown([name, owner]) {
  if (!isWord(name)) return null;
  return isWord(owner) ? `${owner}.${name}` : name;
}

// Where an engine says that a node is.
function placeOf(node) {
  if (ts.isCallExpression(node)) {
    const callee = node.expression;
    if (ts.isPropertyAccessExpression(callee)) return callee.name.getStart();
    return ts.isIdentifier(callee) ? callee.getStart() : node.arguments.pos - 1;
  }
  if (ts.isNewExpression(node) || ts.isThrowStatement(node)) return node.getStart();
  return ts.isPropertyAccessExpression(node) ? node.name.getStart() : undefined;
}

function places(source) {
  const found = new Map();
  const visit = (node, name) => {
    const own = nameOf(node);
    const inside = own === undefined ? name : shown(own);
    const place = placeOf(node);
    if (place !== undefined) found.set(place, name);
    node.forEachChild(child => {
      // A class begins with `class`, behind its decorators.
      const before = ts.isClassLike(node) && ts.isDecorator(child);
      visit(child, before ? name : inside);
    });
  };
  visit(source, null);
  return [...found];
}

// Places in bytes, of places in the units of JavaScript's strings.
function inBytes(text, found) {
  found.sort((a, b) => a[0] - b[0]);
  let unit = 0, byte = 0;
  return found.map(([place, name]) => {
    byte += Buffer.byteLength(text.slice(unit, place));
    unit = place;
    return [byte, name];
  });
}

for (const path of fs.readFileSync(0, 'utf8').split('\n').filter(Boolean)) {
  const bytes = fs.readFileSync(path);
  const text = bytes.toString();
  if (!Buffer.from(text).equals(bytes)) continue;
  const kind = SOURCES[path.slice(path.lastIndexOf('.'))] || ts.ScriptKind.JSX;
  const source = ts.createSourceFile(path, text, ts.ScriptTarget.Latest, true, kind);
  // What isn't of the language has no functions to speak of.
  if (source.parseDiagnostics.length > 0) continue;
  const language = kind === ts.ScriptKind.TS ? 'typescript' : 'javascript';
  console.log(JSON.stringify([path, language, inBytes(text, places(source))]));
}
