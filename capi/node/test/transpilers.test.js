'use strict';
// smap/register beside packages that compile what `require` reads, and beside formatters of stacks, before
// and behind it: positions are those of the sources. ts-node, @babel/register and esbuild are tried where they
// are installed, and programs in place of such packages, which hook in and format as those do.
const assert = require('node:assert');
const fs = require('node:fs');
const os = require('node:os');
const path = require('node:path');
const { spawnSync } = require('node:child_process');
const { test } = require('node:test');
const { needs } = require('./peers.js');

const folder = fs.realpathSync(fs.mkdtempSync(path.join(os.tmpdir(), 'smap-transpilers-')));
test.after(() => fs.rmSync(folder, { recursive: true }));

const REGISTER = require.resolve('smap/register');
const inFolder = name => path.join(folder, name);
const write = (name, text) => fs.writeFileSync(inFolder(name), text);

function run(preloads, name) {
  const words = preloads.flatMap(file => [file.endsWith('.mjs') ? '--import' : '--require', file]);
  const { NODE_OPTIONS, ...env } = process.env;
  const options = { encoding: 'utf8', cwd: folder, env };
  const { stdout, stderr, status } = spawnSync(process.execPath, [...words, inFolder(name)], options);
  return { out: stdout, err: stderr, status };
}

// Where each `new Error` of a program is, as a stack tells it.
function placesIn(name, text) {
  return text.split('\n').flatMap((line, l) => {
    const column = line.indexOf('new Error');
    return column < 0 ? [] : [`${inFolder(name)}:${l + 1}:${column + 1}`];
  });
}

// ---- programs

const TYPED = `

interface Cat { name: string }
interface Dog { name: string }
type Animal = Cat | Dog;

function fail(animal: Animal): never {
  throw new Error('message of ' + animal.name);
}
try {
  fail({ name: 'a' } as Cat);
} catch (error) {
  console.log((error as Error).stack);
}
console.log((<any>new Error('second')).stack);
`;

const NEW = `// a comment
class Cat {
  #name = 'a';
  fail(times = 2 ** 3) { throw new Error(\`message of \${this.#name} \${times}\`); }
}

try {
  new Cat().fail();
} catch (error) {
  console.log(error.stack);
}
console.log([...[1, 2]].map(() => new Error('second'))[0].stack);
`;

// The last program is for the compilers below, which move it, and change nothing else.
const MOVED = `try { throw new Error('first'); } catch (error) { console.log(error.stack); }
function f() { return new Error('second'); }
console.log(f().stack);
`;

const UNCAUGHT = '\nthrow new Error("nobody catches it");\n';

// A frame ends with its place.
const isIn = (text, place) => text.includes(`${place})`) || text.includes(`${place}\n`);

function isTold(preloads, name, text) {
  write(name, text);
  const { out, err, status } = run(preloads, name);
  const wants = placesIn(name, text);
  assert.deepEqual([err, status], ['', 0], out);
  for (const place of wants) assert.ok(isIn(out, place), `${place} in:\n${out}`);
  const count = out.split(`${inFolder(name)}:`).length - 1;
  assert.ok(count >= wants.length, out);
}

// The place is at the top of what is printed, or in the stack alone, as the package has it that prints.
function isToldUncaught(preloads, name) {
  write(name, UNCAUGHT);
  const { err, status } = run(preloads, name);
  const [place] = placesIn(name, UNCAUGHT);
  assert.equal(status, 1, err);
  assert.match(err, /nobody catches it/);
  assert.ok(isIn(err, place), `${place} in:\n${err}`);
}

// Each way around.
function bothWays(title, preload, programs, options) {
  for (const isFirst of [true, false]) {
    const preloads = isFirst ? [preload, REGISTER] : [REGISTER, preload];
    test(`${title} ${isFirst ? 'before' : 'behind'} smap/register`, options, () => {
      for (const [name, text] of Object.entries(programs)) {
        isTold(preloads, name, text);
        isToldUncaught(preloads, `uncaught-${name}`);
      }
    });
  }
}

// ---- ts-node and @babel/register

// A package is found without its being run.
function found(name) {
  try {
    return require.resolve(name);
  } catch {
    return null;
  }
}

write('babel.config.json', '{"presets":[["@babel/preset-env",{"targets":"ie 11"}]]}');
const typed = found('ts-node/register/transpile-only');
const babel = found('@babel/preset-env') && found('@babel/register');
bothWays('ts-node', typed, { 'typed.ts': TYPED }, needs('ts-node', typed));
bothWays('@babel/register', babel, { 'new.jsx': NEW, 'new.js': NEW }, needs('@babel/register', babel));

const standIn = name => path.join(__dirname, 'transpilers', `${name}.js`);

// Its hook is written here, and esbuild itself is the program.
const esbuild = spawnSync('esbuild', ['--version']).status === 0 && found('pirates');
const withEsbuild = { 'typed.ts': TYPED, 'new.js': NEW, 'new.jsx': NEW };
bothWays('a hook like esbuild-register', standIn('esbuild'), withEsbuild, needs('esbuild', esbuild));

// ---- what stands for them

bothWays('a package like ts-node', standIn('eager'), { 'eager.ts': MOVED });
bothWays('a package like @babel/register', standIn('lazy'), { 'lazy.js': MOVED, 'lazy.jsx': MOVED });
bothWays('a package like ts-node, of .tsx too', standIn('wide'), { 'wide.ts': MOVED, 'wide.tsx': MOVED });
bothWays('a package that has its maps for itself', standIn('apart'), { 'apart.ts': MOVED });

bothWays('a loader of modules like that of tsx', path.join(__dirname, 'transpilers', 'loader.mjs'), {
  'loaded.ts': MOVED,
});

// In the script the call is where the source has the error: three lines below, and seven columns behind.
const CROSSED = `try {         f(); } catch (error) { console.log(error.stack); }


function f() { throw new Error('crossed'); }
`;

test('a place in the script that is one of another frame in the source', () => {
  write('crossed.tsx', CROSSED);
  const { out } = run([standIn('wide'), REGISTER], 'crossed.tsx');
  const [, f, main] = out.split('\n');
  assert.equal(f, `    at f (${inFolder('crossed.tsx')}:4:22)`);
  assert.ok(main.includes(`${inFolder('crossed.tsx')}:1:15`), main);
});

test('a package that leaves stacks alone, before smap/register', () => {
  isTold([standIn('bare'), REGISTER], 'bare.jsx', MOVED);
  isToldUncaught([standIn('bare'), REGISTER], 'uncaught-bare.jsx');
});

test('a thrown value that is no error, and that nobody catches', () => {
  write('text.jsx', "\nconst f = () => { throw 'a text'; };\nsetTimeout(f, 1);\n");
  const { err, status } = run([standIn('bare'), REGISTER], 'text.jsx');
  assert.ok(err.includes(`${inFolder('text.jsx')}:2\nconst f = () => { throw 'a text'; };\n`), err);
  assert.equal(status, 1);
});

test('hookRequire finds the maps of one that comes later', () => {
  const support = JSON.stringify(require.resolve('smap/support'));
  write('hook.js', `require(${support}).install({ hookRequire: true });`);
  isTold([inFolder('hook.js'), standIn('bare')], 'bare.jsx', MOVED);
  isToldUncaught([inFolder('hook.js'), standIn('bare')], 'uncaught-bare.jsx');
});

// ---- other formatters

const { comment, compile, mapOf } = require('./transpilers/move.js');

// A script with its map, whose source is in another folder.
function isToldBy(formatter, program, check) {
  fs.mkdirSync(inFolder('src'), { recursive: true });
  write('formatter.js', formatter);
  const map = JSON.stringify({ ...JSON.parse(mapOf('a.js', program)), sources: ['src/a.js'] });
  write('src/a.js', program);
  write('a.js', compile(program) + comment(map));
  const { out, err } = run([inFolder('formatter.js'), REGISTER], 'a.js');
  assert.equal(err, '');
  check(out, inFolder('src/a.js'));
}

test('the form of stacks stays that of whoever set it first', () => {
  const form = `Error.prepareStackTrace = (error, frames) => JSON.stringify([error.message,
    ...frames.filter(frame => !frame.getFileName().startsWith('node:'))
      .map(frame => frame.getFileName() + ':' + frame.getLineNumber() + ':' + frame.getColumnNumber())]);`;
  isToldBy(form, '\nconst f = () => new Error("x");\nconsole.log(f().stack);', (out, source) => {
    assert.deepEqual(JSON.parse(out), ['x', `${source}:2:17`, `${source}:3:13`]);
  });
});

test('stacks that are no text stay', () => {
  const form = 'Error.prepareStackTrace = (error, frames) => frames;';
  isToldBy(form, 'console.log(Array.isArray(new Error("x").stack));', out => assert.equal(out, 'true\n'));
});

test('a place in a message stays, and one in a longer path', () => {
  const form = `Error.prepareStackTrace = (error, frames) =>
    String(error) + frames.map(f => '\\n    at /x' + f.getFileName() + ':' + f.getLineNumber() + ':' +
      f.getColumnNumber() + '\\n    at ' + f).join('');`;
  const program = 'const at = __filename + ":4:42";\nconsole.log(new Error(at).stack);';
  isToldBy(form, program, (out, source) => {
    const script = inFolder('a.js');
    const [head, longer, frame] = out.split('\n');
    assert.equal(head, `Error: ${script}:4:42`);
    assert.ok(longer.startsWith(`    at /x${script}:5:`), longer);
    assert.ok(frame.endsWith(`(${source}:2:13)`), frame);
  });
});

test('an error whose message throws', () => {
  const form = 'Error.prepareStackTrace = (error, frames) => ["x", ...frames].join("\\n    at ");';
  const program =
    'const e = { get message() { throw 1; } };\nError.captureStackTrace(e);\nconsole.log(e.stack);';
  isToldBy(form, program, (out, source) => assert.ok(out.includes(`(${source}:2:7)`), out));
});
