'use strict';
// The page: it takes files and a log, has the worker run the programs over them, and shows what these wrote,
// as text alone. It has no rules of the format.
const $ = id => document.getElementById(id);
const MOST_NAMES = 500;
const MOST_FINDINGS = 5_000;
const MOST_PASTED = 2 ** 20; // characters of a log that the field shows
const PAUSE = 200; // milliseconds, while one types
const BROWSERS = 'Chrome, Edge and other Chromium from 133 on, and Firefox from 134 on, have it.';
const TABS = ['trace', 'lint', 'view'];

// ---- the worker

const code = new Blob([$('worker').textContent], { type: 'text/javascript' });
const worker = new Worker(URL.createObjectURL(code));
const waiting = new Map();
let lastId = 0;

function tell(to, message = {}) {
  const id = ++lastId;
  worker.postMessage({ id, to, ...message });
  return new Promise((answer, fault) => waiting.set(id, { answer, fault }));
}

worker.onmessage = ({ data }) => {
  if (data.read !== undefined) {
    $('busy-said').textContent = `${megabytes(data.read)} read`;
    return;
  }
  const { answer, fault } = waiting.get(data.id);
  waiting.delete(data.id);
  if (data.fault === undefined) answer(data.answer);
  else fault(new Error(data.fault));
};

// ---- what is held

let held = new Map(); // the files of the build, by their paths
let logFile = null; // a log that is a file
let isReady = false;
let leftOut = new Set(); // names of folders that weren't taken

const count = number => number.toLocaleString('en');
const several = (number, one) => `${count(number)} ${one}${number === 1 ? '' : 's'}`;
const megabytes = size =>
  (size < 1e5 ? `${Math.ceil(size / 1000)} KB` : `${count(+(size / 1e6).toPrecision(3))} MB`);
const isMap = path => /\.map$/i.test(path);
const isScript = path => /\.([cm]?js|css)$/i.test(path);
const isLog = path =>
  !path.includes('/') && (!path.includes('.') || /\.(log|txt|out|err|jsonl?|ndjson)$/i.test(path));
const SKIPPED = ['node_modules', '.git'];
const isSkipped = path => path.split('/').slice(1, -1).find(name => SKIPPED.includes(name));

/** Takes files, [path, file], into the build, or as the log. */
async function take(files) {
  const logs = files.filter(([path]) => isLog(path));
  const build = files.filter(([path]) => !isLog(path) && !isSkipped(path));
  for (const [path] of files) if (!isLog(path) && isSkipped(path)) leftOut.add(isSkipped(path));
  if (logs.length > 0) await takeLog(logs[0][1]);
  for (const [path, file] of build) held.set(path, file);
  if (build.length > 0) await tell('hold', { files: build });
  showHeld();
  update();
}

async function takeLog(file) {
  const isShort = file.size <= MOST_PASTED;
  $('log').value = isShort ? await file.text() : '';
  logFile = isShort ? null : file;
  showLog();
}

function showLog() {
  $('log').hidden = logFile !== null;
  $('log-file').hidden = logFile === null;
  $('log-file').textContent = logFile && `${logFile.name}, ${megabytes(logFile.size)}`;
  $('log-clear').hidden = !logFile && !$('log').value;
}

function showHeld() {
  document.body.dataset.files = String(held.size);
  const names = [...held.keys()].filter(path => isMap(path) || isScript(path)).sort();
  const maps = names.filter(isMap);
  const size = [...held.values()].reduce((sum, file) => sum + file.size, 0);
  const skipped = leftOut.size > 0 ? ` Without ${[...leftOut].join(' and ')} within it.` : '';
  $('build-said').textContent = held.size > 0
    ? `${several(held.size, 'file')}, ${several(maps.length, 'map')} among them, ${megabytes(size)}.${skipped}`
    : 'Drop a folder with scripts and maps anywhere on this page, or pick it.';
  $('held').replaceChildren(...names.slice(0, MOST_NAMES).map(name => element('li', name)));
  const left = names.length - MOST_NAMES;
  if (left > 0) $('held').append(element('li', `and ${count(left)} more`));
  $('held').hidden = names.length === 0;
  $('clear').hidden = held.size === 0;
  $('example').hidden = held.size > 0;
  const chosen = $('map').value;
  $('map').replaceChildren(...maps.map(name => new Option(name, name)));
  if (maps.length > 1) $('map').append(new Option('all scripts with a map', folder()));
  if ([...$('map').options].some(option => option.value === chosen)) $('map').value = chosen;
}

// ---- files that come in

const asked = (object, name) => new Promise((answer, fault) => object[name](answer, fault));

/** What is in a folder that was dropped: handles, or entries, of which each call gives some. */
async function* within(folder) {
  if (folder.values) {
    yield* folder.values();
    return;
  }
  const reader = folder.createReader();
  for (let some; (some = await asked(reader, 'readEntries')).length > 0;) yield* some;
}

/** Adds all files of what was dropped, folder by folder. */
async function addFiles(one, above, found) {
  const path = above + one.name;
  if (one.kind === 'file' || one.isFile) {
    found.push([path, await (one.getFile ? one.getFile() : asked(one, 'file'))]);
    if (found.length % 100 === 0) showBusy(`${count(found.length)} files`);
  } else if (isSkipped(`${path}/`)) {
    leftOut.add(one.name);
  } else {
    for await (const below of within(one)) await addFiles(below, `${path}/`, found);
  }
}

/** What was dropped: a promise of a handle, or an entry. Chromium reads no entries for a page that is a file. */
const droppedOf = item => (item.getAsFileSystemHandle ? item.getAsFileSystemHandle() : item.webkitGetAsEntry());

// All that is asked of the transfer is asked at once: it is empty later.
async function takeDropped(transfer) {
  const items = [...transfer.items].filter(item => item.kind === 'file').map(droppedOf);
  const text = transfer.getData('text/plain');
  if (items.length === 0) {
    if (text) setLog(text);
    return;
  }
  const found = [];
  showBusy('reading');
  for (const one of await Promise.all(items)) await addFiles(one, '', found);
  showBusy(null);
  await take(found);
}

function setLog(text) {
  logFile = null;
  $('log').value = text;
  showLog();
  update();
}

const picked = input => {
  const files = [...input.files].map(file => [file.webkitRelativePath || file.name, file]);
  input.value = '';
  return files;
};

addEventListener('dragover', event => {
  event.preventDefault();
  document.body.classList.add('over');
});
addEventListener('dragleave', event => {
  if (!event.relatedTarget) document.body.classList.remove('over');
});
addEventListener('drop', event => {
  event.preventDefault();
  document.body.classList.remove('over');
  takeDropped(event.dataTransfer).catch(showFault);
});
addEventListener('paste', event => {
  const text = event.clipboardData.getData('text/plain');
  if (event.target !== $('log') && text) setLog(text);
});
for (const id of ['folder', 'files']) $(id).onchange = () => take(picked($(id))).catch(showFault);
$('log-pick').onchange = () => takeLog(picked($('log-pick'))[0][1]).then(update).catch(showFault);
$('log-clear').onclick = () => setLog('');
$('clear').onclick = async () => {
  held = new Map();
  leftOut = new Set();
  await tell('hold');
  showHeld();
  update();
};
$('example').onclick = () => {
  const map = '{"version":3,"sources":["src/cart.ts"],"names":["total","item","price","toFixed"],' +
    '"sourcesContent":["type Item = { price: number };\\n\\nconst total = (item: Item) => ' +
    'item.price.toFixed(2);\\n\\ntotal({} as Item);\\n"],' +
    '"mappings":"AAEA,MAAMA,EAASC,GAAeA,EAAKC,MAAMC,QAAQ,GAEjDH,EAAM,CAAA"}';
  const script = 'const t=i=>i.price.toFixed(2);t({});\n//# sourceMappingURL=cart.js.map\n';
  $('log').value ||= "TypeError: Cannot read properties of undefined (reading 'toFixed')\n" +
    '    at t (https://shop.example/cart.js:1:20)\n    at https://shop.example/cart.js:1:31\n';
  showLog();
  take([['dist/cart.js', new File([script], 'cart.js')], ['dist/cart.js.map', new File([map], 'cart.js.map')]]);
};
let typing;
$('log').oninput = () => {
  showLog();
  clearTimeout(typing);
  typing = setTimeout(update, PAUSE);
};
for (const id of ['hide', 'context', 'map']) $(id).onchange = () => update();

// ---- results

const element = (name, textContent, className = '') =>
  Object.assign(document.createElement(name), { textContent, className });

function showBusy(text) {
  $('busy').hidden = text === null;
  $('busy-said').textContent = text;
}

/** What a program said: it is a fault where the status says so. */
function showSaid(id, text, isBad) {
  $(id).textContent = text.trimEnd();
  $(id).hidden = text === '';
  $(id).classList.toggle('bad', isBad);
}

function showHint(tab, text) {
  $(`${tab}-hint`).textContent = text;
  $(`${tab}-hint`).hidden = text === '';
}

function showFault(error) {
  showBusy(null);
  for (const tab of TABS) showSaid(`${tab}-said`, `smap: ${error.message}`, true);
}

const urls = new Map();

/** A link to what a program wrote. The one before it is given up. */
function urlOf(blob, name) {
  if (urls.has(name)) URL.revokeObjectURL(urls.get(name));
  urls.set(name, URL.createObjectURL(blob));
  return urls.get(name);
}

/** The folder that the programs are given: the one that was dropped or picked, or else that of all files. */
function folder() {
  const tops = new Set([...held.keys()].map(path => (path.includes('/') ? path.split('/')[0] : '.')));
  const [top] = tops;
  return tops.size === 1 && /^[\w.][\w. +@-]*$/.test(top) ? top : '.';
}

const log = () => {
  if (logFile) return logFile;
  const text = $('log').value;
  return text ? new File([text.endsWith('\n') ? text : `${text}\n`], 'pasted.log') : null;
};

async function trace() {
  const file = log();
  $('traced').hidden = $('trace-row').hidden = true;
  showSaid('trace-said', '', false);
  if (held.size === 0 || !file) {
    showHint('trace', file ? 'The log is here; its build is missing.' : held.size > 0
      ? 'The build is here; paste or drop a log.' : 'The translated log appears here.');
    return;
  }
  const options = [];
  if ($('hide').checked) options.push('--hide-ignored');
  if ($('context').checked) options.push('--context', '2');
  const words = ['smap-trace', ...options, folder()];
  const done = await ask('trace', { words, log: file, type: 'text/plain;charset=utf-8' });
  if (!done) return;
  const { shown, isAll, output, errors, status, time } = done;
  showHint('trace', '');
  showSaid('trace-said', errors, status !== 0);
  $('trace-save').href = urlOf(output, 'trace');
  const more = isAll ? '' : ' shown, more in the file';
  $('trace-state').textContent = `${several(shown.length, 'line')}${more}, ${seconds(time)}`;
  const parts = shown.flatMap(([line, isNew]) => [isNew ? element('span', line) : line, '\n']);
  $('traced').replaceChildren(...parts);
  $('traced').hidden = $('trace-row').hidden = shown.length === 0;
}

const seconds = time => (time < 995 ? `${Math.round(time)} ms` : `${(time / 1000).toFixed(1)} s`);

function row({ level, file, line, column, message, rule }) {
  const made = document.createElement('tr');
  const at = line === null ? '' : `:${line}:${column}`;
  made.append(element('td', level, level), element('td', file + at, 'where'), element('td', message),
    element('td', rule, 'note'));
  return made;
}

async function lint() {
  $('linted').hidden = true;
  showSaid('lint-said', '', false);
  if (held.size === 0) {
    showHint('lint', 'The findings appear here once there is a build.');
    return;
  }
  const done = await ask('lint', { words: ['smap-maps', 'lint', '--format', 'json', folder()] });
  if (!done) return;
  const found = (await done.output.text()).split('\n').filter(Boolean).map(line => JSON.parse(line));
  showSaid('lint-said', done.errors, done.status > 1 || (done.status === 1 && found.length === 0));
  $('linted').tBodies[0].replaceChildren(...found.slice(0, MOST_FINDINGS).map(row));
  $('linted').hidden = found.length === 0;
  const shown = found.length > MOST_FINDINGS ? `, of which the first ${count(MOST_FINDINGS)} are shown` : '';
  showHint('lint', found.length > 0 ? `${several(found.length, 'finding')}${shown}, ${seconds(done.time)}.`
    : done.status === 0 ? 'Nothing is wrong with this build.' : '');
}

async function view() {
  const name = $('map').value;
  $('viewed').hidden = true;
  showSaid('view-said', '', false);
  $('view-row').hidden = !name;
  for (const id of ['view-open', 'view-save']) $(id).hidden = true;
  if (!name) {
    showHint('view', held.size > 0 ? 'The build has no map.' : 'A map appears here once there is a build.');
    return;
  }
  const done = await ask('view', { words: ['smap-view', name], type: 'text/html;charset=utf-8' });
  if (!done) return;
  showHint('view', '');
  showSaid('view-said', done.errors, done.status !== 0);
  if (done.output.size === 0) return;
  const url = urlOf(done.output, 'view');
  $('viewed').src = url;
  $('view-open').href = $('view-save').href = url;
  $('view-save').download = `${isMap(name) ? name.split('/').at(-1) : 'maps'}.html`;
  for (const id of ['viewed', 'view-open', 'view-save']) $(id).hidden = false;
}

const shows = { trace, lint, view };
const runs = { trace: 0, lint: 0, view: 0 };
let underWay = 0;

/** Runs a program for a tab, and gives what came of it, or null where that is out of date by then. */
async function ask(tab, message) {
  const run = runs[tab];
  underWay++;
  showBusy(message.words[0]);
  try {
    const done = await tell('ask', message);
    return run === runs[tab] ? done : null;
  } finally {
    if (--underWay === 0) showBusy(null);
  }
}

const chosen = () => TABS.find(tab => !$(tab).hidden);

/** Shows the chosen tab anew. What comes meanwhile is taken up at the end, once. */
let isShowing = false;
let isStale = false;
async function update() {
  isStale = true;
  runs[chosen()]++;
  if (!isReady || isShowing) return;
  isShowing = true;
  while (isStale) {
    isStale = false;
    delete document.body.dataset.shown;
    await shows[chosen()]().catch(showFault);
  }
  isShowing = false;
  document.body.dataset.shown = chosen();
}

function choose(name) {
  for (const tab of TABS) {
    $(tab).hidden = tab !== name;
    $(`tab-${tab}`).setAttribute('aria-selected', String(tab === name));
    $(`tab-${tab}`).tabIndex = tab === name ? 0 : -1;
  }
  update();
}

const STEPS = { ArrowRight: 1, ArrowLeft: TABS.length - 1 };
for (const tab of TABS) {
  $(`tab-${tab}`).onclick = () => choose(tab);
  $(`tab-${tab}`).onkeydown = event => {
    const next = { Home: 0, End: TABS.length - 1 }[event.key] ??
      (event.key in STEPS ? (TABS.indexOf(tab) + STEPS[event.key]) % TABS.length : -1);
    if (next < 0) return;
    event.preventDefault();
    choose(TABS[next]);
    $(`tab-${TABS[next]}`).focus();
  };
}

$('trace-copy').onclick = async () => {
  getSelection().selectAllChildren($('traced'));
  document.execCommand('copy');
  getSelection().removeAllRanges();
};

const cannotRun = why => `This browser can't run the programs: ${why}. ${BROWSERS}`;
worker.onerror = event => showSaid('trace-said', cannotRun(event.message), true);
tell('start', { wasm: $('module').textContent, template: $('template').textContent }).then(() => {
  isReady = true;
  document.body.dataset.ready = String(Math.round(performance.now()));
  update();
}, error => {
  showHint('trace', '');
  showSaid('trace-said', cannotRun(error.message), true);
});
