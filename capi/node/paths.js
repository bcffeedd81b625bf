'use strict';
// Paths and URLs of sources as source-map puts them together: by their text, without a base.
const URL_TEXT = /^((?:([\w+\-.]+):)?\/\/(?:\w+:\w+@)?[\w.-]*(?::\d+)?)(.*)$/;

// What stands before the path of a URL, its scheme, and the path; null for what is a path alone.
function partsOf(name) {
  const found = URL_TEXT.exec(name);
  return found && { site: found[1], scheme: found[2], path: found[3] };
}

function withoutSlashes(name) {
  let end = name.length;
  while (end > 0 && name[end - 1] === '/') end--;
  return name.slice(0, end);
}

// Without `.`, `..` and empty steps, as far as may be.
function normal(name) {
  const { site = '', path } = partsOf(name) ?? { path: name };
  if (site && path === '') return site;
  const out = [];
  for (const part of path.split(/\/+/)) {
    const last = out.at(-1);
    if (part === '.') continue;
    if (part !== '..' || last === undefined || last === '..') out.push(part);
    else if (last !== '') out.pop();
  }
  return site + (out.join('/') || (path[0] === '/' ? '/' : '.'));
}

/** A path or URL in a folder, which is one too. */
function join(folder, name) {
  const root = folder || '.', path = name || '.';
  const to = partsOf(path), from = partsOf(root);
  if (to && to.scheme === undefined) return (from?.scheme ? `${from.scheme}:` : '') + path;
  if (to || /^data:.+,.+$/.test(path)) return path;
  if (/^([\w+\-.]+:)?\/\/$/.test(root)) return root + path;
  const above = from ? from.path || '/' : root;
  const joined = path[0] === '/' ? path : normal(`${withoutSlashes(above)}/${path}`);
  return from ? from.site + joined : joined;
}

/** A path or URL relative to a folder, or as it is where they have no folder in common. */
function relative(folder, name) {
  let root = (folder || '.').replace(/\/$/, '');
  let above = 0;
  while (!name.startsWith(`${root}/`)) {
    const slash = root.lastIndexOf('/');
    if (slash < 0) return name;
    root = root.slice(0, slash);
    if (/^([^/]+:\/)?\/*$/.test(root)) return name;
    above++;
  }
  return '../'.repeat(above) + name.slice(root.length + 1);
}

module.exports = { join, relative };
