// The hook of loader.mjs, which runs on a thread of its own.
import { readFileSync } from 'node:fs';
import { fileURLToPath } from 'node:url';
import move from './move.js';

export async function load(url, context, next) {
  if (!url.endsWith('.ts')) return next(url, context);
  const file = fileURLToPath(url);
  const text = readFileSync(file, 'utf8');
  const source = move.compile(text) + move.comment(move.mapOf(file, text));
  return { format: 'module', shortCircuit: true, source };
}
