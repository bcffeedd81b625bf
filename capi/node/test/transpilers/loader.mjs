// Hooks in as tsx does for ECMAScript modules: by a loader, with each map in the text that is compiled, and
// Node's own source maps turned on to read them.
import { register } from 'node:module';

register('./loads.mjs', import.meta.url);
process.setSourceMapsEnabled(true);
