// Written by hand: no step makes it, so no map leads on from it.
export { default as app, App } from './tsc/app.js';
import { größte } from './tsc/größe.js';
console.log(`the largest: ${größte([1, 2])} ✓`);
