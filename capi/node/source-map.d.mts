export * from './source-map.js';
