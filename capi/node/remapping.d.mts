import remapping = require('./remapping.js');

export default remapping;
export type LoaderContext = remapping.LoaderContext;
export type Options = remapping.Options;
export type Remapped = remapping.Remapped;
export type SourceMapInput = remapping.SourceMapInput;
export type SourceMapLoader = remapping.SourceMapLoader;
