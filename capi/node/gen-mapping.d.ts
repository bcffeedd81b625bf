/**
 * What `@jridgewell/gen-mapping` offers for making maps, over libsmap. Mappings may be added in any order:
 * they are put in order of generated positions, and stay as they were added where these are equal. A number
 * that no map has throws a RangeError that names it, and nothing is added then.
 */

import type { Segment } from './trace-mapping.js';

/** A map that is being made. */
export class GenMapping {
  constructor(options?: Options);
  file: string | null | undefined;
  sourceRoot: string | null | undefined;
}

export interface Options {
  file?: string | null;
  sourceRoot?: string | null;
}

/** A position: the line counts from 1, and the column from 0. */
export interface Pos {
  line: number;
  column: number;
}

/** A mapping, as `allMappings` tells it. */
export type Mapping =
  | { generated: Pos; source: undefined; original: undefined; name: undefined }
  | { generated: Pos; source: string; original: Pos; name: string | undefined };

/** A mapping, as `addMapping` takes it. The content is that of a source that is new. */
export type MappingInput =
  | { generated: Pos; source?: null; original?: null; name?: null; content?: null }
  | { generated: Pos; source: string; original: Pos; name?: string | null; content?: string | null };

export interface SourceMapV3 {
  version: 3;
  file?: string | null;
  names: readonly string[];
  sourceRoot?: string;
  sources: readonly (string | null)[];
  sourcesContent?: readonly (string | null)[];
  /** The numbers of sources that are ignored; absent if there are none. */
  ignoreList?: readonly number[];
}

export interface EncodedSourceMap extends SourceMapV3 {
  mappings: string;
}

export interface DecodedSourceMap extends SourceMapV3 {
  mappings: readonly (readonly Segment[])[];
}

interface AddSegment {
  (map: GenMapping, genLine: number, genColumn: number,
    source?: null, sourceLine?: null, sourceColumn?: null, name?: null, content?: null): void;
  (map: GenMapping, genLine: number, genColumn: number,
    source: string, sourceLine: number, sourceColumn: number,
    name?: string | null, content?: string | null): void;
}

/** Adds a mapping. Its lines and columns count from 0. */
export const addSegment: AddSegment;
/** Adds a mapping, unless the mapping before it on its line has the same original and name. */
export const maybeAddSegment: AddSegment;
/** Adds a mapping. Its lines count from 1, and its columns from 0. */
export function addMapping(map: GenMapping, mapping: MappingInput): void;
/** Adds a mapping, unless `maybeAddSegment` would not. */
export function maybeAddMapping(map: GenMapping, mapping: MappingInput): void;
/** Sets the content of a source, which is added if it isn't there. */
export function setSourceContent(map: GenMapping, source: string, content: string | null): void;
/** Puts a source on the ignore list, or takes it off. It is added if it isn't there. */
export function setIgnore(map: GenMapping, source: string, ignore?: boolean): void;
/** The map as an object with mappings as arrays. */
export function toDecodedMap(map: GenMapping): DecodedSourceMap;
/** The map as an object with a mappings string. */
export function toEncodedMap(map: GenMapping): EncodedSourceMap;
/** A map to go on with: its text, the object that its JSON stands for, or a `TraceMap`. */
export function fromMap(input: string | object): GenMapping;
/** The mappings in order. */
export function allMappings(map: GenMapping): Mapping[];

export {};
