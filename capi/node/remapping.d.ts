/**
 * What `@ampproject/remapping` offers, over libsmap: one map out of a map and the maps of its sources. Sources
 * are told as they are there. A map with an error throws SmapError.
 */

import type { Segment } from './trace-mapping.js';

/**
 * A map whose sources are those that the maps of its sources lead to. Of several maps the first is the latest
 * one, each of them but the last has one source, and the loader is asked for the sources of the last.
 */
declare function remapping(
  input: remapping.SourceMapInput | remapping.SourceMapInput[],
  loader: remapping.SourceMapLoader,
  options?: boolean | remapping.Options,
): remapping.Remapped;

declare namespace remapping {
  /** A map: its text, or the object that its JSON stands for, whose mappings may be arrays. */
  type SourceMapInput = string | object;

  /** What a loader is told of a source, and may change. */
  interface LoaderContext {
    /** The source that has the map which names this one; empty in the first map. */
    readonly importer: string;
    /** 1 in the first map, and one more in each map of a source. */
    readonly depth: number;
    /** The source's name, and what it is called in the result or where its map is. */
    source: string;
    /** The source's text, if it isn't what the map has. */
    content: string | null | undefined;
    /** Whether the source is ignored, if it isn't as the map says. */
    ignore: boolean | undefined;
  }

  /** The map of a source; nothing if it has none. */
  type SourceMapLoader = (file: string, context: LoaderContext) => SourceMapInput | null | undefined | void;

  interface Options {
    /** Leave out the texts of sources. */
    excludeContent?: boolean;
    /** Mappings as arrays of lines of segments. */
    decodedMappings?: boolean;
  }

  interface Remapped {
    version: 3;
    file?: string;
    mappings: string | Segment[][];
    names: string[];
    sourceRoot?: undefined;
    sources: (string | null)[];
    sourcesContent?: (string | null)[];
    ignoreList?: number[];
    toString(): string;
  }
}

export = remapping;
