import { createRequire } from 'node:module';

export const {
  GenMapping, addSegment, addMapping, maybeAddSegment, maybeAddMapping, setSourceContent, setIgnore,
  toDecodedMap, toEncodedMap, fromMap, allMappings,
} = createRequire(import.meta.url)('./gen-mapping.js');
