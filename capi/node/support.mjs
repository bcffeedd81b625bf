import { createRequire } from 'node:module';

export const {
  install, wrapCallSite, mapSourcePosition, retrieveSourceMap, getErrorSource, resetRetrieveHandlers,
} = createRequire(import.meta.url)('./support.js');
