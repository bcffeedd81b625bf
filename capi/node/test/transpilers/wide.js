'use strict';
// Hooks in as ts-node does where it compiles `.tsx` as well.
require('./eager.js');

require.extensions['.tsx'] = require.extensions['.ts'];
