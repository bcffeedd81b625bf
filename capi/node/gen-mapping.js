'use strict';
const { layer } = require('./layers.js');
module.exports = layer(() => require('./gen-map.js'), '@jridgewell/gen-mapping');
