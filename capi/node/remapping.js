'use strict';
const { layer } = require('./layers.js');
module.exports = layer(() => require('./chains.js'), '@ampproject/remapping');
