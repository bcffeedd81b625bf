'use strict';
// Asks the package for Node, in the folder that is named, where positions of scripts come from.
const fs = require('node:fs');

const { mapSourcePosition } = require(`${process.argv[2]}/support.js`);
const positions = JSON.parse(fs.readFileSync(0, 'utf8'));
console.log(JSON.stringify(positions.map(position => mapSourcePosition(position))));
