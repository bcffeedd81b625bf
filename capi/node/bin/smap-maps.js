#!/usr/bin/env node
'use strict';
require('./run.js').run('smap-maps');
