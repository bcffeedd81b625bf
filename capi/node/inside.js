'use strict';
// What index.js lends to the layers, and to nobody else:
//
//     mapOf(handle)                the map of a handle
//     open(text, url, word)        a map, and whether its text may have a word in it
//     scriptsOf(url, map)          scripts of one whose map stays open as long
//     listedAt(map, line, column)  whether a mapping is at a position, or else before it on the line. Of
//                                  several that are at it, the first. `found` has its line and column, and
//                                  of the listing its source, source line, source column and name; NONE for
//                                  no source or name
//     nameOf(map, i)               the i-th name
//     urlOf(map, source)           the URL of a distinct source
//     writtenOf(map, i)            the i-th source as listed, as the text writes it
module.exports = { NONE: 2 ** 32 - 1 };
