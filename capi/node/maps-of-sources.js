'use strict';
// The maps that the sources of a script's map lead to, at every depth, as one map.

// How many levels of maps are followed.
const DEEPEST = 16;

// Says why none of the maps that the sources of a script's map lead to is followed.
class Unfollowed extends Error {}

/** Whether a map has mappings past the end of a text or of one of its lines, where all count these alike. */
function isPastEnd(map, text) {
  if (/[\u2028\u2029]/.test(text)) return false;
  const lines = text.split(/\r\n|\r|\n/);
  const { lines: count } = map.counts;
  return count > lines.length ||
    lines.slice(0, count).some((line, i) => map.lookup(i, Infinity)?.column > line.length);
}

class Chain {
  #leadOf;
  #open;
  #tell;
  #steps = [];         // all inner maps
  #files = new Map();  // those of files, by URL or path; null for one that is refused
  hasTexts = false;

  constructor({ leadOf, open, tell }) {
    this.#leadOf = leadOf;
    this.#open = open;
    this.#tell = tell;
  }

  composed(script, opened) {
    let made = opened.map;
    try {
      made = this.#followed(script, { ...opened }, 0);
    } catch (error) {
      this.#tell(`the sources of ${script}`, error);
    } finally {
      for (const { map } of this.#steps) map.close();
    }
    if (made !== opened.map) opened.map.close();
    return made;
  }

  // The map of a script at a level, composed with those of its sources, if one of these has any.
  #followed(script, step, level) {
    const { map, nameOf } = step;
    const inner = new Map();
    let depth = 0;
    step.isLookedAt = true;
    map.sources.map(nameOf).forEach((name, i) => {
      const found = name === null ? null : this.#source(script, name, map.content(i), level);
      if (found === null) return;
      inner.set(i, found.map);
      depth = Math.max(depth, 1 + found.depth);
    });
    step.depth = depth;
    try {
      return inner.size > 0 ? map.compose(inner) : map;
    } catch (error) {
      throw new Unfollowed(error.message);
    }
  }

  // The map of a source of a script's map, or null if it has none, or that can't be followed.
  #source(script, name, content, level) {
    try {
      const lead = this.#leadOf(name, content, script);
      return lead && this.#led(name, lead, level + 1);
    } catch (error) {
      if (error instanceof Unfollowed) throw error;
      this.#tell(name, error);
      return null;
    }
  }

  // The map of the source with this name, which is followed itself unless it is of another text.
  #led(name, lead, level) {
    const step = this.#step(name, lead);
    if (step === null) return null;
    if (isPastEnd(step.map, lead.text)) throw new Error('it is of another text: mappings begin past its end');
    if (!step.isLookedAt && level <= DEEPEST) {
      const own = step.map;
      step.map = this.#followed(name, step, level);
      if (step.map !== own) own.close();
    }
    // Without a depth it is looked at now, further out.
    if (step.depth !== null && level + step.depth <= DEEPEST) return step;
    throw new Unfollowed(`they lead on more than ${DEEPEST} deep, or back to a map before`);
  }

  // The map that a source names. That of a file is opened once.
  #step(name, { got, isInline }) {
    const known = isInline ? undefined : this.#files.get(got.url);
    if (known !== undefined) return known;
    if (!isInline) this.#files.set(got.url, null);
    const step = { ...this.#open(got, name), isLookedAt: false, depth: null };
    this.#steps.push(step);
    this.hasTexts ||= step.hasTexts;
    if (!isInline) this.#files.set(got.url, step);
    return step;
  }
}

/**
 * The map of a script, composed with the maps that its sources lead to; and whether there may be texts of
 * sources in these. `open` opens what was read of a map, as `opened` is: `map`, the names of its sources
 * (`nameOf` a URL), and whether it may have texts of these (`hasTexts`). `leadOf` says what a source of the map of
 * a script names, or null: what was read of its map (`got`), whether the source holds that (`isInline`), and its
 * own text. `tell` gets the faults of maps that aren't followed.
 */
function follow(script, opened, ways) {
  const chain = new Chain(ways);
  const map = chain.composed(script, opened);
  return { map, hasTexts: opened.hasTexts || chain.hasTexts };
}

module.exports = { follow };
