// The names that people type: a part of a function's name that fits one alone is enough, without the object.
// share/scripts/profhouse_names.py has the same rules.

import { bare, shown, toBytes } from "./texts.js";

// The names, as pairs of object and name, that a word fits best: those that it is, else those that it is but for brackets
// and what stands before a `::`, else those of which it is a part, and last without regard to capitals.
export function fitting(names, word) {
  const raw = toBytes(word), small = word.toLowerCase(), key = it => `${it.object}:${it.name}`;
  const texts = new Map(names.map(it => [it, shown(it.name)]));
  const bares = new Map();
  const bareOf = it => {
    if (!bares.has(it)) bares.set(it, bare(texts.get(it)));
    return bares.get(it);
  };
  const levels = [it => key(it) === raw || shown(key(it)) === word, it => it.name === raw || texts.get(it) === word];
  if (word) {
    levels.push(it => bareOf(it) === word || bareOf(it).endsWith("::" + word),
      it => texts.get(it).includes(word) || bareOf(it).includes(word) || it.name.includes(raw),
      it => texts.get(it).toLowerCase().includes(small) || bareOf(it).toLowerCase().includes(small));
  }
  for (const fits of levels) {
    const found = names.filter(fits);
    if (found.length) return found;
  }
  return [];
}
