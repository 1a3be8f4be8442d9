// Lines, bytes and values of texts, and lists by a key.

/** @type {T.SplitLines} */
export const splitLines = (text) => text.split('\n').map((line) => (line.endsWith('\r') ? line.slice(0, -1) : line));

/** @param {string} text */
export const byteLength = (text) => new TextEncoder().encode(text).length;

/** @type {<T>(act: () => T, otherwise: T) => T} the second where the first fails */
export function attempt(act, otherwise) {
  try {
    return act();
  } catch {
    return otherwise;
  }
}

/** @param {string} text */
export const jsonIn = (text) => attempt(() => JSON.parse(text), null);

/** @type {<E, K>(list: E[], keyOf: (entry: E) => K) => Map<K, E[]>} */
export function grouped(list, keyOf) {
  const groups = new Map();
  for (const entry of list) {
    const key = keyOf(entry);
    if (groups.has(key)) groups.get(key).push(entry);
    else groups.set(key, [entry]);
  }
  return groups;
}

/** @type {T.FollowLines} */
export function followLines(old, fresh) {
  const places = new Array(old.length).fill(-1);
  const longer = fresh.length - old.length;
  let [start, end] = [0, old.length];
  for (; start < Math.min(end, end + longer) && old[start] === fresh[start]; start += 1) places[start] = start;
  for (; start < Math.min(end, end + longer) && old[end - 1] === fresh[end - 1 + longer]; end -= 1) {
    places[end - 1] = end - 1 + longer;
  }
  const found = linesByText(fresh, start, end + longer);
  for (const [text, lines] of linesByText(old, start, end)) {
    const there = found.get(text) ?? [];
    if (there.length === lines.length) lines.forEach((line, index) => { places[line] = there[index]; });
  }
  return places;
}

/** @type {T.LinesByText} */
const linesByText = (lines, start, end) => grouped(
  Array.from({ length: end - start }, (_, index) => start + index), (line) => lines[line]);
