// The world: the file world.json beside the page. Where it is missing or has another form there is no world.

import { tell } from './dom.js';
import { parseReport } from './report_parser.js';
import { currentFaction } from './sign_in.js';
import { monthsOf, reportOf } from './store.js';
import { jsonIn } from './texts.js';

/** @type {T.World | null} */
let world = null;

export const theWorld = () => world;

/** @type {T.ReadReport} */
export const readReport = (text) => parseReport(text, world?.names);

// The latest report of the faction that is kept, or the one kept `back` months before; or null.
export function reportNow(back = 0) {
  const text = reportOf(currentFaction(), monthsOf(currentFaction()).at(-1 - back));
  return text === null ? null : readReport(text);
}

/** @type {T.WorldOf} */
export function worldOf(value) {
  const lists = [value?.item, value?.skill, value?.kind];
  if (value?.format !== 1 || !Number.isInteger(value.rules?.maintenance)) return null;
  if (!lists.every((list) => Array.isArray(list) && list.every((row) => typeof row?.name === 'string'))) return null;
  const [items, skills, kinds] = lists.map((list) => list.map((/** @type {{name: string}} */ { name }) => name));
  const [item, skill, kind] = [items, skills, kinds].map((names) => new Set(names.map(
    (/** @type {string} */ name) => name.toLowerCase())));
  return { ...value, names: { items, skills }, known: { item, skill, kind } };
}

export async function loadWorld() {
  const text = await fetch('world.json', { cache: 'no-cache' }).then((reply) => (reply.ok ? reply.text() : ''))
    .catch(() => '');
  world = worldOf(jsonIn(text));
  if (world) tell('world');
}
