// The rows of the table of units, what they owe, and what changed since another report.

import { grouped } from './texts.js';

/** @param {T.Unit[]} units */
const ownOf = (units) => units.filter((unit) => unit.own);

/** @param {T.Report} report */
export const allOwn = (report) => report.regions.flatMap((region) => ownOf(region.units));

/** @type {T.RowsOf} */
export const rowsOf = (report, orders) => report.regions.flatMap((region) => ownOf(region.units).map((unit) => ({
  unit, region, orders: (orders.get(unit.number) ?? []).map(({ text }) => text),
  events: report.events.filter((event) => event.unit === unit.number),
})));

/** @type {T.FindRows} */
export function findRows(rows, search, textOf) {
  const words = search.toLowerCase().split(/\s+/);
  return rows.filter((row) => words.every((word) => textOf(row).toLowerCase().includes(word)));
}

/** @type {T.SortRows} */
export function sortRows(rows, value, down) {
  return rows.map((row) => ({ row, key: value(row) })).sort((a, b) => {
    const order = typeof a.key === 'number' ? a.key - Number(b.key) : a.key.localeCompare(String(b.key), 'en');
    return (down ? -order : order) || a.row.unit.number - b.row.unit.number;
  }).map(({ row }) => row);
}

/** @template E @param {E[]} list @param {(entry: E) => number} of */
export const sumOf = (list, of) => list.reduce((sum, entry) => sum + of(entry), 0);

/** @type {T.UpkeepOf} */
export function upkeepOf(region, maintenance) {
  const units = ownOf(region.units).map((unit) => ({ unit, left: (unit.money ?? 0) - unit.men * maintenance }));
  let shared = sumOf(units, ({ left }) => Math.max(0, left));
  const starving = units.filter(({ left }) => left < 0).map(({ unit, left }) => {
    const given = Math.min(shared, -left);
    shared -= given;
    return { unit, men: Math.ceil((-left - given) / maintenance) };
  }).filter(({ men }) => men > 0);
  return {
    owed: sumOf(units, ({ unit }) => unit.men) * maintenance,
    has: sumOf(units, ({ unit }) => unit.money ?? 0),
    starving,
  };
}

/** @param {T.Unit[]} units */
const amountsOf = (units) => new Map([...grouped(units.flatMap(({ men, money, items }) => [
  { name: 'men', amount: men }, { name: 'money', amount: money ?? 0 }, ...items]), ({ name }) => name)]
  .map(([name, parts]) => [name, sumOf(parts, ({ amount }) => amount)]));

/** @type {T.ChangesOf} */
function changesOf(before, now) {
  const [old, fresh] = [amountsOf(before), amountsOf(now)];
  return [...new Set([...old.keys(), ...fresh.keys()])].map((name) => {
    const amount = fresh.get(name) ?? 0;
    return { name, now: amount, change: amount - (old.get(name) ?? 0) };
  }).filter(({ change }) => change !== 0);
}

/** @param {T.Report} report */
const unitsIn = (report) => new Map(report.regions.flatMap((region) => region.units.map(
  (unit) => [unit.number, { unit, region: region.number }])));

/** @type {T.ChangesBetween} */
export function changesBetween(before, now) {
  const [old, fresh] = [unitsIn(before), unitsIn(now)];
  const [mine, mineNow] = [allOwn(before), allOwn(now)];
  const units = [...new Set([...mine, ...mineNow].map(({ number }) => number))].sort((a, b) => a - b)
    .map((number) => unitChange(old.get(number), fresh.get(number)))
    .filter(({ words, changes }) => words.length + changes.length > 0);
  const regions = now.regions.map((region) => {
    const known = before.regions.find(({ number }) => number === region.number);
    /** @type {T.Others} */
    const others = (there, places) => (known && there
      ? there.units.filter(({ own, number }) => !own && places.get(number)?.region !== region.number) : []);
    return {
      region, changes: changesOf(ownOf(known?.units ?? []), ownOf(region.units)),
      seen: others(region, old), gone: others(known, fresh),
    };
  }).filter(({ changes, seen, gone }) => changes.length + seen.length + gone.length > 0);
  return { faction: changesOf(mine, mineNow), regions, units };
}

/** @type {T.UnitChange} */
function unitChange(old, fresh) {
  const { number, name } = (fresh ?? old)?.unit ?? { number: 0, name: '' };
  const moved = old && fresh && old.region !== fresh.region ? [`came from region ${old.region}`] : [];
  const words = old ? fresh ? moved : ['is gone'] : ['is new'];
  return { number, name, words, changes: fresh ? changesOf(old ? [old.unit] : [], [fresh.unit]) : [] };
}
