// Reads the text of a report. A line that isn't understood is kept in `unread`, with its number.

import { splitLines } from './texts.js';

// The forms of lines: `#part` is a number, `*part` some words, and `"part"` a name in quotes.
/** @type {[string, T.ReadLine][]} */
const FORMS = [
  ['Atlantis report, month #month, faction #faction "name"',
    (report, head) => report.month === null && Object.assign(report, head)],
  ['None', () => true],
  ['Line #line: #number (?<name>\\w+)', (report, fault) => report.faults.push(fault)],
  ['Unit #unit, line #line, (?<verb>[A-Z]+): done #done', (report, event) => report.events.push(event)],
  ['Unit #unit, line #line, (?<verb>[A-Z]+): fault #fault (?<name>\\w*)', (report, event) => report.events.push(event)],
  ['Unit #unit: #starved starved', (report, event) => report.events.push({ line: 0, ...event })],
  ['Region #number "name", *terrain: #peasants peasants, #money money', (report, region) => report.regions.push(
    { ...region, exits: {}, markets: [], structures: [], units: [] })],
  ['Exits: *list', (_, { list }, region) => region && (list === 'none' || readExits(region, list.split(', ')))],
  ['Market *item: #stock in stock at #price, #wanted wanted at #pays',
    (_, market, region) => region?.markets.push(market)],
  ['Structure #number "name", *kind, #done of #size, owner #owner',
    (_, structure, region) => region?.structures.push(structure)],
  ['\\* Unit #number "name": #men men, #money money(?<rest>|, .+)', (report, unit, region, forms) => addUnit(
    region, { ...unit, own: true, faction: report.faction ?? 0, factionName: report.name ?? '' }, forms)],
  ['- Unit #number "name" of faction #faction "factionName": #men men(?<rest>|, .+)',
    (_, unit, region, forms) => addUnit(region, { ...unit, own: false, money: null }, forms)],
];
const LINES = FORMS.map(([form, read]) => ({
  read,
  form: new RegExp(`^${form.replace(/#(\w+)/g, '(?<$1>\\d+)').replace(/\*(\w+)/g, '(?<$1>.+)')
    .replace(/"(\w+)"/g, '"(?<$1>[^"]*)"')}\\.$`),
  numbers: [...form.matchAll(/#(\w+)/g)].map(([, part]) => part),
}));

/** @type {T.ParseReport} */
export function parseReport(text, names = null) {
  const forms = names && restForms(names);
  /** @type {T.Report} */
  const report = { month: null, faction: null, name: null, faults: [], events: [], regions: [], unread: [] };
  splitLines(text).forEach((line, index) => {
    if (line.trim() === '' || line === 'Orders:' || readLine(report, line, forms)) return;
    report.unread.push({ line: index + 1, text: line });
  });
  return report;
}

/** @type {T.ReadLineReport} */
function readLine(report, line, forms) {
  for (const { form, read, numbers } of LINES) {
    const found = form.exec(line);
    if (!found) continue;
    /** @type {any} */
    const parts = { ...found.groups };
    for (const part of numbers) parts[part] = Number(parts[part]);
    return read(report, parts, report.regions.at(-1), forms);
  }
  return false;
}

/** @type {T.ReadExits} */
const readExits = (region, list) => list.every((text) => {
  const way = /^(north|south|east|west) (\d+)$/.exec(text);
  if (way) region.exits[/** @type {T.Way} */ (way[1])] = Number(way[2]);
  return way;
});

/** @type {T.AddUnitReport} */
function addUnit(region, { rest, ...parts }, forms) {
  const unit = { ...parts, guard: false, inside: 0, items: [], skills: [], other: [] };
  if (!forms || !readRest(unit, rest, forms)) for (const part of rest.split(', ').slice(1)) guessPart(unit, part);
  return region?.units.push(unit);
}

/** @type {T.RestFormsReport} */
function restForms({ items, skills }) {
  const item = `, (\\d+) (${anyOf(items)})(?=, |$)`;
  const skill = `, (${anyOf(skills)}) (\\d) \\((\\d+)\\)(?=, |$)`;
  return {
    whole: new RegExp(`^(?<guard>, guard)?(, in (?<inside>\\d+))?(?<items>(${item})*)(?<skills>(${skill})*)$`),
    item: new RegExp(item, 'g'), skill: new RegExp(skill, 'g'),
  };
}

/** @type {T.AnyOf} */
const anyOf = (names) => [...names].sort((one, other) => other.length - one.length)
  .map((name) => name.replace(/[^\w ]/g, '\\$&')).join('|') || '(?!)';

/** @type {T.ReadRest} */
function readRest(unit, rest, { whole, item, skill }) {
  const found = whole.exec(rest)?.groups;
  if (!found) return false;
  const { guard, inside = 0, items, skills } = found;
  Object.assign(unit, {
    guard: guard !== undefined, inside: Number(inside),
    items: [...items.matchAll(item)].map(([, amount, name]) => ({ amount: Number(amount), name })),
    skills: [...skills.matchAll(skill)]
      .map(([, name, level, days]) => ({ name, level: Number(level), days: Number(days) })),
  });
  return true;
}

/** @type {T.GuessPart} */
function guessPart(unit, part) {
  const isFirst = unit.items.length + unit.skills.length + unit.other.length === 0;
  const inside = /^in (\d+)$/.exec(part);
  const item = /^(\d+) (.+)$/.exec(part);
  const skill = /^(.+) ([0-5]) \((\d+)\)$/.exec(part);
  if (isFirst && part === 'guard' && !unit.inside) unit.guard = true;
  else if (isFirst && inside) unit.inside = Number(inside[1]);
  else if (item && unit.skills.length === 0) unit.items.push({ amount: Number(item[1]), name: item[2] });
  else if (skill) unit.skills.push({ name: skill[1], level: Number(skill[2]), days: Number(skill[3]) });
  else unit.other.push(part);
}
