// Shows the faction's units: what failed, who may starve, a table of all, and what changed in the month.

import { ordersByUnit } from './compose.js';
import { button, byId, el, fieldById, link, listOf, on, paragraph, refill, titledList } from './dom.js';
import { text } from './editor.js';
import { readMailing } from './judge.js';
import { chosenUnit, openOrders, showUnit } from './order_clicks.js';
import {
  eventWords, goodsOf, losses, skillsOf, strangerWords, unitTitle, upkeepWords, whereOf,
} from './report_view.js';
import { grouped } from './texts.js';
import { changesBetween, findRows, rowsOf, sortRows, sumOf, upkeepOf } from './unit_rows.js';
import { counted, NONE_KEPT, numbered } from './words.js';
import { reportNow, theWorld } from './world.js';

const MOST_NEWS = 12;
const AT_ONCE = 30;

/** @param {T.Event} event */
const failed = ({ fault, starved }) => fault !== undefined || starved !== undefined;
/** @param {T.Event} event */
const cameOf = (event) => (event.starved !== undefined ? `${numbered(event.starved)} starved`
  : `${event.verb}: ${event.fault === undefined ? eventWords(event) : event.name}`);

// A title, what the rows are sorted by, and what a cell shows if it is something else.
/** @type {[string, (row: T.Row) => string | number, ((row: T.Row) => T.Child | T.Child[])?][]} */
const COLUMNS = [
  ['Unit', ({ unit }) => unit.number, ({ unit }) => link(unitTitle(unit).slice(5), () => openOrders(unit.number))],
  ['Region', ({ region }) => region.number,
    ({ region, unit }) => [`${region.number} ${region.name}`, ...whereOf(unit)].filter(Boolean).join(', ')],
  ['Men', ({ unit }) => unit.men],
  ['Money', ({ unit }) => unit.money ?? 0],
  ['Goods', ({ unit }) => goodsOf(unit)],
  ['Skills', ({ unit }) => skillsOf(unit)],
  ['Orders', ({ orders }) => orders.length,
    ({ orders, unit }) => link(orders.join('; ') || 'none', () => showUnit(unit.number))],
  ['Last month', ({ events }) => events.filter(failed).length, ({ events }) => events.flatMap((event, index) => [
    index === 0 ? '' : '; ', failed(event) ? el('strong', {}, cameOf(event)) : cameOf(event)])],
];

/** @type {T.Row[]} */
let rows = [];
let sorted = 0;
let down = false;

/** @type {T.RowsIn} */
const rowsIn = (report) => (report ? rowsOf(report, ordersByUnit(readMailing(text(), theWorld()?.known).lines)) : []);

function showUnits() {
  if (byId('panel-units').hidden) return;
  const [report, before] = [reportNow(), reportNow(1)];
  rows = rowsIn(report);
  byId('units-all').hidden = rows.length === 0;
  refill('units-news', report ? newsOf(report) : paragraph('note', NONE_KEPT));
  byId('units-changes').hidden = before === null;
  refill('units-changes', report && before ? changesOf(before, report) : []);
  showRows();
}

/** @type {T.NewsOf} */
function newsOf(report) {
  const faults = grouped(report.events.filter(({ fault }) => fault !== undefined),
    (event) => `${event.verb}: ${eventWords(event)}`);
  const news = [...losses(report), ...report.regions.flatMap(shortWords), ...[...faults].map(([words, events]) => {
    const units = [...new Set(events.map(({ unit }) => unit))];
    return `${units.length === 1 ? 'Unit' : 'Units'} ${units.join(', ')}: ${words}`;
  })];
  const more = news.length > MOST_NEWS ? [`.. and ${news.length - MOST_NEWS} more, in the report.`] : [];
  return [el('p', {}, totals()), news.length === 0 ? null
    : listOf([...news.slice(0, MOST_NEWS), ...more], { class: 'news' })];
}

function totals() {
  const men = sumOf(rows, ({ unit }) => unit.men);
  const world = theWorld();
  return `${counted(rows.length, 'unit')}, ${counted(men, 'man', 'men')}, ${
    numbered(sumOf(rows, ({ unit }) => unit.money ?? 0))} money.${
    world ? ` Upkeep is ${numbered(men * world.rules.maintenance)} a month.` : ''}`;
}

/** @param {T.Region} region */
function shortWords(region) {
  const { starving } = upkeepOf(region, theWorld()?.rules.maintenance ?? 0);
  const who = starving.map(({ unit, men }) => `${numbered(men)} of unit ${unit.number}`).join(', ');
  return who === '' ? []
    : [`Region ${region.number} ${region.name}: ${upkeepWords(region)} If no money comes in, these starve: ${who}.`];
}

/** @param {T.Row} row */
const wordsIn = ({ unit, region, orders, events }) => [unit.number, unit.name, region.number, region.name,
  ...whereOf(unit), goodsOf(unit), skillsOf(unit), ...orders, ...events.map(cameOf)].join(' ');

function showRows() {
  const found = sortRows(findRows(rows, fieldById('units-find').value, wordsIn), COLUMNS[sorted][1], down);
  byId('units-count').textContent = found.length === rows.length ? ''
    : `${found.length} of ${counted(rows.length, 'unit')}`;
  const body = el('tbody');
  refill('units', el('thead', {}, el('tr', {}, COLUMNS.map(([title], index) => el('th', {
    scope: 'col', 'aria-sort': index !== sorted ? 'none' : down ? 'descending' : 'ascending',
  }, button(title, () => sortBy(index)))))), body);
  addRows(body, found);
}

/** @type {T.AddRows} */
function addRows(body, found, from = 0) {
  body.append(...found.slice(from, from + AT_ONCE).map(rowOf));
  if (from + AT_ONCE < found.length) setTimeout(() => body.isConnected && addRows(body, found, from + AT_ONCE));
}

/** @param {T.Row} row */
const rowOf = (row) => el('tr', { 'data-unit': row.unit.number }, COLUMNS.map(([, value, cell], index) => {
  const shown = cell ? cell(row) : value(row);
  return el(index === 0 ? 'th' : 'td', {}, typeof shown === 'number' ? numbered(shown) : shown);
}));

// The window for a unit was closed: its row shows its orders, and has the focus again.
function showOrders() {
  const shown = byId('units').querySelector(`[data-unit="${chosenUnit()}"]`);
  if (byId('panel-units').hidden || shown === null) return;
  rows = rowsIn(reportNow());
  const fresh = rows.filter(({ unit }) => unit.number === chosenUnit()).map(rowOf);
  shown.replaceWith(...fresh);
  fresh[0]?.querySelector('button')?.focus();
}

/** @param {number} index */
function sortBy(index) {
  down = index === sorted && !down;
  sorted = index;
  showRows();
  /** @type {HTMLElement} */ (byId('units').querySelectorAll('thead button')[index]).focus();
}

/** @type {T.ChangesOfUnits} */
function changesOf(before, now) {
  const { faction, regions, units } = changesBetween(before, now);
  return [el('summary', {}, `What changed since month ${before.month}`),
    ...titledList('h3', 'Your faction', faction.map(changeWords)),
    ...titledList('h3', 'Regions', regions.map(({ region: { number, name }, changes, seen, gone }) => (
      `${number} ${name}: ${[...changes.map(changeWords), ...seen.map((unit) => `came: ${strangerWords(unit)}`),
        ...gone.map((unit) => `gone: ${strangerWords(unit)}`)].join('; ')}`))),
    ...titledList('h3', 'Units', units.map((unit) => `${unitTitle(unit)}: ${
      [...unit.words, ...unit.changes.map(changeWords)].join('; ')}`))];
}

/** @param {T.Change} change */
const changeWords = ({ name, now, change }) => (
  `${change > 0 ? '+' : '\u2212'}${numbered(Math.abs(change))} ${name} (now ${numbered(now)})`);

export function startUnits() {
  on('units-find', 'input', showRows);
  on(document, 'faction kept imported world tab', showUnits);
  on('click', 'close', showOrders);
}
