// Shows a report: what came of the orders, and the regions with all but the own units.

import { el, paragraph, titledList } from './dom.js';
import { amountAsked, readMailing } from './judge.js';
import { grouped } from './texts.js';
import { allOwn, upkeepOf } from './unit_rows.js';
import { bringsAmount, counted, doneWords, eventFaultWords, lineFaultWords, numbered } from './words.js';
import { theWorld } from './world.js';

const NO_MAILING = 'These orders were sent from elsewhere, or this browser does not keep them.';
const LATER = 'does not count: a later order takes its place.';
const SHOWN = ['unit', 'block', 'order'];

/** @type {T.ShowReport} */
export function showReport(report, mailing) {
  const { month, faction, name, regions, unread } = report;
  const names = new Map(regions.map((region) => [region.number, region.name]));
  return el('div', {}, el('h3', {}, `Month ${month}, faction ${faction} “${name}”`), ordersPart(report, mailing),
    regions.length > 0 ? regions.map((region) => showRegion(region, names)) : 'No unit with men is in any region.',
    unread.length === 0 ? null
      : paragraph('note warn', `This page cannot read ${counted(unread.length, 'line')} of the text below.`));
}

/** @type {T.OrdersPart} */
function ordersPart(report, mailing) {
  const rows = outcomes(report, mailing);
  return el('section', {}, el('h3', {}, 'What came of the orders'),
    losses(report).map((words) => paragraph('answer bad', words)), rows.length === 0 ? 'None.' : [
      el('table', { class: 'outcomes' },
        el('tr', {}, ['Line', 'Order', 'What came of it'].map((title) => el('th', { scope: 'col' }, title))), rows),
      mailing ? null : paragraph('help', NO_MAILING)]);
}

/** @type {T.OutcomesOf} */
function outcomes(report, mailing) {
  const faults = grouped(report.faults, ({ line }) => line);
  const events = grouped(report.events.filter(({ line }) => line > 0), ({ line }) => line);
  const lines = mailing ? readMailing(mailing.text).lines : [...new Set([...faults.keys(), ...events.keys()])]
    .sort((a, b) => a - b).map((line) => bareLine(line, events.get(line)?.[0].verb));
  return lines.filter(({ line, kind }) => faults.has(line) || SHOWN.includes(kind)).map((entry) => {
    const { line, kind, text, unit } = entry;
    const [wrong, came] = [faults.get(line) ?? [], events.get(line) ?? []];
    const asked = amountAsked(entry);
    const words = [...wrong.map(({ number, name }) => lineFaultWords(number, name)),
      ...came.map((event) => eventWords(event, unit, asked))];
    if (words.length === 0 && kind === 'order') words.push(LATER);
    const tone = wrong.length > 0 ? 'failed' : came.length > 0 ? toneOf(came[0], asked) : 'idle';
    return el('tr', { class: tone, 'data-line': line }, el('td', {}, `${line}`),
      el('td', {}, el('code', {}, text)), el('td', { class: 'outcome' }, words.join(' ')));
  });
}

/** @type {T.BareLine} */
const bareLine = (line, text = '') => (
  { line, text, kind: 'order', words: [], verb: '', unit: null, form: null, fault: 0 });

/** @type {T.ToneOf} */
function toneOf({ verb = '', done = 0, fault }, asked) {
  if (fault !== undefined || (done === 0 && bringsAmount(verb))) return 'failed';
  return asked !== null && done < asked ? 'less' : 'done';
}

/** @type {T.EventWords} */
export function eventWords(event, unit = event.unit, asked = null) {
  const who = event.unit === unit || event.unit === 0 ? '' : `unit ${event.unit}: `;
  return who + (event.fault === undefined ? doneWords(event.verb ?? '', event.done ?? 0, asked)
    : eventFaultWords(event.fault, event.name));
}

/** @type {T.Losses} */
export function losses(report) {
  const { events } = report;
  const own = new Map(allOwn(report).map((unit) => [unit.number, unit]));
  const hasLeft = events.some(({ verb, done }) => verb === 'QUIT' && done !== undefined);
  const starved = events.filter((event) => event.starved !== undefined).map(({ unit: number, starved: men = 0 }) => {
    const unit = own.get(number);
    return `${unit ? unitTitle(unit) : `Unit ${number}`}: ${numbered(men)} starved${unit ? '' : ', and it is gone'}.`;
  });
  const gone = events.filter(({ verb, done = 0 }) => verb === 'FORM' && done > 0 && !own.has(done) && !hasLeft);
  return [...starved, ...gone.map(({ line, done }) =>
    `Unit ${done}, which line ${line} formed, is gone: it had no men at the end of the month.`)];
}

/** @type {T.ShowRegion} */
export function showRegion(region, names) {
  const { number, name, terrain, peasants, money } = region;
  const units = new Map(region.units.map((unit) => [unit.number, unit.name]));
  return el('section', {}, el('h3', {}, `Region ${number} ${name}, ${terrain}`),
    el('p', {}, `${numbered(peasants)} peasants, ${numbered(money)} money. ${exitWords(region.exits, names)} ${
      upkeepWords(region)}`),
    titledList('h4', 'Markets', region.markets.map(({ item, stock, price, wanted, pays }) => `${item}: ${
      numbered(stock)} in stock at ${numbered(price)}, ${numbered(wanted)} wanted at ${numbered(pays)}`)),
    titledList('h4', 'Structures', region.structures.map(({ done, size, owner, ...structure }) => `Structure ${
      structure.number} ${structure.name}, ${structure.kind}: ${
      done === size ? 'complete' : `${numbered(done)} of ${numbered(size)} done`}, ${
      owner === 0 ? 'no owner seen' : `owner unit ${owner} ${units.get(owner) ?? ''}`}`)),
    titledList('h4', 'Units of others', region.units.filter(({ own }) => !own).map((unit) => [
      `${strangerWords(unit)}: ${counted(unit.men, 'man', 'men')}`, ...whereOf(unit), goodsOf(unit), skillsOf(unit),
    ].filter(Boolean).join(', '))));
}

/** @type {T.UpkeepWords} */
export function upkeepWords(region) {
  const { owed, has } = upkeepOf(region, theWorld()?.rules.maintenance ?? 0);
  return owed === 0 ? '' : `Upkeep ${numbered(owed)}, you have ${numbered(has)}.`;
}

/** @type {T.ExitWords} */
export const exitWords = (exits, names) => `Exits: ${Object.entries(exits)
  .map(([way, number]) => `${way} ${number} ${names.get(number) ?? ''}`.trim()).join(', ') || 'none'}.`;

/** @type {T.UnitTitle} */
export const unitTitle = ({ number, name }) => (name === `Unit ${number}` ? name : `Unit ${number} ${name}`);

/** @type {T.UnitWords} */
export const strangerWords = (unit) => `${unitTitle(unit)} of faction ${unit.faction} “${unit.factionName}”`;

/** @param {T.Unit} unit */
export const whereOf = ({ guard, inside }) => [guard ? 'on guard' : '', inside ? `in structure ${inside}` : ''];

/** @type {T.UnitWords} */
export const goodsOf = ({ items, other }) => [
  ...items.map(({ amount, name }) => `${numbered(amount)} ${name}`), ...other].join(', ');

/** @type {T.UnitWords} */
export const skillsOf = ({ skills }) => skills
  .map(({ name, level, days }) => `${name} ${level} (${counted(days, 'day')})`).join(', ');
