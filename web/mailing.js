// Signs of a mailing, the report that is on it, and texts to start from.

import { amountAsked, capitals, nameIn, readMailing, slotOf } from './judge.js';
import { allOwn } from './unit_rows.js';

/** @type {[RegExp, string][]} */
const SIGNS = [
  [/[\u201c\u201d\u201e\u201f\u00ab\u00bb]/g, '"'],
  [/[\u2018\u2019\u201a\u201b]/g, "'"],
  [/[\u00a0\u2000-\u200a\u202f\u205f\u3000]/g, ' '],
  [/[\u2010-\u2015\u2212]/g, '-'],
  [/\u2026/g, '...'],
  [/[\u200b-\u200d\u2060\ufeff\u00ad]/g, ''],
];

/** @param {string} text */
export const plainSigns = (text) => SIGNS.reduce((sofar, [signs, plain]) => sofar.replace(signs, plain), text);

/** @param {string} text */
export const oddSigns = (text) => [...new Set(text.match(/[^\t\x20-\x7e]/gu))];

/** @type {T.FitsMailing} */
export function fits({ text, orders: count, faults }, report) {
  const list = report.events.filter(({ line }) => line > 0);
  const events = new Map(list.map((event) => [event.line, event]));
  const faulty = new Set(faults.map(([line]) => line));
  const orders = readMailing(text).lines.filter(({ kind, line }) => kind === 'order' && !faulty.has(line));
  // Only the last one of the orders of a unit that have one slot counts.
  const counting = new Map(orders.map((order) => [
    `${slotOf(order.verb) ?? order.line} ${unitOf(order, events)}`, order]));
  return orders.length === count && `${faults}` === `${report.faults.map(({ line, number }) => [line, number])}`
    && events.size === list.length && events.size === counting.size
    && [...counting.values()].every((order) => fitsEvent(order, events)) && sameNames(orders, events, report);
}

/** @type {T.UnitOf} */
const unitOf = ({ form, unit }, events) => (form ? events.get(form)?.done : unit) ?? 0;

/** @type {T.FitsEvent} */
function fitsEvent(order, events) {
  const event = events.get(order.line);
  if (event?.verb !== order.verb || event.unit !== unitOf(order, events)) return false;
  const asked = amountAsked(order);
  return asked === null || event.done === undefined || event.done === asked
    || (slotOf(order.verb) !== null && event.done < asked);
}

/** @type {T.SameNames} */
function sameNames(orders, events, report) {
  const named = new Map(orders.filter(({ verb, words, line }) => verb === 'NAME' && capitals(words[1].text) === 'UNIT'
    && events.get(line)?.done !== undefined).map((order) => [unitOf(order, events), nameIn(order.words[2])]));
  return allOwn(report).every(({ number, name }) => (named.get(number) ?? name) === name);
}

/** @param {number} faction */
export const emptyMailing = (faction) => `#ATLANTIS ${faction}\n`;

/** @type {T.Template} */
export function template({ faction, month, regions }) {
  const lines = [`#ATLANTIS ${faction}`, `; orders for month ${(month ?? 0) + 1}`];
  for (const { number, name, units } of regions) {
    const own = units.filter((unit) => unit.own);
    if (own.length > 0) lines.push('', `; in region ${number} ${plain(name)}`);
    for (const { number: unit, name: called, men, money } of own) {
      lines.push(`UNIT ${unit} ; ${plain(called)}: ${men} men, ${money} money`, '');
    }
  }
  return [...lines, '#END', ''].join('\n').replace(/\n\n\n/g, '\n\n');
}

/** @param {string} name */
const plain = (name) => name.replace(/[^\x20-\x7e]/g, '?');

/** @type {T.FirstPlace} */
export function firstPlace(text) {
  const found = /^UNIT .*\n/im.exec(text) ?? /^#ATLANTIS .*\n/im.exec(text);
  return found ? found.index + found[0].length : 0;
}
