// A window for one unit, whose buttons write orders into the text, and a way back.

import { ordersByUnit, unitLine, wordFor, writeOrder } from './compose.js';
import { button, byId, el, fieldById, on, refill, tell } from './dom.js';
import { jumpTo, text } from './editor.js';
import { MOST_BYTES, MOST_NUMBER, readMailing } from './judge.js';
import { writeText } from './orders_panel.js';
import { unitTitle } from './report_view.js';
import { currentFaction } from './sign_in.js';
import { byteLength } from './texts.js';
import { counted, numbered } from './words.js';
import { reportNow, theWorld } from './world.js';

const NO_HEADER = 'Your text has no line #ATLANTIS. Put one at its top first.';
const TOO_LONG = 'Your text would be too long.';

const dialog = /** @type {HTMLDialogElement} */ (byId('click'));
/** @type {{unit: T.Unit, region: T.Region} | null} */
let chosen = null;
/** @type {{before: string, after: string}[]} */
let steps = [];

export const chosenUnit = () => chosen?.unit.number ?? 0;

/** @type {T.OpenOrders} */
export function openOrders(number) {
  const region = reportNow()?.regions.find(({ units }) => units.some((unit) => unit.own && unit.number === number));
  const unit = region?.units.find((one) => one.number === number);
  if (!region || !unit) return;
  chosen = { unit, region };
  byId('click-title').textContent = `Orders for ${unitTitle(unit)}`;
  byId('click-facts').textContent = `In region ${region.number} ${region.name}, ${region.terrain}. ${
    counted(unit.men, 'man', 'men')}, ${numbered(unit.money ?? 0)} money.`;
  refill('click-to', region.units.filter((one) => one !== unit)
    .map((one) => el('option', { value: one.number }, unitTitle(one))));
  refill('click-orders', groups(unit, region).filter((row) => row.length > 0)
    .map((row) => el('div', { class: 'row' }, row)));
  show('');
  dialog.showModal();
}

/** @type {T.Groups} */
function groups(unit, region) {
  const world = theWorld();
  const money = unit.money ?? 0;
  const { recruit_price: price = 0, recruit_fraction: fraction = 1 } = world?.rules ?? {};
  const recruits = price > 0 ? Math.min(money / price, region.peasants / fraction) : 1;
  const held = new Map(unit.items.map(({ name, amount }) => [name, amount]));
  const to = () => fieldById('click-to').value;
  const skills = world?.skill ?? unit.skills.map(({ name }) => ({ name, fee: 0 }));
  const made = world ? world.item.filter(({ skill }) => skill) : unit.items;
  /** @type {T.Go} */
  const go = (verb) => Object.entries(region.exits).map(([way, number]) => {
    const there = world?.region?.find((known) => known.number === number);
    return one(`${verb} ${way}`, there ? `${number} ${there.name}, ${there.terrain}` : `region ${number}`);
  });
  return [
    go('MOVE'), unit.inside ? go('SAIL') : [],
    region.markets.filter(({ stock }) => stock > 0).map(({ item, stock, price: cost }) => one(`BUY ${item}`,
      `${stock} at ${cost}`, () => `BUY ${amount(Math.min(stock, money / cost))} ${wordFor(item)}`)),
    region.markets.filter(({ item }) => held.has(item)).map(({ item, wanted, pays }) => one(`SELL ${item}`,
      `${wanted} at ${pays}`, () => `SELL ${amount(Math.min(wanted, held.get(item) ?? 0))} ${wordFor(item)}`)),
    [...held].filter(to).map(([item, most]) => one(`GIVE ${item}`, `${most}`,
      () => `GIVE ${to()} ${amount(most)} ${wordFor(item)}`)),
    [one('RECRUIT', price > 0 ? `at ${price}` : '', () => `RECRUIT ${amount(recruits)}`), one('TAX'), one('WORK')],
    skills.map(({ name, fee }) => one(`STUDY ${name}`, fee ? `fee ${numbered(fee * unit.men)}` : '',
      () => `STUDY ${wordFor(name)}`)),
    made.map(({ name }) => one(`PRODUCE ${name}`, '', () => `PRODUCE ${wordFor(name)}`)),
  ];
}

/** @param {number} most */
const amount = (most) => Math.min(
  MOST_NUMBER, Math.max(1, Math.floor(Number(fieldById('click-amount').value) || most)));

/** @type {T.One} */
const one = (title, note = '', order = () => title) => button(
  note ? `${title} (${note})` : title, () => write(order()));

/** @param {string} order */
function write(order) {
  const faction = currentFaction();
  if (!chosen || !faction) return;
  const before = text();
  const written = writeOrder(before, faction, chosen.unit.number, order, theWorld()?.known);
  if (written === null || byteLength(written.text) > MOST_BYTES) return show(written ? TOO_LONG : NO_HEADER);
  steps.push({ before, after: written.text });
  writeText(written.text);
  show(`Written on line ${written.line}: ${order}`);
}

// The step back is there only as long as nothing else was written.
function undo() {
  const step = steps.pop();
  if (!step) return;
  writeText(step.before);
  show('The last click is undone.');
}

/** @param {string} words */
function show(words) {
  if (steps.at(-1)?.after !== text()) steps = [];
  byId('click-undo').hidden = steps.length === 0;
  byId('click-answer').textContent = words;
  const orders = ordersByUnit(readMailing(text(), theWorld()?.known).lines).get(chosenUnit()) ?? [];
  byId('click-now').textContent = orders.map((order) => order.text).join('; ') || 'No orders yet.';
}

/** @type {T.RegionOrders} */
export const regionOrders = (number) => (reportNow()?.regions ?? []).flatMap(({ number: from, exits, units }) => {
  const own = units.filter((unit) => unit.own);
  if (from === number) return own.map((unit) => button(`Orders for ${unitTitle(unit)}`, () => openOrders(unit.number)));
  const way = Object.entries(exits).find(([, to]) => to === number)?.[0];
  return !way ? [] : own.flatMap((unit) => (unit.inside ? ['MOVE', 'SAIL'] : ['MOVE']).map((verb) => button(
    `${unitTitle(unit)}: ${verb} ${way}`, () => {
      openOrders(unit.number);
      write(`${verb} ${way}`);
    })));
});

/** @type {T.ShowUnit} */
export function showUnit(number) {
  tell('go', 'orders');
  jumpTo(unitLine(text(), number) ?? text().split('\n').length);
}

export function startOrderClicks() {
  on('click-undo', 'click', undo);
  on('click-close', 'click', () => dialog.close());
  on('click-text', 'click', () => {
    dialog.close();
    showUnit(chosenUnit());
  });
}
