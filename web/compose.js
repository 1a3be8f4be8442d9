// Writes orders into the text of a mailing, whose other bytes all stay, and completes the word being typed.

import { nameIn, partAt, readMailing, slotOf, WORDS, wordsOf } from './judge.js';
import { grouped } from './texts.js';

const MOST = 8;

/** @type {T.WordFor} */
export const wordFor = (name) => (/^[^ \t;"_]+$/.test(name) ? name : `"${name}"`);

/** @type {T.WriteOrder} */
export function writeOrder(text, faction, unit, order, names = null) {
  if (text.trim() === '') return writeOrder(`#ATLANTIS ${faction}\n\n#END\n`, faction, unit, order, names);
  const { lines, hasHeader } = readMailing(text, names);
  if (!hasHeader) return null;
  const slot = slotOf(wordsOf(order)[0].text.toUpperCase());
  const old = slot === null ? undefined
    : lines.filter((line) => line.unit === unit && line.fault === 0 && slotOf(line.verb) === slot).pop();
  if (old) {
    const { text: line, words } = old;
    return change(text, old.line - 1, 1, [line.slice(0, words[0].from) + order + line.slice(words.at(-1)?.to)]);
  }
  const last = lines.filter((line) => line.unit === unit && line.verb !== 'FORM').pop();
  if (last) return change(text, last.line, 0, [(last.kind === 'order' ? /^[ \t]*/.exec(last.text)?.[0] : '') + order]);
  return addUnit(text, lines, unit, order);
}

/** @type {T.AddUnit} */
function addUnit(text, lines, unit, order) {
  const end = lines.findIndex((line) => line.kind === 'end');
  const at = end >= 0 ? end : lines.length - (lines.at(-1)?.text === '' ? 1 : 0);
  const gap = ['blank', 'header'].includes(lines[at - 1].kind) ? [] : [''];
  return change(text, at, 0, [...gap, `UNIT ${unit}`, order, ...(end >= 0 ? [''] : [])], gap.length + 1);
}

/** @type {T.ChangeCompose} */
function change(text, at, removed, fresh, place = 0) {
  const lines = text.split('\n');
  const end = lines[Math.max(0, at - 1 + removed)].endsWith('\r') ? '\r' : '';
  lines.splice(at, removed, ...fresh.map((line) => line + end));
  return { text: lines.join('\n'), line: at + 1 + place };
}

/** @type {T.UnitLine} */
export const unitLine = (text, unit) => readMailing(text).lines
  .filter((line) => line.kind === 'unit' && line.unit === unit).pop()?.line ?? null;

/** @type {T.OrdersByUnit} */
export function ordersByUnit(lines) {
  const orders = lines.filter(({ kind, unit, fault }) => kind === 'order' && unit !== null && fault === 0);
  const counting = new Map(orders.map((order) => [`${order.unit} ${slotOf(order.verb) ?? order.line}`, order]));
  return grouped([...counting.values()].sort((a, b) => a.line - b.line).map(({ unit, verb, text, words }) => ({
    unit, verb, text: text.slice(words[0].from, words.at(-1)?.to),
  })), ({ unit }) => unit);
}

/** @type {T.Completions} */
export function completions(line, at, lists) {
  const words = wordsOf(line.slice(0, at));
  const last = words.at(-1);
  if (last === undefined || /^[^ \t;"]/.test(line.slice(at)) || line.slice(last.to, at).includes(';')) return null;
  const isOpen = last.to === at && (!last.quoted || !/^".*"$/.test(line.slice(last.from, at)));
  if (!isOpen && last.to === at) return null;
  const from = isOpen ? last.from : at;
  const index = words.length - (isOpen ? 1 : 0);
  const begun = isOpen ? nameIn(last).toLowerCase() : '';
  const fitting = choicesOf(partAt(words, index) ?? '', lists).filter(({ name, note = '' }) => (
    name.toLowerCase().startsWith(begun) || (/^\d+$/.test(name) && note.toLowerCase().startsWith(begun))));
  if (fitting.length === 0 || (fitting.length === 1 && fitting[0].name.toLowerCase() === begun)) return null;
  return { from, choices: fitting.slice(0, MOST).map((choice) => {
    const text = wordFor(choice.name);
    const more = partAt([...wordsOf(line.slice(0, from)), ...wordsOf(text)], index + 1) !== null;
    return { ...choice, text: more ? `${text} ` : text };
  }) };
}

/** @type {T.ChoicesOf} */
const choicesOf = (part, lists) => (part.startsWith('unit') ? [...lists.unit, { name: 'NEW' }]
  : WORDS[part]?.map((name) => ({ name })) ?? lists[part] ?? []);
