// The words of the page have the names and numbers of the pages in docs/ and of the program: no more, and no fewer.

import assert from 'node:assert/strict';
import { readFileSync } from 'node:fs';
import { test } from 'node:test';

import { LAST_COUNTS, MONTH_LONG } from '../../../web/judge.js';
import {
  bringsAmount, doneWords, EVENT_FAULTS, LINE_FAULTS, ORDERS, REFUSALS, STATUSES,
} from '../../../web/words.js';

const read = (path) => readFileSync(new URL(`../../../${path}`, import.meta.url), 'utf8');

// The lines of a section, from its heading to the next one.
const section = (path, title) => {
  const lines = read(path).split('\n');
  const start = lines.indexOf(`## ${title}`) + 1;
  assert.ok(start > 0, `${path} has no section ${title}`);
  const length = lines.slice(start).findIndex((line) => line.startsWith('## '));
  return lines.slice(start, length < 0 ? undefined : start + length);
};

// The first cells of each row of a section's tables.
const rows = (path, title) => section(path, title).filter((line) => line.startsWith('|'))
  .map((line) => line.split(/(?<!\\)\|/).slice(1, -1).map((cell) => cell.trim()));

// [number, name] of each row that begins so.
const numbered = (path, title) => rows(path, title)
  .filter(([number, name]) => /^\d+$/.test(number) && /^\w+$/.test(name))
  .map(([number, name]) => [Number(number), name]);

const namesOf = (table) => Object.keys(table).map((name, index) => [index + 1, name]);

test('each name of a table has words', () => {
  for (const table of [LINE_FAULTS, EVENT_FAULTS, REFUSALS, STATUSES]) {
    for (const [name, words] of Object.entries(table)) assert.match(`${name}: ${words}`, /^\w+: [a-z].{15,}\.$/, name);
  }
});

// The variants of an enumeration of the program, which are numbered from 1.
const variants = (path, name) => {
  const [, body] = new RegExp(`pub enum ${name} \\{\n([^]*?)\n\\}`).exec(read(path));
  return [...body.matchAll(/^ {4}(\w+)/gm)].map(([, variant], index) => [index + 1, variant]);
};

test('faults of lines', () => {
  const faults = namesOf(LINE_FAULTS);
  assert.deepEqual(faults, numbered('docs/PLAYER.md', 'The answer').filter(([number], index) => number === index + 1));
  assert.deepEqual(faults, variants('crates/atl_lines/src/fault.rt', 'LineFault'));
});

test('faults of orders', () => {
  const faults = namesOf(EVENT_FAULTS);
  assert.deepEqual(faults, numbered('docs/RULES.md', 'Events'));
  assert.deepEqual(faults, numbered('docs/PLAYER.md', 'Common faults'));
  assert.deepEqual(faults, variants('crates/atl_records/src/event.rt', 'EventFault'));
});

// What a page that joins, sends and fetches can't get.
const OF_CLOSING = ['WrongMonth', 'MonthLimit', 'WrongDice'];

test('refusals', () => {
  const [, body] = /pub enum Refusal \{\n([^]*?)\n\}/.exec(read('crates/atl_commands/src/command.rt'));
  const refusals = [...body.matchAll(/^ {4}(\w+)/gm)].map(([, name]) => name);
  const faults = ['Memory', 'Store', 'Closed'];
  const source = read('crates/atl_parsing/src/problem.rt');
  const problems = [...source.matchAll(/Problem::\w+(?:\(_\))? => "(\w+)"/g)].map(([, name]) => name);
  const answered = [...refusals, ...faults, ...problems].filter((name) => !OF_CLOSING.includes(name));
  assert.deepEqual(Object.keys(REFUSALS).sort(), answered.sort());
  for (const [, name] of numbered('docs/PLAYER.md', 'The answer')) {
    assert.ok(name in REFUSALS || namesOf(LINE_FAULTS).some(([, fault]) => fault === name), name);
  }
});

test('statuses that the program answers', () => {
  const statuses = section('docs/FORMATS.md', 'HTTP').flatMap((line) => [...line.matchAll(/\| (4\d\d|5\d\d)\b/g)]);
  for (const [, status] of statuses.filter(([, number]) => number !== '409')) assert.ok(status in STATUSES, status);
});

test('what is counted after done', () => {
  const counts = new Map(rows('docs/PLAYER.md', 'Your report').filter(([verbs]) => /^[A-Z]+(, [A-Z]+)*$/.test(verbs))
    .flatMap(([verbs, what]) => verbs.split(', ').map((verb) => [verb, what])));
  assert.ok(counts.size > 15);
  for (const [verb, what] of counts) {
    assert.equal(bringsAmount(verb), !what.startsWith('nothing'), verb);
    if (what.startsWith('nothing') && verb !== 'FORM') assert.equal(doneWords(verb, 0), 'done');
    else assert.match(doneWords(verb, 7), /\b7\b/, verb);
  }
  assert.match(counts.get('STUDY'), /days/);
  assert.match(doneWords('STUDY', 7), /days/);
  assert.match(doneWords('BUY', 0, 5), /\b0 of 5\b/);
  assert.match(doneWords('RECRUIT', 1, 5), /\b1 of 5\b/);
});

test('orders of which the last one of a unit counts', () => {
  const rules = section('docs/RULES.md', 'Orders of a month').join(' ');
  const [, verbs] = /([A-Z, ]+ and WORK) are month-long/.exec(rules);
  assert.deepEqual([...MONTH_LONG].sort(), verbs.match(/[A-Z]+/g).sort());
  const last = rows('docs/RULES.md', 'Orders of a month').filter(([orders, which]) => /^[A-Z]+$/.test(orders)
    && which.startsWith('the last one'));
  assert.deepEqual([...LAST_COUNTS].sort(), last.map(([orders]) => orders).sort());
});

test('forms and examples of orders', () => {
  const wanted = rows('docs/PLAYER.md', 'Orders').flatMap(([forms, example]) => (forms.startsWith('`')
    ? [[forms.replaceAll('`', '').replace('up to', '..'), example.split(',')[0].replaceAll('`', '')]] : []));
  assert.deepEqual(ORDERS.map(([form, example]) => [form, example || form]).sort(), wanted.sort());
  for (const [form, , does] of ORDERS) assert.match(does, /^\w.{8,}/, form);
});
