// What the page reads of a report: docs/FORMATS.md, "Reports".

import assert from 'node:assert/strict';
import { test } from 'node:test';

import { parseReport } from '../../../web/report_parser.js';

const REPORT = `Atlantis report, month 2, faction 1 "Avalon".

Orders:
Line 5: 2 UnknownOrder.
Unit 1, line 4, RECRUIT: done 3.
Unit 1, line 6, TAX: fault 12 NotGuarding.
Unit 2: 1 starved.

Region 7 "Far Coast", plain: 300 peasants, 1200 money.
Exits: north 8, west 3.
Market wood: 12 in stock at 5, 4 wanted at 6.
Structure 1 "Lodge", lodge, 3 of 10, owner 1.
* Unit 1 "Woodcutters": 4 men, 120 money, guard, in 1, 5 wood, lumberjack 1 (30).
- Unit 9 "Strangers" of faction 2 "Bree": 2 men.
`;

test('each line of a report is read', () => {
  const report = parseReport(REPORT);
  assert.deepEqual([report.month, report.faction, report.name], [2, 1, 'Avalon']);
  assert.deepEqual(report.faults, [{ line: 5, number: 2, name: 'UnknownOrder' }]);
  assert.deepEqual(report.events, [{ unit: 1, line: 4, verb: 'RECRUIT', done: 3 },
    { unit: 1, line: 6, verb: 'TAX', fault: 12, name: 'NotGuarding' }, { unit: 2, line: 0, starved: 1 }]);
  const [region] = report.regions;
  assert.deepEqual([region.number, region.name, region.terrain, region.peasants, region.money],
    [7, 'Far Coast', 'plain', 300, 1200]);
  assert.deepEqual(region.exits, { north: 8, west: 3 });
  assert.deepEqual(region.markets, [{ item: 'wood', stock: 12, price: 5, wanted: 4, pays: 6 }]);
  assert.deepEqual(region.structures, [{ number: 1, name: 'Lodge', kind: 'lodge', done: 3, size: 10, owner: 1 }]);
  const [own, other] = region.units;
  assert.deepEqual([own.own, own.men, own.money, own.guard, own.inside], [true, 4, 120, true, 1]);
  assert.deepEqual(own.items, [{ amount: 5, name: 'wood' }]);
  assert.deepEqual(own.skills, [{ name: 'lumberjack', level: 1, days: 30 }]);
  assert.deepEqual([other.own, other.faction, other.factionName, other.men, other.money], [false, 2, 'Bree', 2, null]);
  assert.deepEqual(report.unread, []);
});

test('a line that no rule fits is kept with its number', () => {
  assert.deepEqual(parseReport('Atlantis report, month 0, faction 1 "A".\nHello\n').unread,
    [{ line: 2, text: 'Hello' }]);
});

const unitLine = (rest) => 'Atlantis report, month 1, faction 1 "A".\nRegion 1 "R", plain: 1 peasants, 1 money.\n'
  + `* Unit 1 "U": 2 men, 3 money${rest}.\n`;
const unitOf = (rest, names) => parseReport(unitLine(rest), names).regions[0].units[0];

test('with the names of the world an item that looks like a skill is an item, and a comma may be in a name', () => {
  const names = { items: ['cart 1 (30)', 'wood', 'wood, best', 'guard', 'in 3'], skills: ['lumberjack', 'long, bow'] };
  const unit = unitOf(', guard, in 4, 2 cart 1 (30), 5 wood, best, 6 wood, long, bow 1 (30), lumberjack 0 (7)', names);
  assert.deepEqual([unit.guard, unit.inside, unit.other], [true, 4, []]);
  assert.deepEqual(unit.items, [{ amount: 2, name: 'cart 1 (30)' }, { amount: 5, name: 'wood, best' },
    { amount: 6, name: 'wood' }]);
  assert.deepEqual(unit.skills, [{ name: 'long, bow', level: 1, days: 30 }, { name: 'lumberjack', level: 0, days: 7 }]);
});

test('names that the world does not have are read as without it', () => {
  const unit = unitOf(', 5 wood, sailing 2 (90)', { items: [], skills: [] });
  assert.deepEqual(unit.items, [{ amount: 5, name: 'wood' }]);
  assert.deepEqual(unit.skills, [{ name: 'sailing', level: 2, days: 90 }]);
});

test('what begins with a number is an item', () => {
  assert.deepEqual(unitOf(', 2 cart 1 (30)', null).items, [{ amount: 2, name: 'cart 1 (30)' }]);
});
