// The table of units, upkeep and changes: docs/RULES.md, "Upkeep", and docs/TUTORIAL.md, whose reports are used here.

import assert from 'node:assert/strict';
import { test } from 'node:test';

import { parseReport } from '../../../web/report_parser.js';
import { changesBetween, findRows, rowsOf, sortRows, upkeepOf } from '../../../web/unit_rows.js';

const SECOND = parseReport(`Atlantis report, month 2, faction 1 "Avalon".
Orders:
Unit 1, line 4, BUY: done 20.
Unit 3, line 14, STUDY: done 600.
Region 6 "Port", plain: 386 peasants, 779 money.
Exits: north 2, south 10, east 7, west 5.
* Unit 1 "Smiths": 10 men, 370 money, guard, 10 tool, smithing 1 (300).
* Unit 2 "Teacher": 1 men, 0 money, smithing 1 (30).
* Unit 3 "Apprentices": 10 men, 0 money, smithing 1 (600).
- Unit 7 "Spies" of faction 2 "Bree": 3 men.
`);
const FOURTH = parseReport(`Atlantis report, month 4, faction 1 "Avalon".
Orders:
Unit 3: 2 starved.
Region 2 "Strand", plain: 373 peasants, 1000 money.
Exits: south 6, east 3, west 1.
* Unit 1 "Smiths": 10 men, 1090 money, guard, smithing 1 (300).
Region 6 "Port", plain: 392 peasants, 1000 money.
Exits: north 2, south 10, east 7, west 5.
* Unit 3 "Apprentices": 8 men, 240 money, guard, smithing 1 (480).
* Unit 4 "Guards": 1 men, 5 money.
- Unit 9 "Walkers" of faction 2 "Bree": 1 men.
`);

const unit = (men, money, number = 1) => ({ own: true, number, men, money, items: [] });
const starving = (units) => upkeepOf({ units }, 10).starving.map((one) => [one.unit.number, one.men]);

test('units of a region pay for each other, and who is short starves', () => {
  assert.deepEqual(starving([unit(3, 25), unit(1, 18, 2)]), []);
  assert.deepEqual(starving([unit(3, 25)]), [[1, 1]]);
  assert.deepEqual(starving([unit(3, 0, 1), unit(4, 45, 2), unit(2, 19, 3)]), [[1, 3], [3, 1]]);
  const { owed, has } = upkeepOf({ units: [unit(10, 40), unit(3, 0), { ...unit(5, null), own: false }] }, 10);
  assert.deepEqual([owed, has], [130, 40]);
});

test('a row has the orders and the events of its unit', () => {
  const rows = rowsOf(SECOND, new Map([[3, [{ text: 'WORK' }, { text: 'TAX' }]]]));
  assert.deepEqual(rows.map((row) => [row.unit.number, row.region.number, row.orders, row.events.map((event) => event.verb)]),
    [[1, 6, [], ['BUY']], [2, 6, [], []], [3, 6, ['WORK', 'TAX'], ['STUDY']]]);
});

test('rows are sorted and found', () => {
  const rows = rowsOf(FOURTH, new Map());
  const numbers = (list) => list.map((row) => row.unit.number);
  assert.deepEqual(numbers(sortRows(rows, (row) => row.unit.money, false)), [4, 3, 1]);
  assert.deepEqual(numbers(sortRows(rows, (row) => row.region.number, true)), [3, 4, 1]);
  assert.deepEqual(numbers(sortRows(rows, (row) => row.unit.name, false)), [3, 4, 1]);
  assert.deepEqual(numbers(findRows(rows, ' smith  ', (row) => row.unit.name)), [1]);
  assert.deepEqual(numbers(findRows(rows, '', (row) => row.unit.name)), [1, 3, 4]);
});

test('changes of the faction, of regions and of units', () => {
  const { faction, regions, units } = changesBetween(SECOND, FOURTH);
  assert.deepEqual(faction, [{ name: 'men', now: 19, change: -2 }, { name: 'money', now: 1335, change: 965 },
    { name: 'tool', now: 0, change: -10 }]);
  assert.deepEqual(regions.map(({ region, changes, seen, gone }) => [region.number, changes.map((c) => c.change),
    seen.map((one) => one.number), gone.map((one) => one.number)]),
  [[2, [10, 1090], [], []], [6, [-12, -125, -10], [9], [7]]]);
  assert.deepEqual(units.map((one) => [one.number, one.words, one.changes.map((c) => `${c.name} ${c.change}`)]), [
    [1, ['came from region 6'], ['money 720', 'tool -10']],
    [2, ['is gone'], []],
    [3, [], ['men -2', 'money 240']],
    [4, ['is new'], ['men 1', 'money 5']],
  ]);
});
