// Orders that are written by click: docs/RULES.md, "Reading a mailing" and "Orders of a month".

import assert from 'node:assert/strict';
import { test } from 'node:test';

import { ordersByUnit, unitLine, wordFor, writeOrder } from '../../../web/compose.js';
import { readMailing, slotOf } from '../../../web/judge.js';

const written = (text, unit, order) => writeOrder(text, 1, unit, order)?.text;

test('an order goes below the last line of its unit', () => {
  assert.equal(written('#ATLANTIS 1\nUNIT 1\nTAX ; all\nUNIT 2\n#END\n', 1, 'MOVE north'),
    '#ATLANTIS 1\nUNIT 1\nTAX ; all\nMOVE north\nUNIT 2\n#END\n');
  assert.equal(written('#ATLANTIS 1\nUNIT 1 ; a note\n\n; another\nUNIT 2\n', 1, 'TAX'),
    '#ATLANTIS 1\nUNIT 1 ; a note\nTAX\n\n; another\nUNIT 2\n');
  assert.equal(written('#ATLANTIS 1\nUNIT 1\n  TAX', 1, 'WORK'), '#ATLANTIS 1\nUNIT 1\n  TAX\n  WORK');
});

test('an order of a block is another unit\'s, and the block stays whole', () => {
  assert.equal(written('#ATLANTIS 1\nUNIT 1\nFORM 1\n  STUDY sailing\nEND\n', 1, 'STUDY mining'),
    '#ATLANTIS 1\nUNIT 1\nFORM 1\n  STUDY sailing\nEND\nSTUDY mining\n');
  assert.equal(written('#ATLANTIS 1\nUNIT 1\nFORM 1\n  STUDY sailing\n', 1, 'STUDY mining'),
    '#ATLANTIS 1\nUNIT 1\nSTUDY mining\nFORM 1\n  STUDY sailing\n');
});

test('an order takes the place of the one that counts in its slot', () => {
  assert.equal(written('#ATLANTIS 1\nUNIT 1\nWORK\n\tstudy "long bow"\t; 20 each\nTAX\n', 1, 'MOVE north'),
    '#ATLANTIS 1\nUNIT 1\nWORK\n\tMOVE north\t; 20 each\nTAX\n');
  assert.equal(written('#ATLANTIS 1\r\nUNIT 1\r\nSELL 5 wood;x\r\n', 1, 'SELL 2 iron'),
    '#ATLANTIS 1\r\nUNIT 1\r\nSELL 2 iron;x\r\n');
  assert.equal(written('#ATLANTIS 1\nUNIT 1\nGIVE 2 5 wood\n', 1, 'GIVE 2 5 wood'),
    '#ATLANTIS 1\nUNIT 1\nGIVE 2 5 wood\nGIVE 2 5 wood\n');
});

test('a unit without a line gets one at the end', () => {
  assert.equal(written('', 3, 'TAX'), '#ATLANTIS 1\n\nUNIT 3\nTAX\n\n#END\n');
  assert.equal(written('#ATLANTIS 1', 3, 'TAX'), '#ATLANTIS 1\nUNIT 3\nTAX');
  assert.equal(written('#ATLANTIS 1\nUNIT 1\nWORK\n#END\nBye\n', 3, 'TAX'),
    '#ATLANTIS 1\nUNIT 1\nWORK\n\nUNIT 3\nTAX\n\n#END\nBye\n');
  assert.equal(written('Hello\n', 3, 'TAX'), undefined);
});

test('names are written so that they are read back', () => {
  assert.deepEqual(['wood', 'long bow', 'a_b', 'a;b', 'x, best'].map(wordFor),
    ['wood', '"long bow"', '"a_b"', '"a;b"', '"x,' + ' best"']);
});

test('the line of a unit, and its orders that count', () => {
  const text = '#ATLANTIS 1\nUNIT 1\nWORK\nUNIT 2\nUNIT 1\nTAX ; x\nSTUDY a\nLEAVE\nLEAVE\n';
  assert.equal(unitLine(text, 1), 5);
  assert.equal(unitLine(text, 4), null);
  assert.deepEqual([...ordersByUnit(readMailing(text).lines)].map(([unit, orders]) => [unit, orders.map((o) => o.text)]),
    [[1, ['TAX', 'STUDY a', 'LEAVE', 'LEAVE']]]);
});

// A small generator, the same each time.
function dice(seed) {
  let state = seed;
  return (most) => {
    state = (Math.imul(state, 1664525) + 1013904223) >>> 0;
    return Math.floor((state / 2 ** 32) * most);
  };
}

const PIECES = ['UNIT 1', 'UNIT 2', 'UNIT', 'UNIT x', 'END', 'FORM 1', 'FORM 2', 'FORM', '#END', '#ATLANTIS 1', '#atlantis 2 x',
  '', '; a note', 'WORK', 'work;x', '  STUDY sailing ; 10', 'STUDY "long bow', 'TAX tax', 'SELL 1 wood', 'BUY 2 "wood"x',
  'GIVE NEW 1 5 wood', 'RECRUIT 5', 'RECRUIT many', 'caf\u00e9', 'NAME UNIT "a;b" ; c', 'MOVE up', '\tMOVE north\t', 'TEACH 1 NEW',
  'WORK\r', '"TAX"', 'BUILD'];
const ORDERS = ['MOVE north', 'SAIL west', 'BUY 3 wood', 'SELL 2 "long bow"', 'STUDY sailing', 'PRODUCE wood', 'GIVE 2 1 wood',
  'RECRUIT 4'];
const NAMES = { item: new Set(['wood', 'long bow']), skill: new Set(['sailing']), kind: new Set(['boat']) };

function randomText(roll) {
  const lines = Array.from({ length: roll(14) }, () => PIECES[roll(PIECES.length)]);
  if (roll(8) > 0) lines.unshift('#ATLANTIS 1');
  return lines.join(roll(9) === 0 ? '\r\n' : '\n') + (roll(2) === 0 ? '\n' : '');
}

const countsIn = (text, names, unit, order) => {
  const slot = slotOf(order.split(' ')[0]);
  return (ordersByUnit(readMailing(text, names).lines).get(unit) ?? []).filter((o) => slot === null || slotOf(o.verb) === slot)
    .map((o) => o.text);
};

test('whatever the text, no line of it is lost, no fault is added, and the order counts', () => {
  const roll = dice(78);
  for (let i = 0; i < 20000; i += 1) {
    const text = randomText(roll);
    const [unit, order, names] = [1 + roll(3), ORDERS[roll(ORDERS.length)], roll(3) === 0 ? null : NAMES];
    const result = writeOrder(text, 1, unit, order, names);
    const before = readMailing(text, names);
    if (result === null) {
      assert.ok(!before.hasHeader && text.trim() !== '');
      continue;
    }
    const after = readMailing(result.text, names);
    assert.ok(after.faults.length === before.faults.length, JSON.stringify([text, result.text]));
    assert.ok(countsIn(result.text, names, unit, order).includes(order), JSON.stringify([text, result.text]));
    assert.ok(result.text.split('\n')[result.line - 1].includes(order));
    const lost = removedLines(text.split('\n'), result.text.split('\n'));
    assert.ok(text.trim() === '' || (lost <= 1 && (lost === 0 || after.orders === before.orders)), JSON.stringify([text, result.text]));
  }
});

// How many lines lie between the lines at the beginning and at the end that both texts have.
function removedLines(before, after) {
  const most = Math.min(before.length, after.length);
  let start = 0;
  while (start < most && before[start] === after[start]) start += 1;
  let end = 0;
  while (end < most - start && before.at(-1 - end) === after.at(-1 - end)) end += 1;
  return before.length - start - end;
}
