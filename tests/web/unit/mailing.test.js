// What the page reads of a mailing: docs/RULES.md, "Reading a mailing".

import assert from 'node:assert/strict';
import { test } from 'node:test';

import { amountAsked, readMailing, wordsOf } from '../../../web/judge.js';
import { firstPlace, fits, oddSigns, plainSigns } from '../../../web/mailing.js';
import { parseReport } from '../../../web/report_parser.js';
import { byteLength } from '../../../web/texts.js';

const lineWords = (line) => wordsOf(line).map((word) => word.text);

test('words end at a space, at a quote and at a comment', () => {
  assert.deepEqual(lineWords('give 5 "iron ore" ; to them'), ['give', '5', 'iron ore']);
  assert.deepEqual(lineWords('NAME UNIT "a;b"'), ['NAME', 'UNIT', 'a;b']);
  assert.deepEqual(lineWords('WORK;now'), ['WORK']);
  assert.deepEqual(lineWords(' \t'), []);
});

test('orders are those between #ATLANTIS and #END, for the unit above them', () => {
  const { faction, lines } = readMailing('Hello\n#ATLANTIS 3\nUNIT 4\nWORK\nFORM 1\nBOARD 2\nEND\nTAX\n#END\nWORK\n');
  assert.equal(faction, 3);
  assert.deepEqual(lines.map((line) => line.kind), ['outside', 'header', 'unit', 'order', 'order', 'order', 'block',
    'order', 'end', 'outside', 'outside']);
  const orders = lines.flatMap((line) => (line.kind === 'order' ? [[line.line, line.verb, line.unit]] : []));
  assert.deepEqual(orders, [[4, 'WORK', 4], [5, 'FORM', 4], [6, 'ENTER', null], [8, 'TAX', 4]]);
});

test('a line ends at a line feed, and one carriage return before it is dropped', () => {
  assert.deepEqual(readMailing('#ATLANTIS 1\r\nUNIT 1\r\r\nWORK\r').lines.map((line) => line.text),
    ['#ATLANTIS 1', 'UNIT 1\r', 'WORK']);
});

test('only the letters a to z have capitals', () => {
  assert.equal(readMailing('#atlantis 0001\n').faction, 1);
  for (const header of ['#atlant\u0131s 1', '#ATLANTI\u017f 1', '\ufeff#ATLANTIS 1']) {
    assert.deepEqual(readMailing(header).lines.map((line) => line.kind), ['outside'], header);
  }
});

test('the number of a faction is from 1 to 9,999', () => {
  for (const word of ['0', '10000', '1x', '-1', '', '99999999999999999999']) {
    const { faction, lines } = readMailing(`#ATLANTIS ${word}`);
    assert.deepEqual([faction, lines[0].kind], [null, 'header'], word);
  }
  assert.equal(readMailing('#ATLANTIS 9999').faction, 9999);
});

test('signs out of a word processor get plain ones', () => {
  assert.equal(plainSigns('NAME\u00a0UNIT \u201cLong\u2026\u201d \u2013 \u2018x\u2019\ufeff'),
    'NAME UNIT "Long..." - \'x\'');
  assert.deepEqual(oddSigns('NAME UNIT "Caf\u00e9" ; \u00e9\u00df\t\u{1f600}~'), ['\u00e9', '\u00df', '\u{1f600}']);
});

test('an order asks for an amount', () => {
  const asked = { 'BUY 3 wood': 3, 'sell 4 wood': 4, 'RECRUIT 5': 5, 'GIVE 12 6 wood': 6, 'GIVE NEW 1 7 wood': 7,
    'PAY 12 80': 80, 'pay new 1 90': 90, 'TRANSFER 3 2': 2, WORK: null, 'STUDY 5': null };
  for (const [line, amount] of Object.entries(asked)) assert.equal(amountAsked(readMailing(`#ATLANTIS 1\n${line}`).lines[1]), amount, line);
});

test('the caret goes below the first unit', () => {
  assert.equal(firstPlace('#ATLANTIS 1\n; x\nUNIT 1 ; y\n\n#END\n'), '#ATLANTIS 1\n; x\nUNIT 1 ; y\n'.length);
  assert.equal(firstPlace('#ATLANTIS 1\n'), '#ATLANTIS 1\n'.length);
  assert.equal(firstPlace(''), 0);
});

test('bytes are those of UTF-8', () => {
  assert.equal(byteLength('a\u00e9\u20ac'), 6);
});

// ---- whether a report is on a mailing: docs/RULES.md, "Orders of a month"

const HEAD = 'Atlantis report, month 2, faction 1 "Avalon".\nOrders:\n';
const REGION = 'Region 1 "R", plain: 1 peasants, 1 money.\nExits: none.\n';

const doesFit = (orders, lines, { faults = [], unit = 'Unit 1', count = orders.length } = {}) => {
  const text = ['#ATLANTIS 1', 'UNIT 1', ...orders].join('\n');
  const report = parseReport(`${HEAD}${lines.join('\n')}\n${REGION}* Unit 1 "${unit}": 1 men, 1 money.\n`);
  assert.deepEqual(report.unread, []);
  return fits({ text, at: 0, after: 1, orders: count, faults }, report);
};

test('each order that counts has its event', () => {
  assert.ok(doesFit(['RECRUIT 5', 'TAX'], ['Unit 1, line 4, TAX: done 3.', 'Unit 1, line 3, RECRUIT: done 5.']));
  assert.ok(!doesFit(['RECRUIT 5', 'TAX'], ['Unit 1, line 3, RECRUIT: done 5.']));
  assert.ok(!doesFit(['RECRUIT 5'], ['Unit 1, line 3, RECRUIT: done 5.', 'Unit 1, line 4, TAX: done 3.']));
});

test('of the month-long orders of a unit, and of its TAX, RECRUIT, SELL and BUY, the last one counts', () => {
  assert.ok(doesFit(['WORK', 'STUDY sailing'], ['Unit 1, line 4, STUDY: done 30.']));
  assert.ok(!doesFit(['WORK', 'STUDY sailing'], ['Unit 1, line 3, WORK: done 30.']));
  assert.ok(doesFit(['BUY 1 wood', 'BUY 2 iron'], ['Unit 1, line 4, BUY: done 2.']));
  assert.ok(!doesFit(['GIVE 2 1 wood', 'GIVE 2 1 wood'], ['Unit 1, line 4, GIVE: done 1.']));
});

test('orders of other mailings are known by amounts and names', () => {
  assert.ok(doesFit(['RECRUIT 5'], ['Unit 1, line 3, RECRUIT: done 2.']));
  assert.ok(!doesFit(['RECRUIT 2'], ['Unit 1, line 3, RECRUIT: done 5.']));
  assert.ok(!doesFit(['PAY 2 90'], ['Unit 1, line 3, PAY: done 80.']));
  assert.ok(doesFit(['NAME UNIT Old_Men'], ['Unit 1, line 3, NAME: done 0.'], { unit: 'Old Men' }));
  assert.ok(doesFit(['name unit "Old_Men"'], ['Unit 1, line 3, NAME: done 0.'], { unit: 'Old_Men' }));
  assert.ok(!doesFit(['NAME UNIT Old'], ['Unit 1, line 3, NAME: done 0.'], { unit: 'New' }));
});

test('orders in a block are for the unit that FORM made, or for unit 0', () => {
  const orders = ['FORM 1', 'RECRUIT 1', 'END', 'RECRUIT 2'];
  const both = ['Unit 2, line 4, RECRUIT: done 1.', 'Unit 1, line 6, RECRUIT: done 2.'];
  assert.ok(doesFit(orders, ['Unit 1, line 3, FORM: done 2.', ...both], { count: 3 }));
  assert.ok(!doesFit(orders, ['Unit 1, line 3, FORM: done 3.', ...both], { count: 3 }));
  assert.ok(doesFit(orders, ['Unit 1, line 3, FORM: fault 8 UnitLimit.', 'Unit 0, line 4, RECRUIT: fault 1 NotYours.',
    both[1]], { count: 3 }));
});

test('the faulty lines are the same', () => {
  const faulty = ['GAURD 1', 'WORK'];
  const lines = ['Line 3: 2 UnknownOrder.', 'Unit 1, line 4, WORK: done 9.'];
  assert.ok(doesFit(faulty, lines, { faults: [[3, 2]], count: 1 }));
  assert.ok(!doesFit(faulty, lines, { faults: [[3, 3]], count: 1 }));
  assert.ok(!doesFit(faulty, [lines[1]], { faults: [[3, 2]], count: 1 }));
});
