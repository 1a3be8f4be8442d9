// Faults of lines: docs/RULES.md, "Mail", "Reading a mailing" and "Orders". judge_beside_gm.js compares them with the program.

import assert from 'node:assert/strict';
import { test } from 'node:test';

import { readMailing, wordsOf } from '../../../web/judge.js';
import { LINE_FAULTS } from '../../../web/words.js';
import { worldOf } from '../../../web/world.js';

const KNOWN = { item: new Set(['wood', 'long bow']), skill: new Set(['sailing']), kind: new Set(['boat']) };
const faultsOf = (text, known = KNOWN) => readMailing(text, known).faults
  .map(([line, number]) => `${line} ${Object.keys(LINE_FAULTS)[number - 1]}`);
const faultOf = (line) => faultsOf(`#ATLANTIS 1\nUNIT 1\n${line}`).map((fault) => fault.slice(2))[0] ?? '';

test('the mailings of the rules', () => {
  const mail = readMailing('From: a club\n\n#ATLANTIS 1 our orders\nUNIT 1 ; the first\nATTACK 2\nwork\n', KNOWN);
  assert.deepEqual([mail.orders, mail.faults], [1, [[5, 2]]]);
  const long = readMailing('From: a club\n\n#ATLANTIS 1 our orders\nUNIT 1            ; the first\n'
    + 'NAME UNIT Guards_of_the_North\nGUARD 1\nFORM 1            ; a new unit\n  RECRUIT 5\n  STUDY sailing\nEND\n'
    + 'GIVE NEW 1 5 wood ; the new unit, by its alias\nWORK\n#END\nBest wishes\n', KNOWN);
  assert.deepEqual([long.faction, long.orders, long.faults], [1, 7, []]);
});

test('words and names', () => {
  assert.deepEqual(wordsOf('2"long bow"4').map((word) => word.text), ['2', 'long bow', '4']);
  assert.deepEqual(['SELL 1 LONG_BOW', 'SELL 1 "long bow"', 'SELL 1 "LONG_BOW"', '"WORK"', 'BUY 1 ""'].map(faultOf),
    ['', '', 'UnknownThing', '', 'UnknownThing']);
});

test('each fault of the words of an order', () => {
  const faults = {
    'GUARD 2': 'BadNumber', 'GUARD 00': '', 'PAY 1': 'MissingWord', 'PAY 0 1': 'BadNumber', 'PAY 1 1000000000': 'BadNumber',
    'PAY NEW 10000 1': 'BadAlias', 'PAY NEW': 'MissingWord', 'TEACH': 'MissingWord', 'TEACH 1 NEW 2 x': 'BadNumber',
    BUILD: '', 'BUILD tower': 'UnknownThing', 'MOVE up': 'BadDirection', 'move West on': '', 'NAME CITY x': 'UnknownThing',
    'NAME UNIT _x': 'BadName', 'NAME UNIT "_x"': '', 'NAME UNIT "a\tb"': 'BadName', [`NAME UNIT ${'x'.repeat(41)}`]: 'BadName',
    'WORK ; caf\u00e9': 'BadByte', PROD: 'UnknownOrder', '#ATLANTIS 1': 'UnknownOrder', 'UNIT x': 'BadNumber', UNIT: 'MissingWord',
  };
  for (const [line, fault] of Object.entries(faults)) assert.equal(faultOf(line), fault, line);
});

test('blocks, and lines for no unit', () => {
  assert.deepEqual(faultsOf('#ATLANTIS 1\nWORK\nFORM 1\nWORK\nEND\nEND\n'), ['2 NoUnit', '3 NoUnit', '4 NoUnit', '6 EndAlone']);
  assert.deepEqual(faultsOf('#ATLANTIS 1\nUNIT 1\nFORM 1\nFORM 2\nWORK\nEND\nFORM 1\nWORK\nEND\nWORK\n'),
    ['4 NestedForm', '7 BadAlias', '8 NoUnit']);
  assert.deepEqual(faultsOf('#ATLANTIS 1\nUNIT 1\nFORM\nWORK\nUNIT 0\nWORK\n'), ['3 MissingWord', '4 NoUnit', '5 BadNumber', '6 NoUnit']);
});

test('without the world no name is unknown', () => {
  assert.deepEqual(faultsOf('#ATLANTIS 1\nUNIT 1\nSTUDY swimming\nNAME CITY x\n', null), ['4 UnknownThing']);
  assert.deepEqual(faultsOf('#ATLANTIS 1\nUNIT 1\nSTUDY swimming\n'), ['3 UnknownThing']);
});

test('a world of another form is none', () => {
  const value = { format: 1, rules: { maintenance: 10 }, item: [{ name: 'Wood' }], skill: [], kind: [] };
  assert.deepEqual([...worldOf(value).known.item], ['wood']);
  assert.deepEqual(worldOf(value).names.items, ['Wood']);
  for (const other of [null, 7, [], {}, { ...value, format: 2 }, { ...value, item: [{}] }, { ...value, kind: undefined },
    { ...value, rules: {} }, { ...value, skill: 'x' }]) assert.equal(worldOf(other), null);
});
