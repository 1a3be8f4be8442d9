// Names that are completed as a player types: docs/RULES.md, "Orders".

import assert from 'node:assert/strict';
import { test } from 'node:test';

import { completions } from '../../../web/compose.js';

const LISTS = {
  item: [{ name: 'wood' }, { name: 'wool' }, { name: 'long bow' }], skill: [{ name: 'woodwork' }, { name: 'sailing' }],
  kind: [{ name: 'boat' }], unit: [{ name: '12', note: 'Woodcutters' }, { name: '7', note: 'Smiths' }],
};
const texts = (line, at = line.length) => completions(line, at, LISTS)?.choices.map((choice) => choice.text);

test('each word is completed by what it names', () => {
  assert.deepEqual(texts('MO'), ['MOVE ']);
  assert.deepEqual(texts('  st'), ['STUDY ']);
  assert.deepEqual(texts('MOVE '), ['NORTH', 'SOUTH', 'EAST', 'WEST']);
  assert.deepEqual(texts('NAME s'), ['SHIP ']);
  assert.deepEqual(texts('STUDY w'), ['woodwork']);
  assert.deepEqual(texts('SELL 5 wo'), ['wood', 'wool']);
  assert.deepEqual(texts('PRODUCE LONG_B'), ['"long bow"']);
  assert.deepEqual(texts('BUILD '), ['boat']);
  assert.deepEqual(texts('GIVE wo'), ['12 ']);
  assert.deepEqual(texts('GIVE NEW 4 5 "lo'), ['"long bow"']);
  assert.deepEqual(texts('TEACH 12 s'), ['7 ']);
});

test('nothing is offered where nothing is to be named', () => {
  for (const line of ['', '  ', 'SELL 5', 'SELL w', 'WORK ', 'WORK ; wo', 'SELL 5 wood ', 'NAME UNIT wo', 'SELL 5 "wood"', 'xyz',
    'STUDY ;w', 'STUDY sailing', 'LEAVE']) assert.equal(texts(line), undefined, line);
  assert.equal(texts('STUDY wood', 7), undefined);
});

test('what is before the word stays', () => {
  assert.equal(completions('SELL 5 wo ; x', 9, LISTS)?.from, 7);
  assert.equal(completions('SELL 5 "long', 12, LISTS)?.from, 7);
  assert.equal(completions('SELL 5 ', 7, LISTS)?.from, 7);
});
