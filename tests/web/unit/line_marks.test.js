// Where lines are after a text was changed.

import assert from 'node:assert/strict';
import { test } from 'node:test';

import { followLines } from '../../../web/texts.js';

const follow = (old, fresh) => followLines([...old], [...fresh]);

test('lines that stay are followed', () => {
  assert.deepEqual(follow('abc', 'abc'), [0, 1, 2]);
  assert.deepEqual(follow('abc', 'xabc'), [1, 2, 3]);
  assert.deepEqual(follow('abc', 'axc'), [0, -1, 2]);
  assert.deepEqual(follow('abc', ''), [-1, -1, -1]);
});

test('lines between two changes at once are followed', () => {
  assert.deepEqual(follow('abcdef', 'aXcdYf'), [0, -1, 2, 3, -1, 5]);
  assert.deepEqual(follow('abcdef', 'aXYcdf'), [0, -1, 3, 4, -1, 5]);
  assert.deepEqual(follow('1w2w3w4', 'Xw2w3wY'), [-1, 1, 2, 3, 4, 5, -1]);
});

test('a line that is moved is followed, and of equal lines none is taken for another', () => {
  assert.deepEqual(follow('abcd', 'bcda'), [3, 0, 1, 2]);
  assert.deepEqual(follow('awbwc', 'XwbY'), [-1, -1, 2, -1, -1]);
});

test('each line that is followed is equal, and no two are followed to one place', () => {
  let seed = 7;
  const next = (most) => {
    seed = (seed * 48271) % 2147483647;
    return seed % most;
  };
  for (let round = 0; round < 300; round += 1) {
    const [old, fresh] = [next(12), next(12)].map((length) => Array.from({ length }, () => 'abcdefgh'[next(8)]));
    const taken = new Set();
    follow(old, fresh).forEach((place, line) => {
      if (place < 0) return;
      assert.equal(fresh[place], old[line]);
      assert.ok(!taken.has(place));
      taken.add(place);
    });
  }
});

test('ten thousand lines are followed at once', () => {
  const old = Array.from({ length: 10000 }, (_, line) => `WORK ; ${line % 5000}`);
  const begun = performance.now();
  followLines(old, ['x', ...old.slice(1, -1), 'y']);
  followLines(old, [...old].reverse());
  assert.ok(performance.now() - begun < 1000);
});
