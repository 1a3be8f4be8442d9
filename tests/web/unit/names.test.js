// The rules of names and pass texts: docs/PLAYER.md, "Your name and your pass text".

import assert from 'node:assert/strict';
import { test } from 'node:test';

import { nameFault, passFault } from '../../../web/judge.js';

test('a name has 1 to 40 characters of ASCII, no quote, and no space at its ends', () => {
  for (const name of ['A', 'The Grey Havens', "Tom & 'Jerry' <b>", 'x'.repeat(40)]) assert.equal(nameFault(name), null);
  for (const name of ['', ' A', 'A ', 'A"b', 'Caf\u00e9', 'a\tb', 'x'.repeat(41)]) {
    assert.match(nameFault(name) ?? '', /^BadName: /, JSON.stringify(name));
  }
});

test('a pass text has 1 to 40 characters of ASCII, and no space', () => {
  for (const pass of ['a', '"', '!#~', 'x'.repeat(40)]) assert.equal(passFault(pass), null);
  for (const pass of ['', 'a b', ' a', 'caf\u00e9', 'a\n', 'x'.repeat(41)]) {
    assert.match(passFault(pass) ?? '', /^BadPassText: /, JSON.stringify(pass));
  }
});
