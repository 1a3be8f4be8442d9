// What a player's browser loads.

import assert from 'node:assert/strict';
import { readdirSync, statSync } from 'node:fs';
import { test } from 'node:test';

const MOST_BYTES = 140000;
const FOLDER = new URL('../../../web/', import.meta.url);

test('the files of the page have at most 140 kB', () => {
  const sizes = readdirSync(FOLDER).filter((name) => /\.(html|js|css|svg)$/.test(name))
    .map((name) => [name, statSync(new URL(name, FOLDER)).size]);
  const sum = sizes.reduce((sofar, [, size]) => sofar + size, 0);
  assert.ok(sizes.length > 20);
  assert.ok(sum <= MOST_BYTES, `${sum} bytes: ${sizes.sort((a, b) => b[1] - a[1]).slice(0, 5).join(' ')}`);
});
