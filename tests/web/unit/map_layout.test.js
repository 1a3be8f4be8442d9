// The places of regions on the map.

import assert from 'node:assert/strict';
import { test } from 'node:test';

import { gather, layOut } from '../../../web/map_layout.js';

const region = (number, exits) => ({ number, exits, name: `R${number}`, terrain: 'plain', units: [] });

test('neighbours lie at their side, and a region that was not seen has a place', () => {
  const { places, ways, crooked } = layOut(gather([{ month: 1, regions: [
    region(1, { north: 2, east: 3 }), region(2, { south: 1 })] }]));
  const [one, two, three] = [1, 2, 3].map((number) => places.get(number));
  assert.deepEqual([two.x - one.x, two.y - one.y], [0, -1]);
  assert.deepEqual([three.x - one.x, three.y - one.y], [1, 0]);
  assert.equal(ways.length, 2);
  assert.deepEqual(crooked, []);
});

test('a way that leads back to its region cannot be drawn', () => {
  const { crooked } = layOut(gather([{ month: 1, regions: [region(1, { west: 1 })] }]));
  assert.deepEqual(crooked, [{ from: 1, way: 'west', to: 1 }]);
});

test('no two regions share a place', () => {
  const regions = [];
  for (let number = 1; number <= 60; number += 1) {
    const exits = { north: (number * 7) % 60 + 1, east: (number * 11) % 60 + 1, south: number % 60 + 1 };
    regions.push(region(number, exits));
  }
  const { places, width, height } = layOut(gather([{ month: 3, regions }]));
  const spots = new Set([...places.values()].map(({ x, y }) => `${x},${y}`));
  assert.equal(spots.size, 60);
  for (const { x, y } of places.values()) assert.ok(x >= 0 && x < width && y >= 0 && y < height);
});

test('a newer report takes the place of an older one', () => {
  const regions = gather([{ month: 1, regions: [region(1, {})] }, { month: 2, regions: [region(2, { west: 1 })] }]);
  assert.deepEqual([...regions.values()].map(({ number, seen }) => [number, seen]), [[1, 1], [2, 2]]);
});
