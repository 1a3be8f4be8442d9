// What the browser keeps as one file, and what of a file is refused.

import assert from 'node:assert/strict';
import { test } from 'node:test';

import { archiveText, joinEarlier, joinMailings, planImport, readArchive } from '../../../web/archive.js';

const report = (month, faction = 3) => `Atlantis report, month ${month}, faction ${faction} "A".\nOrders:\nNone.\n`;
const mailing = (at, text = '#ATLANTIS 3\n') => ({ text, at, orders: 1, faults: [[2, 4]], after: 1, month: 2 });
const ARCHIVE = {
  faction: 3,
  reports: new Map([[0, report(0)], [12, report(12)]]),
  mailings: [mailing(5), { text: 'x', at: 6, orders: 0, faults: [], after: null }],
  draft: { text: '#ATLANTIS 3\n; caf\u00e9 \u{1f600}\n', after: 12 },
  earlier: [{ text: 'older', at: 4 }],
};
const EMPTY = { faction: 3, reports: new Map(), mailings: [], draft: null, earlier: [] };

test('what was saved is read again', () => {
  assert.deepEqual(readArchive(archiveText(ARCHIVE)), ARCHIVE);
  assert.deepEqual(readArchive(archiveText(EMPTY)), EMPTY);
});

test('a file that was not saved by the page is refused', () => {
  for (const text of ['', '{', 'null', '[]', '7', '{}', '"x"', '\u0000', '{"kind":"kiwirudder faction"}']) {
    assert.ok('fault' in readArchive(text), text);
  }
});

test('each value of a file must be of its kind', () => {
  const wrong = {
    kind: ['x', null], version: [2, '1', null, 0],
    faction: [0, 10000, '3', 3.5, null, [3], 4],
    reports: [null, [], 'x', { 1: report(2) }, { 1: report(1, 4) }, { '01': report(1) }, { x: report(1) }, { 1: 7 },
      { 1: '<b>' }, { 10000: report(10000) }],
    mailings: [null, {}, [null], [7], [{ ...mailing(1), text: 7 }], [{ ...mailing(1), at: '1' }],
      [{ ...mailing(1), at: 1e300 }], [{ ...mailing(1), faults: 'x' }], [{ ...mailing(1), faults: [[1]] }],
      [{ ...mailing(1), faults: [['<i>', 1]] }], [{ ...mailing(1), orders: -1 }], [{ ...mailing(1), month: 'x' }],
      [{ ...mailing(1), after: '1' }], [mailing(1, '\u20ac'.repeat(30000))], Array(1001).fill(mailing(1))],
    draft: [7, 'x', [], { text: 7, after: 1 }, { text: 'x' }, { text: 'x', after: '1' }],
    earlier: [null, {}, ['x'], [{ text: 'x' }], [{ text: null, at: 1 }], [{ text: 'x', at: -1 }]],
  };
  for (const [key, values] of Object.entries(wrong)) {
    for (const value of values) {
      const changed = JSON.stringify({ ...JSON.parse(archiveText(ARCHIVE)), [key]: value });
      assert.ok('fault' in readArchive(changed), `${key}: ${JSON.stringify(value)?.slice(0, 80)}`);
    }
  }
});

test('what a file has besides is left out', () => {
  const text = archiveText(ARCHIVE).replace('"at":5', '"at":5,"pass":"apple","__proto__":{"x":1}')
    .replace('"version":1', '"version":1,"pass":"apple"');
  const archive = readArchive(text);
  assert.deepEqual(archive, ARCHIVE);
  assert.equal(Object.getPrototypeOf(archive.mailings[0]), Object.prototype);
});

test('what is missing is planned, and what differs is named', () => {
  assert.deepEqual(planImport(EMPTY, ARCHIVE),
    { reports: ARCHIVE.reports, months: [], draft: ARCHIVE.draft, newDraft: true });
  assert.deepEqual(planImport(ARCHIVE, ARCHIVE),
    { reports: new Map(), months: [], draft: ARCHIVE.draft, newDraft: false });
  const other = { ...ARCHIVE, reports: new Map([[0, report(0)], [12, `${report(12)}\n`]]) };
  assert.deepEqual(planImport(other, ARCHIVE).months, [12]);
});

test('mailings and earlier texts are joined by their times', () => {
  const joined = joinMailings([mailing(3, 'mine')], [mailing(1), mailing(3), mailing(4)], 3);
  assert.deepEqual(joined.map(({ at, text }) => [at, text]), [[1, '#ATLANTIS 3\n'], [3, 'mine'], [4, '#ATLANTIS 3\n']]);
  assert.deepEqual(joinMailings([mailing(1), mailing(2)], [mailing(3)], 2).map(({ at }) => at), [2, 3]);
  const earlier = joinEarlier([{ text: 'a', at: 1 }], [{ text: 'a', at: 5 }, { text: 'b', at: 3 }], 5);
  assert.deepEqual(earlier.map(({ text }) => text), ['b', 'a']);
});
