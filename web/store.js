// What this browser keeps, by faction: 0 has what is written without one. Where it can't keep a thing, the page holds
// it until it is closed.

import { on } from './dom.js';
import { attempt, jsonIn } from './texts.js';

const PREFIX = 'atlantis.';
/** @type {Map<string, string>} */
const held = new Map();

/** @param {string} key */
const get = (key) => held.get(key) ?? attempt(() => localStorage.getItem(PREFIX + key), null);

/** @type {T.SetKept} */
function set(key, value) {
  held.set(key, String(value));
  return attempt(() => {
    localStorage.setItem(PREFIX + key, String(value));
    return held.delete(key);
  }, false);
}

/** @param {string} key */
function remove(key) {
  held.delete(key);
  attempt(() => localStorage.removeItem(PREFIX + key), undefined);
}

/** @param {string} start */
function keysFrom(start) {
  const kept = attempt(() => Object.keys(localStorage), []).filter((key) => key.startsWith(PREFIX))
    .map((key) => key.slice(PREFIX.length));
  return [...new Set([...held.keys(), ...kept])].filter((key) => key.startsWith(start));
}

export const lastFaction = () => Number(get('faction'));
/** @param {number} faction */
export const keepLastFaction = (faction) => set('faction', faction);

/** @type {T.KeptStore} */
const kept = (name) => ({
  of: (faction) => get(`${faction}.${name}`),
  keep: (faction, value) => set(`${faction}.${name}`, value),
  forget: (faction) => remove(`${faction}.${name}`),
});

/** @type {T.KeptListStore} */
function keptList(name) {
  const { of, keep } = kept(name);
  let read = { source: '', list: /** @type {any[]} */ ([]) };
  return {
    of(faction) {
      const source = of(faction) ?? '[]';
      const list = read.source === source ? read.list : jsonIn(source);
      read = { source, list: Array.isArray(list) ? list : [] };
      return read.list;
    },
    keep: (faction, list) => keep(faction, JSON.stringify(list)),
  };
}

export const { of: keptPass, keep: keepPass, forget: forgetPass } = kept('pass');
export const { of: draftOf, keep: keepDraft, forget: forgetDraftText } = kept('draft');
// The latest month whose report was kept as the draft was begun.
const draftMonth = kept('draft_month');
export const keepDraftMonth = draftMonth.keep;
// Whether the draft was sent without an answer, so that it may have been taken.
export const { of: wasUnknown, keep: keepUnknown, forget: forgetUnknown } = kept('unknown');
/** @type {T.KeptList<T.EarlierText>} what was replaced, the newest first */
export const { of: earlierOf, keep: keepEarlier } = keptList('texts');
/** @type {T.KeptList<T.Mailing>} the oldest first */
export const { of: mailingsOf, keep: keepMailings } = keptList('mailings');

/** @type {T.DraftMonthOf} */
export const draftMonthOf = (faction) => jsonIn(draftMonth.of(faction) ?? '');

/** @param {number} faction */
export function forgetDraft(faction) {
  forgetDraftText(faction);
  draftMonth.forget(faction);
}

/** @param {number} faction */
export function monthsOf(faction) {
  const start = `${faction}.report.`;
  return keysFrom(start).map((key) => Number(key.slice(start.length))).sort((a, b) => a - b);
}

/** @param {number} faction */
export const latestMonth = (faction) => monthsOf(faction).pop() ?? null;
/** @type {T.ReportOf} */
export const reportOf = (faction, month) => get(`${faction}.report.${month}`);
/** @type {T.KeepReport} */
export const keepReport = (faction, month, text) => set(`${faction}.report.${month}`, text);
/** @type {T.ForgetReport} */
export const forgetReport = (faction, month) => remove(`${faction}.report.${month}`);

/** @param {number} faction */
export const forgetFaction = (faction) => keysFrom(`${faction}.`).forEach(remove);

/** @type {T.WatchTabs} */
export const watchTabs = (act) => on(window, 'storage', ({ key }) => {
  const found = /^atlantis\.(\d+)\.(\w+)$/.exec(key ?? '');
  if (found) act(Number(found[1]), found[2]);
});
