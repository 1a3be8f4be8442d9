// All that the browser keeps of a faction as one text, and back. Nothing in a text that comes from a file is trusted.

import { LAST_NUMBER, MOST_BYTES } from './judge.js';
import { parseReport } from './report_parser.js';
import { byteLength, jsonIn } from './texts.js';

const [KIND, VERSION] = ['kiwirudder faction', 1];
const MOST_LISTED = 1000;
const MOST_LETTERS = 1000000;
export const MOST_FILE_BYTES = 64000000;

/** @param {T.Archive} archive */
export const archiveText = (archive) => JSON.stringify({
  kind: KIND, version: VERSION, ...archive, reports: Object.fromEntries(archive.reports),
});

/** @type {T.ReadArchive} */
export function readArchive(text) {
  const value = jsonIn(text);
  if (value?.kind !== KIND || value.version !== VERSION) {
    return { fault: 'This file was not saved by this page, or by another version of it.' };
  }
  const { faction, reports, mailings, draft, earlier } = value;
  if (!isWhole(faction, 1, LAST_NUMBER) || !is.object(reports)
    || !Object.entries(reports).every(([month, report]) => isReport(faction, month, report))
    || !isList(mailings, is.mailing) || !isList(earlier, is.earlier) || !(draft === null || is.draft(draft))) {
    return { fault: 'This file is damaged.' };
  }
  return {
    faction, draft: draft && only(['text', 'after'])(draft),
    reports: new Map(Object.entries(reports).map(([month, report]) => [Number(month), report])),
    mailings: mailings.map(only(['text', 'at', 'orders', 'faults', 'after', 'month'])),
    earlier: earlier.map(only(['text', 'at'])),
  };
}

/** @type {T.Only} */
const only = (keys) => (entry) => Object.fromEntries(keys.filter((key) => Object.hasOwn(entry, key))
  .map((key) => [key, entry[key]]));

/** @type {T.IsWhole} */
const isWhole = (value, least, most) => Number.isInteger(value) && Number(value) >= least && Number(value) <= most;

/** @type {T.IsList} */
const isList = (value, isRight) => Array.isArray(value) && value.length <= MOST_LISTED && value.every(isRight);

/** @type {T.IsReport} */
function isReport(faction, month, text) {
  const report = parseReport(typeof text === 'string' ? text : '');
  return /^(0|[1-9]\d{0,3})$/.test(month) && report.month === Number(month) && report.faction === faction;
}

/** @type {Record<string, (value: any) => boolean>} */
const is = {
  object: (value) => typeof value === 'object' && value !== null && !Array.isArray(value),
  month: (value) => isWhole(value, 0, LAST_NUMBER),
  text: (value) => is.object(value) && typeof value.text === 'string' && value.text.length <= MOST_LETTERS,
  draft: (value) => is.text(value) && (value.after === null || is.month(value.after)),
  earlier: (value) => is.text(value) && isWhole(value.at, 0, Number.MAX_SAFE_INTEGER),
  mailing: (value) => is.earlier(value) && is.draft(value) && byteLength(value.text) <= MOST_BYTES
    && isWhole(value.orders, 0, MOST_BYTES) && isList(value.faults, is.fault)
    && (value.month === undefined || is.month(value.month)),
  fault: (value) => isList(value, (number) => isWhole(number, 1, MOST_BYTES + 1)) && value.length === 2,
};

/** @type {T.PlanImport} */
export function planImport(kept, { reports: theirs, draft }) {
  const reports = new Map([...theirs].filter(([month, text]) => kept.reports.get(month) !== text));
  return {
    reports, newDraft: draft !== null && draft.text !== kept.draft?.text, draft,
    months: [...reports.keys()].filter((month) => kept.reports.has(month)),
  };
}

/** @type {T.Join<T.Mailing>} */
export const joinMailings = (kept, others, most) => [
  ...kept, ...others.filter(({ at }) => !kept.some((mine) => mine.at === at))]
  .sort((a, b) => a.at - b.at).slice(-most);

/** @type {T.Join<T.EarlierText>} */
export const joinEarlier = (kept, others, most) => [
  ...kept, ...others.filter(({ text }) => !kept.some((mine) => mine.text === text))]
  .sort((a, b) => b.at - a.at).slice(0, most);
