// Which text of orders the editor begins with, which the player wrote, and what is kept of it.

import { emptyMailing, template } from './mailing.js';
import {
  draftMonthOf, draftOf, earlierOf, forgetDraft, keepDraft, keepDraftMonth, keepEarlier, latestMonth, mailingsOf,
  reportOf,
} from './store.js';
import { readReport } from './world.js';

export const MOST_EARLIER = 5;
export const MOST_MAILINGS = 30;
const made = { source: '', text: '' };

/** @param {number} faction */
export const lastMailing = (faction) => mailingsOf(faction).at(-1) ?? null;

/** @type {T.IsPending} */
export function isPending(faction, { month, after }) {
  return month === undefined && (after ?? Infinity) >= (latestMonth(faction) ?? 0);
}

/** @param {number} faction */
export function latestTemplate(faction) {
  const source = reportOf(faction, latestMonth(faction));
  if (source === null) return null;
  if (source !== made.source) Object.assign(made, { source, text: template(readReport(source)) });
  return made.text;
}

/** @param {number} faction */
function pendingText(faction) {
  const last = lastMailing(faction);
  return last && isPending(faction, last) ? last.text : null;
}

/** @param {number} faction */
export const startText = (faction) => draftOf(faction) ?? pendingText(faction) ?? latestTemplate(faction)
  ?? (faction ? emptyMailing(faction) : '');

/** @type {T.IsDraft} */
export const isDraft = (faction, written) => written.trim() !== ''
  && ![emptyMailing(faction), latestTemplate(faction), pendingText(faction)].includes(written);

/** @type {T.SaveDraft} */
export function saveDraft(faction, written) {
  if (!isDraft(faction, written)) {
    forgetDraft(faction);
    return true;
  }
  if (draftOf(faction) === null) markDraft(faction);
  return keepDraft(faction, written);
}

/** @type {T.MarkDraft} */
export function markDraft(faction) {
  const latest = latestMonth(faction);
  if (latest !== null) keepDraftMonth(faction, latest);
}

/** @type {T.IsOldDraft} */
export function isOldDraft(faction) {
  const month = draftMonthOf(faction);
  return draftOf(faction) !== null && month !== null && month < (latestMonth(faction) ?? month);
}

/** @type {T.KeepReplaced} */
export function keepReplaced(faction, written) {
  if (!isDraft(faction, written)) return;
  const others = earlierOf(faction).filter((entry) => entry.text !== written);
  keepEarlier(faction, [{ text: written, at: Date.now() }, ...others].slice(0, MOST_EARLIER));
}
