// Saves what the browser keeps of a faction as one file, and takes such a file in.

import { archiveText, joinEarlier, joinMailings, MOST_FILE_BYTES, planImport, readArchive } from './archive.js';
import { answerAt, button, byId, fieldById, on, saveFile, tell } from './dom.js';
import { MOST_EARLIER, MOST_MAILINGS } from './drafts.js';
import { currentFaction, NO_NUMBER, showFaction } from './sign_in.js';
import {
  draftMonthOf, draftOf, earlierOf, keepDraft, keepDraftMonth, keepEarlier, keepMailings, keepReport, mailingsOf,
  monthsOf, reportOf,
} from './store.js';
import { counted } from './words.js';

const answer = answerAt('report-answer');

/** @type {T.KeptOf} */
function keptOf(faction) {
  const text = draftOf(faction);
  return {
    faction,
    reports: new Map(monthsOf(faction).map((month) => [month, reportOf(faction, month) ?? ''])),
    mailings: mailingsOf(faction),
    draft: text === null ? null : { text, after: draftMonthOf(faction) },
    earlier: earlierOf(faction),
  };
}

function save() {
  const faction = currentFaction();
  if (!faction) answer('bad', NO_NUMBER);
  else saveFile(`faction-${faction}.json`, archiveText(keptOf(faction)), 'application/json');
}

async function open() {
  const [file] = fieldById('archive-file').files ?? [];
  if (!file) return;
  const archive = file.size > MOST_FILE_BYTES ? { fault: 'This file is too long.' } : readArchive(await file.text());
  fieldById('archive-file').value = '';
  if ('fault' in archive) answer('bad', `${archive.fault} Nothing was taken from it.`);
  else offer(archive);
}

/** @type {T.Offer} */
function offer(archive) {
  const kept = keptOf(archive.faction);
  const { months, newDraft } = planImport(kept, archive);
  const differs = [months.length > 0 ? counted(months.length, 'report') : '', newDraft && kept.draft ? 'the draft' : '']
    .filter(Boolean).join(' and ');
  if (differs === '') take(archive, true);
  else {
    answer('mixed', `In the file ${differs} of faction ${archive.faction} differ from what this browser keeps. `,
      button('Take what is missing here', () => take(archive, false)), ' ',
      button('Take all of the file', () => take(archive, true)));
  }
}

/** @type {T.Take} */
function take(archive, all) {
  const { faction } = archive;
  const kept = keptOf(faction);
  const { reports, months, newDraft, draft } = planImport(kept, archive);
  const takesDraft = draft && newDraft && (all || !kept.draft);
  const other = takesDraft ? kept.draft : newDraft ? draft : null;
  const earlier = [...(other ? [{ text: other.text, at: Date.now() }] : []), ...kept.earlier];
  const isKept = [
    ...[...reports].filter(([month]) => all || !months.includes(month))
      .map(([month, text]) => keepReport(faction, month, text)),
    keepMailings(faction, joinMailings(kept.mailings, archive.mailings, MOST_MAILINGS)),
    keepEarlier(faction, joinEarlier(earlier, archive.earlier, MOST_EARLIER)),
    !takesDraft || keepDraft(faction, draft.text),
  ].every(Boolean);
  if (takesDraft && draft.after !== null) keepDraftMonth(faction, draft.after);
  showFaction(faction);
  tell('imported');
  answer(isKept ? 'good' : 'mixed', `The file of faction ${faction} was taken in. ${isKept
    ? 'This browser keeps all of it.' : 'This browser is full and cannot keep all of it: do not close the page.'}`);
}

export function startArchive() {
  on('archive-save', 'click', save);
  on('archive-open', 'click', () => byId('archive-file').click());
  on('archive-file', 'change', open);
}
