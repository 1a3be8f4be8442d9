// Notes on the text of orders before it is sent, and the lines that the program found faulty.

import { button, byId, el, link, listOf, paragraph, refill, tell } from './dom.js';
import { faultyLines, faultyText, foreseen, jumpTo, mailingNow, text } from './editor.js';
import { MOST_BYTES } from './judge.js';
import { emptyMailing, oddSigns, plainSigns } from './mailing.js';
import { currentFaction } from './sign_in.js';
import { byteLength } from './texts.js';
import { counted, countedFaults, lineFaultWords, numbered } from './words.js';
import { theWorld } from './world.js';

const NEAR = 60000;
const MOST_NOTES = 20;
const MOST_LETTERS = 200;

export function showNotes() {
  const bytes = byteLength(text());
  byId('orders-count').textContent = (theWorld() ? `As it is: ${countedFaults(mailingNow())}. ` : '')
    + (bytes >= NEAR ? `${numbered(bytes)} of ${numbered(MOST_BYTES)} bytes` : '');
  byId('orders-count').classList.toggle('bad', bytes > MOST_BYTES);
  const notes = el('div', {}, headerNote(currentFaction()), soonNote());
  if (notes.textContent !== byId('orders-notes').textContent) refill('orders-notes', notes);
}

/** @param {number} faction */
function headerNote(faction) {
  const { faction: named, hasHeader } = mailingNow();
  if (!faction || text().trim() === '' || named === faction) return null;
  if (hasHeader) {
    return paragraph('note warn', named === null ? 'After #ATLANTIS comes the number of your faction, from 1 to 9,999.'
      : `The line #ATLANTIS names faction ${named}, and not ${faction}.`);
  }
  return paragraph('note warn row', 'No line begins with #ATLANTIS. ',
    button(`Put #ATLANTIS ${faction} at the top`, () => tell('replace', emptyMailing(faction) + text())));
}

// The faults that the program will find, but for those that its last answer named.
function soonNote() {
  const known = new Set(faultyLines().filter(({ changed }) => !changed).map(({ line }) => line));
  const soon = foreseen().filter(([line]) => !known.has(line));
  const hasPlain = plainSigns(text()) !== text();
  return soon.length === 0 && !hasPlain ? null : el('div', { class: 'note warn' },
    soon.length === 0 ? null : ['The program will find these faults:',
      listOf(soon.slice(0, MOST_NOTES).map(([line, number]) => faultWords(line, number))),
      soon.length > MOST_NOTES ? `.. and ${counted(soon.length - MOST_NOTES, 'more line')}. ` : ''],
    !hasPlain ? null : button('Replace quotes, dashes and spaces by plain ones', () => {
      tell('replace', plainSigns(text()));
    }));
}

/** @type {T.FaultWords} */
function faultWords(line, number, changed = false) {
  const written = faultyText(line);
  const signs = oddSigns(written).map(signName).join(' ');
  return [link(`line ${line}`, () => jumpTo(line)), `: ${lineFaultWords(number)} ${signs && `Here: ${signs} `}`,
    changed ? '(changed after it was sent)' : el('code', {}, written.trim().slice(0, MOST_LETTERS))];
}

/** @param {string} sign */
const signName = (sign) => (/[\p{L}\p{N}\p{P}\p{S}]/u.test(sign) ? sign
  : `U+${(sign.codePointAt(0) ?? 0).toString(16).toUpperCase().padStart(4, '0')}`);

export const showFaults = () => refill('orders-faults', faultyLines().map(({ line, number, changed }) => el(
  'li', { 'data-line': line }, faultWords(line, number, changed))));
