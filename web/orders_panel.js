// Edits and sends the month's mailing.

import { answerAt, busy, button, byId, el, fieldById, on, paragraph, refill } from './dom.js';
import {
  isDraft, isOldDraft, isPending, keepReplaced, lastMailing, latestTemplate, markDraft, MOST_MAILINGS, saveDraft,
  startText,
} from './drafts.js';
import { box, select, setFaults, setText, text, watchText } from './editor.js';
import { MOST_BYTES } from './judge.js';
import { emptyMailing, firstPlace } from './mailing.js';
import { startNameList } from './name_list.js';
import { showFaults, showNotes } from './orders_notes.js';
import { ask, isUnknown, refusalOf, unreadable } from './requests.js';
import { currentFaction, isRight, NO_NUMBER, signedIn } from './sign_in.js';
import {
  draftMonthOf, draftOf, earlierOf, forgetDraft, forgetUnknown, keepMailings, keepUnknown, latestMonth, mailingsOf,
  wasUnknown, watchTabs,
} from './store.js';
import { byteLength } from './texts.js';
import { counted, countedFaults, NONE_KEPT, ORDERS, refusalWords } from './words.js';

// Seconds after which a mailing that got no answer is sent again.
const WAITS = [5, 15];
const UNKNOWN = ' Whether the orders were taken is not known until an answer comes.';
const FAULTY = ' The faulty lines give no order. Mend them, and send the whole text again.';
const showAnswer = answerAt('orders-answer');

let draftIsKept = true;
/** @type {number | null} the latest month as the answer was given */
let answeredIn = null;
/** @type {ReturnType<typeof setTimeout> | undefined} */
let sendingAgain;

/** @type {T.Answer} */
function answer(tone, ...parts) {
  answeredIn = latestMonth(currentFaction());
  showAnswer(tone, ...parts);
}

function edited() {
  clearTimeout(sendingAgain);
  forgetUnknown(currentFaction());
  answer('plain');
  takeText();
}

function takeText() {
  draftIsKept = saveDraft(currentFaction(), text());
  showState();
  showNotes();
  showFaults();
  showOldDraft();
}

/** @type {T.Act} */
function replaceText(fresh) {
  keepReplaced(currentFaction(), text());
  writeText(fresh);
  showEarlier();
  box.focus();
}

/** @type {T.Act} */
export function writeText(fresh) {
  setText(fresh);
  edited();
}

/** @type {T.TextsOf} */
function textsOf(faction) {
  const last = lastMailing(faction);
  return [...earlierOf(faction), ...(last ? [last] : [])];
}

function bringBack() {
  const entry = textsOf(currentFaction())[Number(fieldById('orders-earlier-list').value)];
  if (!entry) return;
  replaceText(entry.text);
  markAccepted(currentFaction());
  showFaults();
}

function showEarlier() {
  const list = textsOf(currentFaction());
  byId('orders-earlier').hidden = list.length === 0;
  refill('orders-earlier-list', list.map((entry, index) => el('option', { value: index }, `${
    'orders' in entry ? 'accepted ' : ''}${timeWords(entry.at)}, ${
    counted(entry.text.trim().split('\n').length, 'line')}`)));
}

/** @type {T.HeardOfTab} */
function heardOfTab(faction, name) {
  if (faction !== currentFaction()) return;
  if (name === 'mailings') showAccepted();
  if (name !== 'draft') return;
  const theirs = draftOf(faction);
  const differs = theirs !== text() && isDraft(faction, text());
  if (differs) keepReplaced(faction, text());
  showEarlier();
  refill('orders-tabs', differs ? paragraph('note warn', `Another tab of this page ${
    theirs === null ? 'sent or removed its draft' : 'writes orders for this faction: load the page again to see them'
  }. The text here is kept under "Earlier texts".`) : null);
}

/** @param {number} at */
const timeWords = (at) => new Date(at).toLocaleString('en-GB', { dateStyle: 'medium', timeStyle: 'short' });

function showAccepted() {
  const faction = currentFaction();
  const last = lastMailing(faction);
  const latest = latestMonth(faction);
  byId('orders-title').textContent = latest === null ? 'Orders' : `Orders for month ${latest + 1}`;
  byId('orders-accepted').textContent = !last ? 'This browser has sent no orders for this faction yet.'
    : `Accepted at ${timeWords(last.at)}: ${countedFaults(last)}. ${isPending(faction, last)
      ? 'Only the orders accepted last count, as a whole.' : 'A month was closed after that.'}`;
  showEarlier();
}

function showState() {
  const faction = currentFaction();
  byId('orders-state').textContent = !isDraft(faction, text()) ? ''
    : !draftIsKept ? 'Draft. This browser cannot keep it: do not close the page.'
      : `Draft, kept in this browser${wasUnknown(faction) === null ? ', not sent yet' : ''}.`;
}

function showOldDraft() {
  const faction = currentFaction();
  const isOld = isOldDraft(faction);
  if (isOld === byId('orders-old').hasChildNodes()) return;
  const next = (latestMonth(faction) ?? 0) + 1;
  refill('orders-old', isOld ? paragraph('note warn row', `This draft is of month ${
    (draftMonthOf(faction) ?? 0) + 1}. A month was closed after this draft was begun. `,
  button(`Use it for month ${next}`, () => {
    markDraft(faction);
    showOldDraft();
    box.focus();
  })) : null);
}

/** @type {T.OrdersIn} */
function ordersIn({ isOk, json }) {
  /** @param {unknown} fault */
  const isPair = (fault) => Array.isArray(fault) && fault.length === 2 && fault.every(Number.isInteger);
  return isOk && Number.isInteger(json.orders) && Array.isArray(json.faults) && json.faults.every(isPair) ? json : null;
}

// `tries` says how often this text was sent before without an answer.
async function send(tries = 0) {
  clearTimeout(sendingAgain);
  const sign = signedIn();
  if ('fault' in sign) return refuse(sign.fault);
  const { faction, pass } = sign;
  const written = text();
  if (byteLength(written) > MOST_BYTES) return refuse(refusalWords('TooLong'));
  setFaults([]);
  takeText();
  answer('plain', 'Sending ..');
  const reply = await ask(`/orders/${faction}`, { pass, body: written });
  const taken = ordersIn(reply);
  if (taken) return take(sign, written, taken);
  if (faction !== currentFaction()) return undefined;
  const isOpen = reply.isOk || isUnknown(reply) || (wasUnknown(faction) && reply.error === null);
  return isOpen ? leaveOpen(faction, written, reply, tries) : refuse(refusalOf(reply));
}

/** @param {string} words */
function refuse(words) {
  forgetUnknown(currentFaction());
  answer('bad', words);
  showState();
}

/** @type {T.LeaveOpen} */
function leaveOpen(faction, written, reply, tries) {
  keepUnknown(faction, 1);
  const wait = written === text() ? WAITS[tries] : undefined;
  answer('bad', reply.isOk ? unreadable(reply) : refusalOf(reply), UNKNOWN, wait === undefined
    ? ' Press "Send the orders" to ask again.' : ` The page sends them again in ${wait} seconds.`);
  if (wait !== undefined) sendingAgain = setTimeout(() => busy('orders-send', () => send(tries + 1)), wait * 1000);
  showState();
}

/** @type {T.TakeOrders} */
function take(sign, written, { orders, faults }) {
  const { faction } = sign;
  isRight(sign);
  const mailing = { text: written, at: Date.now(), orders, faults, after: latestMonth(faction) };
  const kept = keepMailings(faction, [...mailingsOf(faction), mailing].slice(-MOST_MAILINGS));
  if (draftOf(faction) === written) forgetDraft(faction);
  forgetUnknown(faction);
  if (faction !== currentFaction()) return;
  setFaults(faults, written);
  const isWhole = faults.length === 0;
  answer(isWhole ? 'good' : 'mixed', `Accepted: ${countedFaults(mailing)}.`, isWhole ? '' : FAULTY,
    kept ? '' : ' This browser cannot keep the text: save a copy yourself.');
  showAccepted();
  takeText();
}

function useTemplate() {
  const faction = currentFaction();
  if (!faction) return answer('bad', NO_NUMBER);
  const fresh = latestTemplate(faction);
  replaceText(fresh ?? emptyMailing(faction));
  select(firstPlace(text()));
  return answer('plain', fresh ? '' : NONE_KEPT);
}

/** @type {T.ChangeFaction} */
function changeFaction(before) {
  const faction = currentFaction();
  clearTimeout(sendingAgain);
  const stray = !before && faction && text().trim() !== '' ? text() : null;
  const start = startText(faction);
  const goes = stray !== null && start !== emptyMailing(faction);
  if (stray === null || goes) setText(start);
  if (goes) keepReplaced(faction, stray);
  refill('orders-tabs');
  markAccepted(faction);
  answer('plain', goes ? 'What you wrote is kept under "Earlier texts".' : '');
  takeText();
  if (stray !== null) forgetDraft(0);
  showAccepted();
}

/** @param {number} faction */
function markAccepted(faction) {
  const last = lastMailing(faction);
  setFaults(last && last.text === text() && isPending(faction, last) ? last.faults : []);
}

// In a new month the editor starts from its template, unless there is a draft.
function changeKept() {
  const faction = currentFaction();
  const fresh = startText(faction);
  const starts = faction !== 0 && draftOf(faction) === null && fresh !== text();
  if (starts) {
    setText(fresh);
    markAccepted(faction);
  }
  if (starts || latestMonth(faction) !== answeredIn) {
    clearTimeout(sendingAgain);
    answer('plain');
  }
  takeText();
  showAccepted();
}

function takeImported() {
  const faction = currentFaction();
  if (startText(faction) !== text()) keepReplaced(faction, text());
  changeFaction(faction);
}

export function startOrders() {
  refill('orders-help', ORDERS.map(([form, example, does, needs]) => [
    el('dt', {}, el('code', {}, form)),
    el('dd', {}, `${does}.`, needs ? ` Needs: ${needs}.` : '',
      example ? [' For example ', el('code', {}, example), '.'] : null),
  ]));
  watchText(edited, showNotes);
  startNameList();
  watchTabs(heardOfTab);
  on('orders-send', 'click', () => busy('orders-send', send));
  on('orders-template', 'click', useTemplate);
  on('orders-undo', 'click', bringBack);
  on(window, 'beforeunload', (event) => draftIsKept || event.preventDefault());
  on(document, 'replace', ({ detail }) => replaceText(detail));
  on(document, 'faction', ({ detail }) => changeFaction(detail));
  on(document, 'kept', changeKept);
  on(document, 'imported', takeImported);
  changeFaction(currentFaction());
}
