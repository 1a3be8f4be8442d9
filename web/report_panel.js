// Fetches reports, keeps them by month, and shows them as text and read.

import { answerAt, busy, button, byId, el, fieldById, on, paragraph, refill, saveFile, tell } from './dom.js';
import { fits } from './mailing.js';
import { showReport } from './report_view.js';
import { ask, refusalOf, unreadable } from './requests.js';
import { answerSignIn, currentFaction, isRight, rightSign, signedIn } from './sign_in.js';
import {
  forgetFaction, forgetReport, keepMailings, keepReport, latestMonth, mailingsOf, monthsOf, reportOf,
} from './store.js';
import { NONE_KEPT } from './words.js';
import { readReport } from './world.js';

// Milliseconds between two questions whether a month was closed.
const PAUSE = 60000;
const SLOW = 300000;
const NO_REPORT = 'The server sent no report of this faction. What it sent is shown below, and not kept.';
const OTHERS_KEPT = ' does not go with the months that this browser keeps: the moderator may have begun another'
  + ' campaign, or put back an older month. It is not kept yet.';
const answer = answerAt('report-answer');

/** @type {{text: string, month: number | null} | null} */
let shown = null;
let askedAt = 0;

/** @type {T.MailingOf} */
function mailingOf(faction, report) {
  const { month } = report;
  if (!month) return null;
  const list = [...mailingsOf(faction)].reverse();
  return list.find((mailing) => mailing.month === month) ?? list.find((mailing) => mailing.month === undefined
    && (mailing.after === null || mailing.after < month) && fits(mailing, report)) ?? null;
}

/** @type {T.SettleMailing} */
function settleMailing(faction, report) {
  const { month } = report;
  const found = mailingOf(faction, report);
  if (!found || found.month !== undefined || month === null) return;
  keepMailings(faction, mailingsOf(faction).filter((mailing) => mailing.month !== undefined || mailing.at >= found.at)
    .map((mailing) => (mailing === found ? { ...found, month } : mailing)));
}

/** @type {T.SignIn} */
export async function signIn() {
  const sign = signedIn();
  if ('fault' in sign) return { tone: 'bad', words: sign.fault };
  if (shown && shown.month === null) showLatest();
  const { faction } = sign;
  const reply = await ask(`/report/${faction}`, sign);
  if (faction !== currentFaction()) return { tone: 'plain', words: '' };
  if (!reply.isOk) return { tone: 'bad', words: refusalOf(reply) };
  const { month, name, ...report } = readReport(reply.text);
  if (month === null || report.faction !== faction) {
    display(reply.text, null, null);
    return { tone: 'bad', words: reply.text.trim() === '' ? unreadable(reply) : NO_REPORT };
  }
  isRight(sign);
  askedAt = Date.now();
  take(faction, month, reply.text);
  if (!byId('panel-join').hidden) tell('go', 'units');
  return { tone: 'good', words: `Signed in: faction ${faction} “${name}”, month ${month}.` };
}

async function fetchReport() {
  answer('plain', 'Fetching ..');
  const { tone, words } = await signIn();
  if (tone !== 'good') answer(tone, words);
}

async function watchMonths() {
  const sign = rightSign();
  if (document.hidden || sign === null || Date.now() - askedAt < PAUSE) return;
  askedAt = Date.now();
  const reply = await ask(`/report/${sign.faction}`, sign);
  const { month, faction } = readReport(reply.isOk ? reply.text : '');
  const latest = latestMonth(sign.faction);
  if (month === null || faction !== sign.faction || faction !== currentFaction() || month <= (latest ?? -1)) return;
  const older = shown !== null && shown.month !== latest ? shown.month : null;
  keep(faction, month, reply.text);
  if (older !== null) show(faction, older);
  answerSignIn('good', `Month ${month} is closed, and its report is here.`);
}

/** @type {T.TakeReport} */
function take(faction, month, text) {
  const latest = latestMonth(faction) ?? -1;
  const kept = reportOf(faction, month);
  if (kept === text && latest === month) {
    show(faction, month);
    answer('plain', `Month ${month} is still the newest.`);
  } else if (kept !== null || latest > month) askToReplace(faction, month, text);
  else keep(faction, month, text);
}

/** @type {T.TakeReport} */
function keep(faction, month, text) {
  const lasting = keepReport(faction, month, text);
  settleMailing(faction, readReport(text));
  show(faction, month);
  tell('kept');
  answer(lasting ? 'good' : 'mixed', `The report of month ${month} is here. ${lasting
    ? 'This browser keeps it.' : 'This browser cannot keep it: save it as text.'}`);
}

// Reports don't change, so this one is of another campaign, or of one that was put back to an older month.
/** @type {T.TakeReport} */
function askToReplace(faction, month, text) {
  display(text, month, null);
  byId('report-month').prepend(el('option', { value: '' }, `Month ${month}, not kept`));
  fieldById('report-month').value = '';
  const replaceFrom = (/** @type {number} */ first) => {
    for (const old of monthsOf(faction)) if (old >= first) forgetReport(faction, old);
    keepMailings(faction, mailingsOf(faction).filter(({ month: of }) => of !== undefined && of < first));
    keep(faction, month, text);
  };
  answer('mixed', el('p', {}, `This report of month ${month}${OTHERS_KEPT}`),
    button(`Keep it, and remove month ${month} and all after it`, () => replaceFrom(month)), ' ',
    button('Keep it, and remove all other months', () => replaceFrom(0)));
}

/** @type {T.Show} */
function show(faction, month) {
  const options = monthsOf(faction).reverse().map((kept) => el('option', { value: kept }, `Month ${kept}`));
  refill('report-month', options.length > 0 ? options : el('option', { value: 'null' }, 'none'));
  fieldById('report-month').value = String(month);
  const text = reportOf(faction, month) ?? '';
  display(text, month, mailingOf(faction, readReport(text)));
  answer('plain');
}

/** @type {T.Display} */
function display(text, month, mailing) {
  shown = text === '' ? null : { text, month };
  byId('report-text').textContent = text;
  for (const id of ['report-text', 'report-text-title', 'report-save']) byId(id).hidden = text === '';
  const report = readReport(text);
  refill('report-read', text === '' ? paragraph('note', NONE_KEPT)
    : report.month === null ? null : showReport(report, mailing));
}

const showLatest = () => show(currentFaction(), latestMonth(currentFaction()));

function showChosen() {
  const month = Number.parseInt(fieldById('report-month').value, 10);
  if (month >= 0) show(currentFaction(), month);
}

function save() {
  if (shown) saveFile(`faction-${currentFaction()}-month-${shown.month ?? 'unknown'}.txt`, shown.text, 'text/plain');
}

function dropMonth() {
  const faction = currentFaction();
  const { month, text } = shown ?? { month: null, text: '' };
  if (month === null || reportOf(faction, month) !== text) answer('plain', 'What is shown is not kept.');
  else if (isSure(`month ${month}`)) {
    forgetReport(faction, month);
    tell('kept');
    showLatest();
  }
}

function forgetAll() {
  const faction = currentFaction();
  if (!faction || !isSure(`all that is kept for faction ${faction}`)) return;
  forgetFaction(faction);
  fieldById('remember').checked = false;
  showLatest();
  tell('kept');
}

/** @param {string} what */
const isSure = (what) => confirm(`Remove ${what}? This cannot be undone.`);

export function startReport() {
  on('report-fetch', 'click', () => busy('report-fetch', fetchReport));
  on('report-month', 'change', showChosen);
  on('report-save', 'click', save);
  on('report-drop', 'click', dropMonth);
  on('report-forget', 'click', forgetAll);
  on(document, 'faction imported world', showLatest);
  on(document, 'visibilitychange', watchMonths);
  setInterval(watchMonths, SLOW);
  showLatest();
}
