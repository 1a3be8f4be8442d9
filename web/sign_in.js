// The faction number and the pass text above the tabs, and joining, which gives both.

import { answerAt, busy, button, byId, el, fieldById, on, tell } from './dom.js';
import { LAST_NUMBER, nameFault, numberIn, passFault } from './judge.js';
import { ask, isUnknown, refusalOf, unreadable } from './requests.js';
import { forgetPass, keepLastFaction, keepPass, keptPass, lastFaction } from './store.js';

export const NO_NUMBER = 'Write your faction number, from 1 to 9,999, at the top of the page.';
const CLOSED = 'The moderator has closed joining: ask them.';
const PERHAPS = ' You may have joined all the same. If the name is taken when you try again, ask the moderator.';
const answerJoin = answerAt('join-answer');
export const answerSignIn = answerAt('sign-in-answer');

const pass = () => fieldById('pass');
const remember = () => fieldById('remember');
let faction = 0;
let passIsKept = false;
/** @type {T.Sign | null} the last one that the program took */
let right = null;

export const currentFaction = () => faction;

export function takeFaction() {
  const number = numberIn(fieldById('faction').value.trim(), LAST_NUMBER) ?? 0;
  if (number === faction) return;
  const before = faction;
  faction = number;
  if (faction) keepLastFaction(faction);
  loadPass();
  tell('faction', before);
}

// A pass text that was typed stays where none is kept. One that was kept for another faction goes.
function loadPass() {
  const kept = keptPass(faction);
  if (kept !== null || passIsKept) pass().value = kept ?? '';
  remember().checked = kept !== null || (remember().checked && !passIsKept);
  passIsKept = kept !== null;
}

/** @type {T.IsRight} */
export function isRight(sign) {
  if (sign.faction !== faction) return;
  right = sign;
  passIsKept = remember().checked;
  if (passIsKept) keepPass(faction, sign.pass);
}

/** @type {T.RightSign} */
export const rightSign = () => (right?.faction === faction && right.pass === pass().value ? right : null);

function askedToKeep() {
  const sign = rightSign();
  if (sign) isRight(sign);
  if (remember().checked || !faction) return;
  forgetPass(faction);
  passIsKept = false;
}

/** @param {number} number */
export function showFaction(number) {
  fieldById('faction').value = String(number || '');
  takeFaction();
}

/** @type {T.SignedIn} */
export function signedIn() {
  takeFaction();
  if (!faction) return { fault: NO_NUMBER };
  const fault = pass().value === '' ? 'Write your pass text at the top of the page.' : passFault(pass().value);
  return fault === null ? { faction, pass: pass().value } : { fault };
}

/** @type {T.StartSignIn} */
export function startSignIn(signIn) {
  showFaction(lastFaction());
  on('faction', 'change', takeFaction);
  for (const id of ['faction', 'pass']) on(id, 'input', () => answerSignIn('plain'));
  on('remember', 'change', askedToKeep);
  on('pass-show', 'click', () => {
    const isShown = pass().type === 'password';
    pass().type = isShown ? 'text' : 'password';
    byId('pass-show').setAttribute('aria-pressed', String(isShown));
  });
  on('sign-in', 'submit', (event) => {
    event.preventDefault();
    busy('sign-in-send', async () => {
      answerSignIn('plain', 'Signing in ..');
      const { tone, words } = await signIn();
      answerSignIn(tone, words);
    });
  });
}

/** @param {T.Reply} reply */
const refusal = (reply) => ([403, 404, 405].includes(reply.status) && reply.error === null ? CLOSED
  : refusalOf(reply) + (isUnknown(reply) ? PERHAPS : ''));

async function join() {
  const name = fieldById('join-name').value;
  const chosen = fieldById('join-pass').value;
  const fault = nameFault(name) ?? passFault(chosen);
  if (fault) return answerJoin('bad', fault);
  answerJoin('plain', 'Joining ..');
  const reply = await ask('/join', { body: JSON.stringify({ name, pass: chosen }) });
  if (!reply.isOk) return answerJoin('bad', refusal(reply));
  const { faction: number, unit } = reply.json;
  if (!Number.isInteger(number) || !Number.isInteger(unit)) return answerJoin('bad', unreadable(reply), PERHAPS);
  showFaction(number);
  pass().value = chosen;
  isRight({ faction, pass: chosen });
  fieldById('join-pass').value = '';
  return answerJoin('good', el('p', {}, `You have joined as faction ${faction}, and your first unit is unit ${
    unit}. Write down both numbers and your pass text.`), button('Go to the report', () => tell('go', 'report')));
}

export const startJoin = () => on('join-form', 'submit', (event) => {
  event.preventDefault();
  busy('join-send', join);
});
