// The names that fit the word being typed, below the text box. Tab leads to them, and no key of the text box changes.

import { completions } from './compose.js';
import { byId, el, on, refill } from './dom.js';
import { box, lineHere } from './editor.js';
import { counted } from './words.js';
import { reportNow, theWorld } from './world.js';

const list = byId('orders-names');
/** @type {ReturnType<typeof completions>} */
let found = null;
let chosen = 0;

const lineStart = () => box.value.lastIndexOf('\n', box.selectionStart - 1) + 1;

const units = () => (reportNow()?.regions ?? []).flatMap((region) => region.units)
  .map(({ number, name }) => ({ name: String(number), note: name }));

function look() {
  const world = theWorld();
  const isTyped = document.activeElement === box && box.selectionStart === box.selectionEnd;
  const line = isTyped ? lineHere() : null;
  found = world && line && !['outside', 'header', 'end'].includes(line.kind)
    ? completions(line.text, box.selectionStart - lineStart(), {
      item: world.item, kind: world.kind, get unit() { return units(); },
      skill: world.skill.map(({ name, fee }) => ({ name, note: fee ? `fee ${fee}` : '' })),
    }) : null;
  show();
}

function show() {
  const choices = found?.choices ?? [];
  refill('orders-names', choices.map(({ name, note }, index) => {
    const option = el('li', { role: 'option', id: `orders-name-${index}`, 'aria-selected': 'false' },
      note ? `${name} (${note})` : name);
    on(option, 'click', () => take(index));
    return option;
  }));
  byId('orders-fit').hidden = theWorld() === null;
  list.tabIndex = found ? 0 : -1;
  byId('orders-names-said').textContent = found ? `${counted(choices.length, 'name')}: press Tab to choose` : '';
}

/** @param {number} index */
function choose(index) {
  chosen = (index + list.children.length) % list.children.length;
  [...list.children].forEach((option, i) => option.setAttribute('aria-selected', String(i === chosen)));
  list.setAttribute('aria-activedescendant', `orders-name-${chosen}`);
  list.children[chosen].scrollIntoView({ block: 'nearest' });
}

/** @type {T.TakeNameList} */
function take(index) {
  const choice = found?.choices[index];
  if (!found || !choice) return;
  box.focus();
  box.setSelectionRange(lineStart() + found.from, box.selectionStart);
  document.execCommand('insertText', false, choice.text);
}

/** @param {KeyboardEvent} event */
function byKey(event) {
  const step = { ArrowRight: 1, ArrowDown: 1, ArrowLeft: -1, ArrowUp: -1 }[event.key];
  if (step) choose(chosen + step);
  else if (event.key === 'Enter' || event.key === ' ') take(chosen);
  else if (event.key === 'Escape') box.focus();
  else return;
  event.preventDefault();
}

export function startNameList() {
  on(box, 'input click keyup focus', look);
  on(box, 'blur', (event) => {
    if (event.relatedTarget === list) return;
    found = null;
    show();
  });
  on(document, 'world', show);
  on(list, 'focus', () => choose(0));
  on(list, 'keydown', byKey);
  on(list, 'pointerdown', (event) => event.preventDefault());
}
