// The text box with its line numbers. Marks of faulty lines follow their lines as others are added, changed or removed.

import { byId, el, on } from './dom.js';
import { readMailing } from './judge.js';
import { followLines, splitLines } from './texts.js';
import { theWorld } from './world.js';

const LEAST_LINES = 20;
export const box = /** @type {HTMLTextAreaElement} */ (byId('orders-text'));

let lines = [''];
/** @type {T.Mark[]} */
let faults = [];
let read = readMailing('');
let here = 1;
/** @type {HTMLElement[]} */
const numbers = [];
// In pixels: how far the text is scrolled, and how high the box and a line are.
const seen = { top: 0, height: 0, line: 24 };

export const text = () => box.value;
export const mailingNow = () => read;
export const faultyLines = () => faults;

/** @type {T.Foreseen} */
export function foreseen() {
  const typed = document.activeElement === box ? here : 0;
  return read.faults.filter(([line]) => line !== typed && (theWorld() || read.lines[line - 1].kind === 'bad'));
}

/** @param {number} line */
export const faultyText = (line) => lines[line - 1] ?? '';

/** @type {T.Act} */
export function setText(fresh) {
  box.value = fresh;
  takeLines();
}

/** @type {T.SetFaults} */
export function setFaults(pairs, sent = text()) {
  lines = splitLines(sent);
  faults = pairs.map(([line, number]) => ({ line, number, changed: false }));
  takeLines();
}

function takeLines() {
  read = readMailing(text(), theWorld()?.known);
  const fresh = read.lines.map((line) => line.text);
  const places = faults.length > 0 ? followLines(lines, fresh) : [];
  faults = faults.map((fault) => {
    const place = places[fault.line - 1] ?? -1;
    return place >= 0 ? { ...fault, line: place + 1 }
      : { ...fault, line: Math.min(fault.line, fresh.length), changed: true };
  });
  lines = fresh;
  here = lineNow();
  showLines();
}

const lineNow = () => box.value.slice(0, box.selectionStart).split('\n').length;

export const lineHere = () => read.lines[lineNow() - 1];

// Only the lines that are seen have numbers. This asks nothing of the layout, which takes long.
function showLines() {
  const first = Math.floor(seen.top / seen.line);
  const count = Math.min(lines.length - first, Math.max(LEAST_LINES, Math.ceil(seen.height / seen.line) + 1));
  while (numbers.length < count) numbers.push(byId('orders-lines').appendChild(el('div')));
  for (const node of numbers.splice(Math.max(count, 0))) node.remove();
  const marks = new Map(foreseen().map(([line]) => [line, 'warned']));
  for (const { line, changed } of faults) if (!changed) marks.set(line, 'faulty');
  numbers.forEach((node, index) => {
    const line = first + index + 1;
    node.dataset.line = node.textContent = String(line);
    node.className = marks.get(line) ?? '';
    node.style.transform = `translateY(${first * seen.line - seen.top}px)`;
  });
}

function measure() {
  Object.assign(seen, {
    top: box.scrollTop, height: box.clientHeight, line: parseFloat(getComputedStyle(box).lineHeight) || seen.line,
  });
  showLines();
}

/** @param {number} line */
export function jumpTo(line) {
  const start = lines.slice(0, line - 1).join('\n').length + (line > 1 ? 1 : 0);
  select(start, start + faultyText(line).length);
}

/** @type {T.Select} */
export function select(start, end = start) {
  box.focus();
  box.setSelectionRange(start, end);
  measure();
  box.scrollTop = Math.max(0, (lineNow() - 1) * seen.line - box.clientHeight / 3);
  box.scrollLeft = 0;
}

/** @type {T.WatchText} */
export function watchText(act, look) {
  const move = () => {
    here = lineNow();
    showLines();
    look();
  };
  on(box, 'focus', move);
  on(box, 'blur', (event) => event.relatedTarget !== byId('orders-names') && move());
  on(box, 'keyup click', () => here !== lineNow() && move());
  on(document, 'world', () => {
    takeLines();
    look();
  });
  on(box, 'scroll', measure);
  new ResizeObserver(measure).observe(box);
  on(box, 'input', () => {
    takeLines();
    act();
  });
}
