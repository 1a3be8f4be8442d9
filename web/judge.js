// Reads a mailing as the program does: what each line says, or its fault (docs/RULES.md, "Reading a mailing").

import { splitLines } from './texts.js';
import { LINE_FAULTS, refusalWords } from './words.js';

export const MOST_BYTES = 65536;
export const MOST_NUMBER = 999999999;
export const LAST_NUMBER = 9999;
const MOST_SAID = 50000;
const FAULT = Object.fromEntries(Object.keys(LINE_FAULTS).map((name, index) => [name, index + 1]));
// What the words after a keyword name. `kind` may be missing, and `units` goes on to the line's end.
const PARTS = new Map([
  'UNIT number', 'FORM alias', 'END', 'NAME what name', 'GUARD flag', 'ENTER number', 'BOARD number', 'LEAVE',
  'PROMOTE unit', 'GIVE unit amount item', 'PAY unit amount', 'TRANSFER unit amount', 'SELL amount item',
  'BUY amount item', 'TAX', 'RECRUIT amount', 'QUIT number', 'STUDY skill', 'TEACH unit units', 'PRODUCE item',
  'BUILD kind', 'WORK', 'MOVE way', 'SAIL way',
].map((row) => [row.split(' ')[0], row.split(' ').slice(1)]));
/** @type {Record<string, string[]>} */
export const WORDS = {
  keyword: [...PARTS.keys()], way: ['NORTH', 'SOUTH', 'EAST', 'WEST'], what: ['UNIT', 'FACTION', 'BUILDING', 'SHIP'],
};
const WORD = /([ \t]*)(?:"([^"]*)"?|([^ \t;"]+))/y;
export const MONTH_LONG = ['MOVE', 'SAIL', 'BUILD', 'TEACH', 'STUDY', 'PRODUCE', 'WORK'];
export const LAST_COUNTS = ['TAX', 'RECRUIT', 'SELL', 'BUY'];

/** @param {string} pass */
export const passFault = (pass) => (/^[\x21-\x7e]{1,40}$/.test(pass) ? null : refusalWords('BadPassText'));

/** @param {string} name */
export const nameFault = (name) => (/^(?! )(?!.* $)[\x20\x21\x23-\x7e]{1,40}$/.test(name) ? null
  : refusalWords('BadName'));

/** @type {T.Capitals} */
export const capitals = (word) => word.replace(/[a-z]+/g, (letters) => letters.toUpperCase());

/** @type {T.SlotOf} */
export const slotOf = (verb) => (MONTH_LONG.includes(verb) ? 'month' : LAST_COUNTS.includes(verb) ? verb : null);

/** @param {string} line */
export function wordsOf(line) {
  const words = [];
  WORD.lastIndex = 0;
  for (let found = WORD.exec(line); found; found = WORD.exec(line)) {
    const from = found.index + found[1].length;
    words.push({ text: found[2] ?? found[3], quoted: found[2] !== undefined, from, to: WORD.lastIndex });
  }
  return words;
}

/** @type {T.NameIn} */
export const nameIn = ({ text, quoted }) => (quoted ? text : text.replace(/_/g, ' '));

/** @type {T.Begins} */
const begins = (line, keyword) => line.includes('#') && capitals(wordsOf(line)[0]?.text ?? '') === keyword;

/** @type {T.NumberIn} */
export function numberIn(text, most, least = 1) {
  const number = /^\d+$/.test(text) ? Number(text) : -1;
  return number >= least && number <= most ? number : null;
}

// The lines that were read, since of a long text little changes between two readings.
/** @type {{known: T.Known | null, said: Map<string, T.Said>}} */
const cache = { known: null, said: new Map() };

/** @type {T.SaidBy} */
function saidBy(text) {
  const said = cache.said.get(text) ?? sayOf(text);
  cache.said.set(text, said);
  return said;
}

/** @type {T.SaidBy} */
function sayOf(text) {
  if (/[^\t\x20-\x7e]/.test(text)) return { words: [], verb: '', kind: 'bad', fault: FAULT.BadByte };
  const words = wordsOf(text);
  if (words.length === 0) return { words, verb: '', kind: 'blank', fault: 0 };
  const verb = capitals(words[0].text);
  const parts = PARTS.get(verb);
  return {
    words, verb: verb === 'BOARD' ? 'ENTER' : verb, kind: verb === 'UNIT' ? 'unit' : verb === 'END' ? 'block' : 'order',
    fault: parts ? partsFault(words, parts) : FAULT.UnknownOrder,
  };
}

/** @type {T.ReadMailing} */
export function readMailing(text, known = null) {
  if (known !== cache.known || cache.said.size > MOST_SAID) Object.assign(cache, { known, said: new Map() });
  const reader = new Reader();
  const lines = splitLines(text).map((line, index) => reader.read(line, index + 1));
  return {
    lines, faction: reader.faction, hasHeader: reader.inside,
    orders: lines.filter((line) => line.kind === 'order' && line.fault === 0).length,
    faults: lines.filter((line) => line.fault !== 0).map((line) => [line.line, line.fault]),
  };
}

class Reader {
  inside = false;
  over = false;
  /** @type {number | null} */
  faction = null;
  /** @type {number | null} */
  unit = null;
  /** @type {number | null} the line of the FORM whose block is open */
  form = null;
  // Whether that FORM has a fault.
  skipped = false;
  aliases = new Set();

  /** @param {string} text @param {number} line */
  read(text, line) {
    /** @type {T.MailingLine} */
    const made = { line, text, kind: 'outside', words: [], verb: '', unit: null, form: null, fault: 0 };
    if (this.over) return made;
    if (!this.inside) {
      if (!begins(text, '#ATLANTIS')) return made;
      this.inside = true;
      this.faction = numberIn(wordsOf(text)[1]?.text ?? '', LAST_NUMBER);
      made.kind = 'header';
    } else if (begins(text, '#END')) {
      this.over = true;
      made.kind = 'end';
    } else this.readInside(Object.assign(made, saidBy(text)));
    return made;
  }

  /** @param {T.MailingLine} made */
  readInside(made) {
    if (made.kind === 'unit') {
      made.unit = this.unit = made.fault === 0 ? Number(made.words[1].text) : null;
      this.form = null;
    } else if (made.kind === 'block') {
      made.unit = this.unit;
      made.fault = this.form === null ? FAULT.EndAlone : 0;
      this.form = null;
    } else if (made.kind === 'order') {
      made.form = this.form;
      made.unit = this.form === null ? this.unit : null;
      if (made.verb === 'FORM') this.readForm(made);
      else if ((this.form === null ? this.unit === null : this.skipped) && PARTS.has(made.verb)) {
        made.fault = FAULT.NoUnit;
      }
    }
  }

  /** @param {T.MailingLine} made */
  readForm(made) {
    if (this.form !== null) {
      made.fault = FAULT.NestedForm;
      return;
    }
    const alias = Number(made.words[1]?.text);
    if (this.unit === null) made.fault = FAULT.NoUnit;
    else if (made.fault === 0 && this.aliases.has(alias)) made.fault = FAULT.BadAlias;
    if (made.fault === 0) this.aliases.add(alias);
    this.form = made.line;
    this.skipped = made.fault !== 0;
  }
}

// What the words after a keyword name, each with the index of its word: a part of PARTS, or `alias` after NEW.
/** @param {T.Word[]} words @param {string[]} parts @returns {Generator<[string, number]>} */
function* walk(words, parts) {
  let at = 1;
  for (let i = 0; i < parts.length; i += parts[i] === 'units' ? 0 : 1) {
    const isAlias = parts[i].startsWith('unit') && words[at] && capitals(words[at].text) === 'NEW';
    if (isAlias) at += 1;
    yield [isAlias ? 'alias' : parts[i], at];
    at += 1;
  }
}

/** @type {T.PartsFault} */
function partsFault(words, parts) {
  for (const [part, at] of walk(words, parts)) {
    if (!words[at] && ['kind', 'units'].includes(part)) return 0;
    const fault = words[at] ? partFault(words[at], part) : FAULT.MissingWord;
    if (fault !== 0) return fault;
  }
  return 0;
}

/** @type {T.PartFault} */
function partFault(word, part) {
  const { known } = cache;
  if (part === 'flag') return numberIn(word.text, 1, 0) === null ? FAULT.BadNumber : 0;
  if (part === 'alias') return numberIn(word.text, LAST_NUMBER) === null ? FAULT.BadAlias : 0;
  if (part === 'way') return WORDS.way.includes(capitals(word.text)) ? 0 : FAULT.BadDirection;
  if (part === 'what') return WORDS.what.includes(capitals(word.text)) ? 0 : FAULT.UnknownThing;
  if (part === 'name') return nameFault(nameIn(word)) === null ? 0 : FAULT.BadName;
  if (part === 'item' || part === 'skill' || part === 'kind') {
    return known?.[part].has(nameIn(word).toLowerCase()) === false ? FAULT.UnknownThing : 0;
  }
  return numberIn(word.text, MOST_NUMBER) === null ? FAULT.BadNumber : 0;
}

/** @type {T.AmountAsked} */
export function amountAsked({ verb, words }) {
  for (const [part, at] of walk(words, PARTS.get(verb) ?? [])) {
    if (part === 'amount' || !words[at]) return numberIn(words[at]?.text ?? '', MOST_NUMBER);
  }
  return null;
}

/** @type {T.PartAt} */
export function partAt(words, index) {
  if (index === 0) return 'keyword';
  for (const [part, at] of walk(words, PARTS.get(capitals(words[0].text)) ?? [])) {
    if (at >= index) return at === index ? part : 'unit';
  }
  return null;
}
