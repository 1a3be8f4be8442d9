// Compares what web/judge.js says of mailings with what the program answers to them:
//   node tests/web/judge_beside_gm.js [HOW MANY]
// It takes the mailings of docs/ and of the tests, changes them, and makes others of single words: so many in each of two
// worlds, in which every fault has to come. The program is $GM, or else ./gm. It ends with 'judge: N mailings, no
// difference'.

import { execFileSync, spawn } from 'node:child_process';
import { mkdtempSync, readdirSync, readFileSync, rmSync, writeFileSync } from 'node:fs';
import http from 'node:http';
import { tmpdir } from 'node:os';
import { dirname, join } from 'node:path';
import { fileURLToPath } from 'node:url';

import { MOST_BYTES, readMailing } from '../../web/judge.js';
import { worldOf } from '../../web/world.js';

const HERE = join(dirname(fileURLToPath(import.meta.url)), '../..');
const GM = process.env.GM ?? join(HERE, 'gm');
const COUNT = Number(process.argv[2] ?? 2000);
const FACTION = 1;
const FAULTS = 11;
// The names of the second world are as odd as the rule of names allows.
const ODD = {
  item: ['wood', 'wood, best', 'cart 1 (30)', 'long bow', 'a_b', 'x;y', 'NEW', '7', '#END', "o'clock"],
  skill: ['wood', 'Long Bow', '_', 'a;b', '#ATLANTIS', 'sailing'], kind: ['boat', 'big  boat', 'END', '1', ';'],
};

function dice(seed) {
  let state = seed;
  return (most) => {
    state = (Math.imul(state, 1664525) + 1013904223) >>> 0;
    return Math.floor((state / 2 ** 32) * most);
  };
}
const roll = dice(11);
const pick = (list) => list[roll(list.length)];

// ---- the worlds

function oddWorld() {
  const text = readFileSync(join(HERE, 'worlds/small.toml'), 'utf8');
  const rules = text.slice(text.indexOf('[rules]'), text.indexOf('[[terrain]]')).replace(/^(observation|stealth|sailing) .*\n/gm, '');
  const quoted = (name) => JSON.stringify(name);
  return [rules, '[[terrain]]\nname = "plain"\nland = true\nwage = 1\nplaces = 1\nmoney_limit = 1\npeasant_limit = 1\n',
    ...ODD.item.map((name) => `[[item]]\nname = ${quoted(name)}\nweight = 1\ncarry = 1\n`),
    ...ODD.skill.map((name) => `[[skill]]\nname = ${quoted(name)}\nfee = 1\n`),
    ...ODD.kind.map((name) => `[[kind]]\nname = ${quoted(name)}\nship = false\nmaterial = "wood"\nsize = 1\nskill = "wood"\nlevel = 1\n`),
    '[[region]]\nnumber = 1\nname = "One"\nterrain = "plain"\npeasants = 1\nmoney = 1\n'].join('\n');
}

// ---- the mailings

const KEYWORDS = ['UNIT', 'END', 'FORM', 'NAME', 'GUARD', 'ENTER', 'BOARD', 'LEAVE', 'PROMOTE', 'GIVE', 'PAY', 'TRANSFER', 'SELL',
  'BUY', 'TAX', 'RECRUIT', 'QUIT', 'STUDY', 'TEACH', 'PRODUCE', 'BUILD', 'WORK', 'MOVE', 'SAIL'];
const OTHERS = ['NEW', 'new', '1', '2', '0', '00', '01', '9999', '10000', '999999999', '1000000000', '99999999999999999999', '-1', '+1',
  '1.0', '1e3', 'north', 'SOUTH', 'east', 'West', 'up', 'unit', 'FACTION', 'Building', 'SHIP', 'x', '_', '_x', 'x_', 'Sea_Lion',
  '""', '" "', '"x', '"Sea Lion"', '" x"', '"x "', '";"', '"a\tb"', 'x'.repeat(40), 'x'.repeat(41), `"${'y'.repeat(40)}"`,
  ';', '; c', ';"', '#END', '#ATLANTIS', '#ATLANTIS 1', '"#END"', '"WORK"', 'ATTACK', 'caf\u00e9', '\u00a0', '\u017fail', '\u0131',
  '\u0001', '\u007f', '\r', '\u2028', '\ufeff', '~', '!', '\'', '\\', 'constructor', '__proto__', 'toString'];

const BEGINNINGS = ['NAME UNIT', 'NAME SHIP', 'NAME faction', 'GIVE 1 5', 'GIVE NEW 1 5', 'SELL 5', 'BUY 5', 'PAY 1', 'TEACH 1 NEW 2', 'UNIT 1', 'FORM 1', 'FORM 2'];

function randomLine(words) {
  const count = roll(6);
  const line = [pick(['', '', '', ' ', '\t']), roll(6) === 0 ? pick(words) : pick(roll(3) === 0 ? BEGINNINGS : KEYWORDS)];
  for (let i = 0; i < count; i += 1) line.push(pick([' ', ' ', ' ', '\t', '  ', '']), pick(words));
  const text = line.join('');
  return roll(5) === 0 ? text.toLowerCase() : text;
}

function randomMailing(words) {
  const lines = Array.from({ length: roll(25) }, () => randomLine(words));
  if (roll(6) > 0) lines.unshift(pick(['#ATLANTIS 1', '#atlantis 1 x', '"#ATLANTIS" 1', '\t#Atlantis 01;', '#ATLANTIS "1"']));
  if (roll(3) === 0) lines.push('#END', 'WORK');
  return lines.join(pick(['\n', '\n', '\r\n', '\n\r', '\r'])) + pick(['', '\n', '\r']);
}

// All mailings that the pages and the tests' data have.
function foundMailings() {
  const files = [...['QUICKSTART', 'TUTORIAL', 'PLAYER', 'RULES', 'MODERATOR'].map((name) => `docs/${name}.md`),
    ...readdirSync(join(HERE, 'crates/atl_phase_tests/data')).map((name) => `crates/atl_phase_tests/data/${name}`)];
  const texts = files.map((file) => readFileSync(join(HERE, file), 'utf8'));
  return texts.flatMap((text) => text.match(/^[> ]*#ATLANTIS \d(?:(?!\n```|\n=|\n\n\n|#END)[\s\S]){1,3000}/gm) ?? [])
    .map((text) => text.replace(/^(> | {4})/gm, '').replace(/^(#ATLANTIS) \d+/, '$1 1'));
}

function changed(text, words) {
  let fresh = text;
  for (let i = 1 + roll(4); i > 0; i -= 1) {
    const at = roll(fresh.length + 1);
    const less = pick([0, 0, 1, 1, 5]);
    fresh = fresh.slice(0, at) + pick(['', '', ' ', '\n', '"', ';', pick(words), `\n${pick(KEYWORDS)} `]) + fresh.slice(at + less);
  }
  if (roll(5) > 0) return fresh;
  const lines = fresh.split('\n');
  lines.splice(roll(lines.length), 0, ...lines.splice(roll(lines.length), 1 + roll(3)));
  return lines.join('\n');
}

function* mailings(words) {
  const found = foundMailings();
  for (const text of found) if (roll(4) === 0) yield text;
  yield* ['', '#ATLANTIS', '#ATLANTIS 1', '#ATLANTIS 0', '#ATLANTIS 2', '#ATLANTIS 10000', '\ufeff#ATLANTIS 1\nx', '#atlant\u0131s 1', '#ATLANTI\u017f 1',
    '#ATLANTIS;1', '#ATLANTIS"1"', `#ATLANTIS 1\n${'WORK\n'.repeat(13000)}`, `#ATLANTIS 1\n${';'.repeat(MOST_BYTES - 12)}`];
  for (;;) yield roll(2) === 0 ? randomMailing(words) : changed(pick(found), words);
}

// ---- the program

function ask(port, path, body) {
  return new Promise((resolve, reject) => {
    const request = http.request({ host: '127.0.0.1', port, path, method: 'POST', headers: { 'Atlantis-Pass': 'pw', 'Content-Length': body.length } }, (reply) => {
      const parts = [];
      reply.on('data', (part) => parts.push(part));
      reply.on('end', () => resolve(JSON.parse(Buffer.concat(parts).toString())));
    });
    request.on('error', reject);
    request.end(body);
  });
}

async function serve(db) {
  const port = 20000 + Math.floor(Math.random() * 30000);
  const server = spawn(GM, ['serve', '--db', db, '--port', String(port), '--count', '10000000', '--seed', '7'], { stdio: 'ignore' });
  for (let i = 0; i < 200; i += 1) {
    await new Promise((resolve) => { setTimeout(resolve, 50); });
    const up = await ask(port, '/none', Buffer.alloc(0)).then(() => true, () => false);
    if (up) return { port, server };
  }
  server.kill();
  throw new Error('serve does not answer');
}

// ---- the comparison

// Why the program refuses a mailing, by what the page reads of its header.
function refusalOf(text, reading) {
  if (Buffer.byteLength(text) > MOST_BYTES) return 'TooLong';
  if (!reading.hasHeader) return 'NoHeader';
  if (reading.faction === null) return 'BadHeader';
  return reading.faction === FACTION ? null : 'WrongFaction';
}

function judged(text, names) {
  const reading = readMailing(text, names);
  const error = refusalOf(text, reading);
  return error === null ? { faults: reading.faults, orders: reading.orders } : { error };
}

async function compare(folder, name, world) {
  const [toml, db] = [join(folder, `${name}.toml`), join(folder, `${name}.db`)];
  writeFileSync(toml, world);
  execFileSync(GM, ['found', '--world', toml, '--db', db, '--pass', 'gm'], { stdio: 'ignore' });
  execFileSync(GM, ['join', '--db', db, '--name', 'Avalon', '--pass', 'pw', '--seed', '7'], { stdio: 'ignore' });
  const { known: names } = worldOf(JSON.parse(execFileSync('python3', ['-B', join(HERE, 'tests/web/page_world.py'), toml]).toString()));
  const words = [...KEYWORDS, ...OTHERS, ...OTHERS, ...[...names.item, ...names.skill, ...names.kind].flatMap((text) => [text, text.replace(/ /g, '_'), `"${text}"`, text.toUpperCase()])];
  const { port, server } = await serve(db);
  const seen = new Set();
  let differences = 0;
  let count = 0;
  try {
    for (const text of mailings(words)) {
      if (count === COUNT) break;
      count += 1;
      const { error, faults, orders } = await ask(port, `/orders/${FACTION}`, Buffer.from(text));
      const wanted = error === undefined ? { faults, orders } : { error: error === 'BodyTooLong' ? 'TooLong' : error };
      for (const [, fault] of faults ?? []) seen.add(fault);
      const found = judged(text, names);
      if (JSON.stringify(found) === JSON.stringify(wanted)) continue;
      differences += 1;
      console.log(`${name}, mailing ${count}: ${JSON.stringify(text)}\n  the program: ${JSON.stringify(wanted)}\n  the page: ${JSON.stringify(found)}`);
      if (differences > 20) break;
    }
  } finally {
    server.kill();
  }
  if (seen.size === FAULTS) return [count, differences];
  console.log(`${name}: only these faults came: ${[...seen].sort((a, b) => a - b).join(' ')}`);
  return [count, differences + 1];
}

const folder = mkdtempSync(join(tmpdir(), 'judge-'));
try {
  const first = await compare(folder, 'coast', readFileSync(join(HERE, 'worlds/coast.toml'), 'utf8'));
  const second = await compare(folder, 'odd', oddWorld());
  const differences = first[1] + second[1];
  console.log(`judge: ${first[0] + second[0]} mailings, ${differences || 'no'} difference${differences > 1 ? 's' : ''}`);
  process.exitCode = differences > 0 ? 1 : 0;
} finally {
  rmSync(folder, { recursive: true });
}
