// Draws the regions of all kept reports.

import { byId, el, on, refill, svg } from './dom.js';
import { gather, layOut } from './map_layout.js';
import { regionOrders } from './order_clicks.js';
import { exitWords, showRegion } from './report_view.js';
import { currentFaction } from './sign_in.js';
import { monthsOf, reportOf } from './store.js';
import { counted, NONE_KEPT } from './words.js';
import { readReport } from './world.js';

const CELL = { width: 104, height: 64, gap: 18 };
const LETTERS = 14;
/** @type {Record<string, T.Way>} */
const KEYS = { ArrowUp: 'north', ArrowDown: 'south', ArrowRight: 'east', ArrowLeft: 'west' };
/** @type {[number, RegExp][]} */
const HUES = [
  [205, /ocean|sea|water|lake|river/i], [115, /forest|wood|jungle/i], [25, /mountain|hill/i],
  [60, /plain|field|grass|meadow/i], [85, /swamp|marsh/i], [42, /desert|sand/i], [260, /^/],
];

/** @type {T.Regions} */
let regions = new Map();
/** @type {number | undefined} */
let latest;
/** @type {number | null} */
let chosen = null;
let naturalWidth = 0;
let isOld = true;

function draw() {
  const months = monthsOf(currentFaction());
  regions = gather(months.map((month) => readReport(reportOf(currentFaction(), month) ?? '')));
  latest = months.pop();
  const { places, ways, crooked, width, height } = layOut(regions);
  const step = { x: CELL.width + CELL.gap, y: CELL.height + CELL.gap };
  /** @param {number} number */
  const corner = (number) => {
    const { x, y } = places.get(number) ?? { x: 0, y: 0 };
    return { x: CELL.gap / 2 + x * step.x, y: CELL.gap / 2 + y * step.y };
  };
  naturalWidth = Math.max(1, width) * step.x;
  byId('map').setAttribute('viewBox', `0 0 ${naturalWidth} ${Math.max(1, height) * step.y}`);
  refill('map', ways.map(({ from, to }) => drawWay(corner(from), corner(to))),
    [...regions.values()].map((region) => drawRegion(region, corner(region.number))));
  const seen = seenRegions().length;
  byId('map-note').textContent = seen === 0 ? NONE_KEPT : `North is up. ${counted(seen, 'region')} seen so far.`
    + ` ★ counts your units, ○ those of others, in month ${latest}. Choose a region to read about it.${
      crooked.length === 0 ? '' : ` ${counted(crooked.length, 'way')} can only be read there.`}`;
  choose(chosen !== null && regions.has(chosen) ? chosen : null);
  fit();
}

/** @type {T.DrawWay} */
function drawWay(from, to) {
  const [dx, dy] = [CELL.width / 2, CELL.height / 2];
  return svg('line', { class: 'way', x1: from.x + dx, y1: from.y + dy, x2: to.x + dx, y2: to.y + dy });
}

/** @type {T.DrawRegion} */
function drawRegion(region, { x, y }) {
  const { number, seen } = region;
  const { width, height } = CELL;
  const label = regionLabel(region);
  const group = svg('g', {
    class: `region ${seen === null ? 'unseen' : seen === latest ? '' : 'past'}`,
    'data-region': number, role: 'button', 'aria-label': label,
  }, svg('title', {}, label), svg('rect', { x, y, width, height, rx: 8 }),
  svg('svg', { x, y, width: width - 2, height }, regionLines(region)
    .map(([kind, words], i) => svg('text', { class: kind, x: 8, y: 19 * (i + 1) }, words))));
  const terrain = seen === null ? '' : region.terrain;
  group.style.setProperty('--hue', `${HUES.find(([, form]) => form.test(terrain))?.[0]}`);
  on(group, 'click', () => chooseNow(number));
  on(group, 'keydown', (event) => byKey(event, region));
  return group;
}

/** @param {string} words */
const shorten = (words, most = LETTERS) => (words.length > most ? `${words.slice(0, most - 1)}…` : words);

/** @type {T.RegionLines} */
function regionLines(region) {
  const { number, seen } = region;
  if (seen === null) return [['name', `${number}`], ['quiet', 'not seen yet']];
  const { own, others } = unitCounts(region);
  const name = shorten(region.name, LETTERS - `${number}`.length - 1);
  return [['name', `${number} ${name}`], ['quiet', shorten(region.terrain)], seen === latest
    ? ['units', `★ ${own}${others === 0 ? '' : `  ○ ${others}`}`] : ['quiet', `seen month ${seen}`]];
}

/** @param {T.Region} region */
function unitCounts({ units }) {
  const own = units.filter((unit) => unit.own).length;
  return { own, others: units.length - own };
}

/** @param {T.MapRegion} region */
function regionLabel(region) {
  const { number, seen } = region;
  if (seen === null) return `Region ${number}, not seen yet`;
  const { own, others } = unitCounts(region);
  return `Region ${number} ${region.name}, ${region.terrain}, ${seen === latest
    ? `${counted(own, 'unit')} of yours, ${others} of others` : `last seen in month ${seen}`}`;
}

const seenRegions = () => [...regions.values()].flatMap((region) => (region.seen === null ? [] : [region]));
const regionNames = () => new Map(seenRegions().map(({ number, name }) => [number, name]));

/** @type {T.ChooseNow} */
function chooseNow(number) {
  choose(number);
  const region = regions.get(number);
  byId('map-said').textContent = region ? `${regionLabel(region)}. ${exitWords(region.exits, regionNames())}` : '';
}

/** @type {T.Choose} */
function choose(number) {
  chosen = number;
  const first = number ?? [...regions.values()].find(({ seen }) => seen === latest)?.number ?? [...regions.keys()][0];
  for (const group of regionGroups()) {
    const here = Number(group.dataset.region);
    group.classList.toggle('chosen', here === number);
    group.setAttribute('aria-pressed', `${here === number}`);
    group.setAttribute('tabindex', here === first ? '0' : '-1');
  }
  const region = regions.get(number ?? 0);
  refill('map-region', region ? details(region) : null);
}

const regionGroups = () => /** @type {NodeListOf<SVGElement>} */ (byId('map').querySelectorAll('[data-region]'));

/** @type {T.Details} */
const details = (region) => [
  el('div', { class: 'row' }, regionOrders(region.number)),
  ...(region.seen === null ? [`Region ${region.number} was not seen yet. ${exitWords(region.exits, regionNames())}`]
    : [`As it was seen in month ${region.seen}:`, showRegion(region, regionNames())]),
];

/** @type {T.ByKey} */
function byKey(event, region) {
  const to = KEYS[event.key] && region.exits[KEYS[event.key]];
  if (event.key !== 'Enter' && event.key !== ' ' && !to) return;
  event.preventDefault();
  chooseNow(to || region.number);
  for (const group of regionGroups()) if (Number(group.dataset.region) === chosen) group.focus();
}

const fit = () => Object.assign(byId('map').style, { width: '', maxWidth: `min(100%, ${naturalWidth}px)` });

/** @param {number} factor */
function resize(factor) {
  const width = byId('map').getBoundingClientRect().width * factor;
  if (width < naturalWidth / 10 || width > naturalWidth * 3) return;
  Object.assign(byId('map').style, { width: `${width}px`, maxWidth: 'none' });
}

function drawIfSeen() {
  if (!isOld || byId('panel-map').hidden) return;
  isOld = false;
  draw();
}

export function startMap() {
  on('map-smaller', 'click', () => resize(1 / 1.3));
  on('map-larger', 'click', () => resize(1.3));
  on('map-fit', 'click', fit);
  on(document, 'faction kept imported world', () => {
    isOld = true;
    drawIfSeen();
  });
  on(document, 'tab', drawIfSeen);
}
