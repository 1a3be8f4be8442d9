// Finds a place on the map for each region by walking its exits. Regions whose place is taken, or that no way leads to,
// begin a part of their own.

/** @type {Record<T.Way, [number, number, T.Way]>} the step, and the way back */
const STEPS = { north: [0, -1, 'south'], south: [0, 1, 'north'], east: [1, 0, 'west'], west: [-1, 0, 'east'] };
const LEAST_WIDTH = 5;

/** @type {T.Gather} */
export function gather(reports) {
  /** @type {T.Regions} */
  const regions = new Map();
  for (const { month, regions: list } of reports) {
    for (const region of list) regions.set(region.number, { ...region, seen: month ?? 0 });
  }
  for (const region of [...regions.values()]) {
    for (const [way, number] of waysFrom(region)) {
      const there = regions.get(number) ?? { number, seen: null, exits: {} };
      regions.set(number, there);
      if (there.seen === null) there.exits[STEPS[way][2]] = region.number;
    }
  }
  return regions;
}

/** @type {T.WaysFrom} */
const waysFrom = (region) => /** @type {[T.Way, number][]} */ (Object.entries(region?.exits ?? {}));

/** @type {T.LayOut} */
export function layOut(regions) {
  const parts = [];
  const placed = new Map();
  const all = [...regions.values()]
    .sort((a, b) => Number(a.seen === null) - Number(b.seen === null) || a.number - b.number);
  for (const { number } of all) if (!placed.has(number)) parts.push(walk(number, regions, placed));
  return { ...pack(parts), ...sortWays(regions, placed) };
}

/** @type {T.Walk} */
function walk(start, regions, placed) {
  const part = new Map();
  const taken = new Set();
  /** @type {T.Put} */
  const put = (number, x, y) => {
    part.set(number, { x, y });
    placed.set(number, { part, x, y });
    taken.add(`${x},${y}`);
  };
  put(start, 0, 0);
  for (const [number, place] of part) {
    for (const [way, to] of waysFrom(regions.get(number))) {
      const [x, y] = [place.x + STEPS[way][0], place.y + STEPS[way][1]];
      if (!placed.has(to) && !taken.has(`${x},${y}`)) put(to, x, y);
    }
  }
  return part;
}

/** @type {T.Pack} */
function pack(parts) {
  const boxes = parts.map(boxOf);
  const area = boxes.reduce((sum, box) => sum + (box.width + 1) * (box.height + 1), 0);
  const most = Math.max(LEAST_WIDTH, Math.ceil(Math.sqrt(area)), ...boxes.map(({ width }) => width));
  const places = new Map();
  const at = { x: 0, y: 0, height: 0, width: 0 };
  for (const box of boxes) {
    if (at.x > 0 && at.x + box.width > most) Object.assign(at, { x: 0, y: at.y + at.height + 1, height: 0 });
    for (const [number, { x, y }] of box.part) places.set(number, { x: at.x + x - box.left, y: at.y + y - box.top });
    at.width = Math.max(at.width, at.x + box.width);
    at.height = Math.max(at.height, box.height);
    at.x += box.width + 1;
  }
  return { places, width: at.width, height: at.y + at.height };
}

/** @type {T.BoxOf} */
function boxOf(part) {
  const [across, down] = [[...part.values()].map(({ x }) => x), [...part.values()].map(({ y }) => y)];
  const [left, top] = [Math.min(...across), Math.min(...down)];
  return { part, left, top, width: Math.max(...across) - left + 1, height: Math.max(...down) - top + 1 };
}

/** @type {T.SortWays} */
function sortWays(regions, placed) {
  /** @type {{ways: T.MapWay[], crooked: T.MapWay[]}} */
  const sorted = { ways: [], crooked: [] };
  for (const region of regions.values()) {
    for (const [way, to] of waysFrom(region)) {
      const [dx, dy, back] = STEPS[way];
      const isTwice = regions.get(to)?.seen !== null && regions.get(to)?.exits[back] === region.number;
      // A way that is known from both of its ends is listed once.
      if (region.seen === null || (isTwice && way !== 'south' && way !== 'east')) continue;
      const [here, there] = [placed.get(region.number), placed.get(to)];
      const isStraight = here && here.part === there?.part && here.x + dx === there.x && here.y + dy === there.y;
      sorted[isStraight ? 'ways' : 'crooked'].push({ from: region.number, way, to });
    }
  }
  return sorted;
}
