// Where the things of the map are drawn: edges beside one another, and stations beside their nodes.

export const RADIUS = 9; // of a node
const BESIDE = 5; // how far an edge lies to the right of the straight line, so that two ways stand apart
const MARGIN = 12; // around all
const FEW = 40; // stations, up to which there is room to draw them much larger from afar
const HEIGHT = 34; // of a station
const SLOT = 9; // the width of a place of a station
export const MOST_SLOTS = 12; // a station of more places has a bar

/** The ends of each edge by its name, to the right of the straight line between its nodes. */
export function edgesOf(layout, at) {
  const found = new Map();
  const beside = new Map();
  for (const [name, start, finish] of layout.edges) {
    const [x, y] = at.get(start);
    const [u, v] = at.get(finish);
    const length = Math.hypot(u - x, v - y) || 1;
    const [right, down] = [(u - x) / length, (v - y) / length];
    const pair = `${start} ${finish}`;
    const row = beside.get(pair) ?? 0;
    beside.set(pair, row + 1);
    const off = BESIDE + row * BESIDE * 1.6;
    const near = Math.sqrt(Math.max(0, RADIUS * RADIUS - off * off)) + 2;
    found.set(name, {
      from: [x - down * off + right * near, y + right * off + down * near],
      to: [u - down * off - right * (near + 3), v + right * off - down * (near + 3)],
    });
  }
  return found;
}

export const areFew = (stations) => stations.length <= FEW;

/** How many times as large stations are drawn from afar, at most. */
export const growthOf = (stations) => (areFew(stations) ? 2.4 : 1.6);

/** A box that has grown away from a point, so many times as large. */
const grown = (box, [x, y], by) => box.map((side, turn) => {
  const from = turn % 2 ? y : x;
  return from + (side - from) * by;
});

/** The size of a station's box. */
function sizeOf([name, , capacity]) {
  const slots = Math.min(capacity, MOST_SLOTS) * SLOT;
  return [Math.max(name.length * 7.4 + 48, slots + 12), HEIGHT];
}

const meet = (one, other) =>
  one[0] < other[2] && other[0] < one[2] && one[1] < other[3] && other[1] < one[3];

function crosses(box, [x, y], [u, v]) {
  for (let step = 0; step <= 12; step += 1) {
    const [a, b] = [x + ((u - x) * step) / 12, y + ((v - y) * step) / 12];
    if (a >= box[0] && a <= box[2] && b >= box[1] && b <= box[3]) return true;
  }
  return false;
}

const DIRECTIONS = [[0, 1], [0, -1], [1, 0], [-1, 0], [1, 1], [-1, 1], [1, -1], [-1, -1]];

/** The boxes that a box at a node may take: left, top, right, bottom. */
function boxesAt([x, y], [width, height], shift) {
  return DIRECTIONS.map(([right, down]) => {
    const gap = RADIUS + (right && down ? -1 : 6);
    const left = right === 0 ? x - width / 2 : right > 0 ? x + gap : x - gap - width;
    const top = down === 0 ? y - height / 2 : down > 0 ? y + gap : y - gap - height;
    const more = (down < 0 ? -1 : 1) * shift;
    return [left, top + more, left + width, top + height + more];
  });
}

/** The box of each station by its name, which covers as little as can be of nodes, edges and other boxes. */
export function stationsOf(layout, at) {
  const found = new Map();
  const boxes = [];
  const large = [];
  const growth = growthOf(layout.stations);
  const count = new Map();
  for (const station of layout.stations) {
    const [name, node] = station;
    const row = count.get(node) ?? 0;
    count.set(node, row + 1);
    const place = at.get(node);
    const size = sizeOf(station);
    const near = (point) => Math.abs(point[0] - place[0]) < 300 && Math.abs(point[1] - place[1]) < 300;
    const nodes = [...at].filter(([other, point]) => other !== node && near(point));
    const edges = layout.edges.filter(([, start, finish]) => near(at.get(start)) || near(at.get(finish)));
    let best = null;
    boxesAt(place, size, row * (HEIGHT + 3)).forEach((box, turn) => {
      const wide = [box[0] - RADIUS, box[1] - RADIUS, box[2] + RADIUS, box[3] + RADIUS];
      let price = turn / 10;
      price += 3 * edges.filter(([, start, finish]) => crosses(box, at.get(start), at.get(finish))).length;
      price += 10 * nodes.filter(([, [x, y]]) => meet(wide, [x, y, x, y])).length;
      price += 12 * boxes.filter((other) => meet(box, other)).length;
      price += 2 * large.filter((other) => meet(grown(box, place, growth), other)).length;
      if (best === null || price < best.price) best = { price, box };
    });
    boxes.push(best.box);
    large.push(grown(best.box, place, growth));
    found.set(name, best.box);
  }
  return found;
}

/** How far below each node its name stands: above it, but below where a station is above. */
export function namesOf(at, layout, stations) {
  const found = new Map();
  for (const [, node] of layout.stations) found.set(node, found.get(node) ?? -RADIUS - 4);
  for (const [name, node] of layout.stations) {
    const [x, y] = at.get(node);
    const [left, top, right, bottom] = stations.get(name);
    if (meet([left, top, right, bottom], [x - 12, y - RADIUS - 16, x + 12, y - RADIUS])) found.set(node, RADIUS + 13);
  }
  return found;
}

/** The box around all that is drawn, with a margin. */
export function boundsOf(at, layout, stations) {
  let [left, top, right, bottom] = [Infinity, Infinity, -Infinity, -Infinity];
  for (const [x, y] of at.values()) {
    [left, top] = [Math.min(left, x - 24), Math.min(top, y - 30)];
    [right, bottom] = [Math.max(right, x + 24), Math.max(bottom, y + 24)];
  }
  if (layout.picture) {
    const [x, y, width, height] = layout.picture;
    [left, top, right, bottom] = [Math.min(left, x), Math.min(top, y), Math.max(right, x + width), Math.max(bottom, y + height)];
  }
  for (const [name, node] of layout.stations) {
    const box = grown(stations.get(name), at.get(node), growthOf(layout.stations));
    [left, top] = [Math.min(left, box[0]), Math.min(top, box[1])];
    [right, bottom] = [Math.max(right, box[2]), Math.max(bottom, box[3])];
  }
  return [left - MARGIN, top - MARGIN, right - left + 2 * MARGIN, bottom - top + 2 * MARGIN];
}

export { SLOT };
