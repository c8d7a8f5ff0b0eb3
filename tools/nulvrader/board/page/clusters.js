// Which labels of the map are seen: those of vehicles that would lie on one another are gathered, and others give way.

const HEIGHT = 24; // of a vehicle's label, in pixels, before it is drawn larger
const DOT = 2.5; // half of a dot without its rim, which a name may touch
const BADGE = 7; // below it, for how many others are in it

/**
 * Gathers labels. `rows` are vehicles with `key`, the middle of their label in pixels (`x`, `y`) and half its width
 * (`half`), those first that have to be seen; all are drawn `size` times as large. By key: the one with whose label a
 * vehicle is seen, itself where it has its own.
 */
export function gathered(rows, size) {
  const seen = [];
  const found = new Map();
  for (const row of rows) {
    const meets = (one) => Math.abs(one.x - row.x) < (one.half + row.half) * size && Math.abs(one.y - row.y) < (HEIGHT + BADGE) * size;
    const leader = seen.find(meets);
    if (!leader) seen.push(row);
    found.set(row.key, (leader ?? row).key);
  }
  return found;
}

/**
 * The boxes of what is seen of vehicles: labels, how many others are in them, and the dots of those. Left, top, right,
 * bottom, in pixels.
 */
export function boxesOf(rows, leaders, size) {
  const leading = new Set(rows.map(({ key }) => leaders.get(key)).filter((key, at) => key !== rows[at].key));
  return rows.flatMap(({ key, x, y, half }) => {
    const box = (left, top, right, bottom) => [x + left * size, y + top * size, x + right * size, y + bottom * size];
    if (leaders.get(key) !== key) return [box(-DOT, -DOT, DOT, DOT)];
    const label = box(-half, -HEIGHT / 2, half, HEIGHT / 2);
    return leading.has(key) ? [label, box(half - 20, 4, half + 6, 20)] : [label];
  });
}

/** Whether a box has a part in common with one of others. */
export const isUnder = (box, others) =>
  others.some((other) => box[0] < other[2] && other[0] < box[2] && box[1] < other[3] && other[1] < box[3]);
