// Edits of a map by a plain program, for tests: arcs in a list, each rule as it is written, one side after the other, in whole numbers of any length.

const same = (p, q) => p[0] === q[0] && p[1] === q[1];

/** A map of a listing: `arcs` with left, right and points; `classes` of the faces, from face 1 on; `count` of the classes. */
export function mapOf(listing) {
  const lines = listing.split("\n").map((line) => line.split(" "));
  const all = (name) => lines.filter(([first]) => first === name);
  const pairs = (words) => words.map(Number).flatMap((_, i, z) => (i % 2 === 0 ? [[z[i], z[i + 1]]] : []));
  return {
    arcs: all("arc").map(([, left, right, , ...rest]) => ({ left: Number(left), right: Number(right), points: pairs(rest) })),
    classes: all("face").map(([, , ofClass]) => Number(ofClass)),
    count: Number(all("classes")[0][1]),
  };
}

/** Twice the area at the left of o, p and q. */
const turn = (o, p, q) => (BigInt(p[0]) - BigInt(o[0])) * (BigInt(q[1]) - BigInt(o[1])) - (BigInt(p[1]) - BigInt(o[1])) * (BigInt(q[0]) - BigInt(o[0]));

const isLower = (o, p) => p[1] < o[1] || (p[1] === o[1] && p[0] < o[0]);

/** Whether the direction from o to p comes before that to q. */
const before = (o, p, q) => (isLower(o, p) === isLower(o, q) ? turn(o, p, q) > 0n : isLower(o, q));

const pointsOf = (arcs, [i, way]) => (way === 0 ? arcs[i].points : arcs[i].points.slice().reverse());
const faceOf = (arcs, [i, way]) => (way === 0 ? arcs[i].left : arcs[i].right);
const sidesOf = (arcs) => arcs.flatMap((_, i) => [[i, 0], [i, 1]]);

/** The sides that leave a point, in order: put one by one before the first one that they come before. */
function spokesAt(arcs, node) {
  const row = [];
  for (const side of sidesOf(arcs)) {
    const [first, toward] = pointsOf(arcs, side);
    if (!same(first, node)) continue;
    const at = row.findIndex((it) => before(node, toward, pointsOf(arcs, it)[1]));
    row.splice(at === -1 ? row.length : at, 0, side);
  }
  return row;
}

function nextOf(arcs, [i, way]) {
  const row = spokesAt(arcs, pointsOf(arcs, [i, way]).at(-1));
  const at = row.findIndex((it) => same(it, [i, 1 - way]));
  return row[(at + row.length - 1) % row.length];
}

/** The spoke with which the sector of a face begins in which a direction lies; null where it lies in none. */
function sectorOf(arcs, face, node, toward) {
  const row = spokesAt(arcs, node);
  const to = row.map((it) => pointsOf(arcs, it)[1]);
  if (row.length === 0 || to.some((it) => !before(node, it, toward) && !before(node, toward, it))) return null;
  const earlier = row.filter((_, k) => before(node, to[k], toward));
  const spoke = (earlier.length === 0 ? row : earlier).at(-1);
  return faceOf(arcs, spoke) === face ? spoke : null;
}

function walkOf(arcs, face, start, end) {
  const walk = [];
  let side = end;
  for (let steps = 0; steps < 2 * arcs.length; steps++) {
    if (faceOf(arcs, side) !== face) return null;
    walk.push(side);
    side = nextOf(arcs, side);
    if (same(side, start)) return walk;
  }
  return null;
}

function rowOf(arcs, side) {
  const row = [side];
  for (let it = nextOf(arcs, side); !same(it, side); it = nextOf(arcs, it)) row.push(it);
  return row;
}

const pieces = (points) => points.slice(1).map((q, i) => [points[i], q]);

/** The height of a segment on the line at x + 1/2, as a fraction with a positive number below; null where it does not come there. */
function heightAt([p, q], x) {
  const [a, b] = p[0] < q[0] ? [p, q] : [q, p];
  if (a[0] === b[0] || a[0] > x || b[0] <= x) return null;
  const wide = BigInt(b[0]) - BigInt(a[0]);
  return [2n * BigInt(a[1]) * wide + (2n * BigInt(x) + 1n - 2n * BigInt(a[0])) * (BigInt(b[1]) - BigInt(a[1])), wide];
}

function goesOver(arcs, side, walk, ring) {
  const row = rowOf(arcs, side);
  if (row.some((it) => walk.some((other) => same(it, other)))) return false;
  const leaning = arcs.flatMap(({ points }, i) => (row.some(([arc]) => arc === i) ? pieces(points) : [])).find(([p, q]) => p[0] !== q[0]);
  if (!leaning) return false;
  const x = Math.min(leaning[0][0], leaning[1][0]);
  const own = heightAt(leaning, x);
  const above = ring.map((it) => heightAt(it, x)).filter((it) => it !== null && it[0] * own[1] > own[0] * it[1]).length;
  const area = ring.reduce((sum, [p, q]) => sum + BigInt(p[0]) * BigInt(q[1]) - BigInt(q[0]) * BigInt(p[1]), 0n);
  return (above % 2 === 1) === area > 0n;
}

const isNode = (arcs, p) => arcs.some(({ points }) => same(points[0], p) || same(points.at(-1), p));
const has = (arcs, p) => arcs.some(({ points }) => points.some((it) => same(it, p)));
const change = (map, arcs, classes = map.classes) => ({ ...map, arcs, classes });
const withPoints = (map, at, points) => change(map, map.arcs.map((arc, i) => (i === at ? { ...arc, points } : arc)));

/** The first place of a point, by arc and position. */
function placeOf(arcs, p) {
  const at = arcs.findIndex(({ points }) => points.some((it) => same(it, p)));
  return [at, arcs[at].points.findIndex((it) => same(it, p))];
}

const EDITS = {
  class: (map, [face, ofClass]) => (face < 1 || face > map.classes.length || ofClass >= map.count ? 2 : change(map, map.arcs, map.classes.with(face - 1, ofClass))),
  move(map, [x, y, nx, ny]) {
    if (!has(map.arcs, [x, y])) return 3;
    if (has(map.arcs, [nx, ny])) return 4;
    return change(map, map.arcs.map((arc) => ({ ...arc, points: arc.points.map((it) => (same(it, [x, y]) ? [nx, ny] : it)) })));
  },
  add(map, [x0, y0, x1, y1, nx, ny]) {
    for (const [i, { points }] of map.arcs.entries()) {
      const at = pieces(points).findIndex(([p, q]) => [[p, q], [q, p]].some(([a, b]) => same(a, [x0, y0]) && same(b, [x1, y1])));
      if (at === -1) continue;
      return has(map.arcs, [nx, ny]) ? 4 : withPoints(map, i, points.toSpliced(at + 1, 0, [nx, ny]));
    }
    return 5;
  },
  drop(map, p) {
    if (!has(map.arcs, p)) return 3;
    if (isNode(map.arcs, p)) return 6;
    const [i, at] = placeOf(map.arcs, p);
    const { points } = map.arcs[i];
    return same(points[at - 1], points[at + 1]) ? 7 : withPoints(map, i, points.toSpliced(at, 1));
  },
  node(map, p) {
    if (!has(map.arcs, p)) return 3;
    if (isNode(map.arcs, p)) return 6;
    const [i, at] = placeOf(map.arcs, p);
    const { points } = map.arcs[i];
    const parted = withPoints(map, i, points.slice(0, at + 1));
    return change(parted, [...parted.arcs, { ...map.arcs[i], points: points.slice(at) }]);
  },
  cut(map, [face, ofClass, count, ...rest]) {
    const points = Array.from({ length: count }, (_, i) => rest.slice(2 * i, 2 * i + 2));
    const { arcs } = map;
    if (face < 1 || face > map.classes.length || ofClass >= map.count) return 2;
    if (points.some((p, i) => points.some((q, j) => i < j && same(p, q))) || points.slice(1, -1).some((p) => has(arcs, p))) return 10;
    const start = sectorOf(arcs, face, points[0], points[1]);
    const end = sectorOf(arcs, face, points.at(-1), points.at(-2));
    if (start === null || end === null) return 9;
    const walk = walkOf(arcs, face, start, end);
    if (walk === null) return 12;
    const ring = [...pieces(points), ...walk.flatMap((side) => pieces(pointsOf(arcs, side)))];
    const made = map.classes.length + 1;
    const after = (side) => {
      if (faceOf(arcs, side) !== face) return faceOf(arcs, side);
      return walk.some((it) => same(it, side)) || goesOver(arcs, side, walk, ring) ? made : face;
    };
    const kept = arcs.map((arc, i) => ({ ...arc, left: after([i, 0]), right: after([i, 1]) }));
    return change(map, [...kept, { left: made, right: face, points }], [...map.classes, ofClass]);
  },
  fuse(map, [kept, gone]) {
    const last = map.classes.length;
    if ([kept, gone].some((face) => face < 1 || face > last)) return 2;
    const between = ({ left, right }) => (left === kept && right === gone) || (left === gone && right === kept);
    if (!map.arcs.some(between)) return 13;
    if (!map.arcs.some((arc) => !between(arc) && [arc.left, arc.right].some((face) => face === kept || face === gone))) return 14;
    const toKept = (face) => (face === gone ? kept : face);
    const toGone = (face) => (face === last ? gone : face);
    const arcs = map.arcs.filter((arc) => !between(arc)).map((arc) => ({ ...arc, left: toGone(toKept(arc.left)), right: toGone(toKept(arc.right)) }));
    return change(map, arcs, map.classes.with(gone - 1, map.classes[last - 1]).slice(0, -1));
  },
};

/** The map that a line makes of a map, or the number of its cause. */
export function edited(map, line) {
  const [kind, ...rest] = line.split(" ");
  return EDITS[kind](map, rest.map(Number));
}
