// The rings of the faces of a picture: each face as polygons with holes, as far as the picture shows it. A side is a border seen from one of its two faces, which lies
// at its left; where a window cuts faces off, pieces of its frame are sides too.

const nodeOf = ([x, y]) => `${x},${y}`;

/** Twice the area within a closed ring, more than 0 where it runs counter-clockwise; measured from one of the points, so that large coordinates lose no digits. */
export function twiceAreaOf(ring) {
  const [[ox, oy]] = ring;
  let twice = 0;
  for (let i = 1; i < ring.length; i++) twice += (ring[i - 1][0] - ox) * (ring[i][1] - oy) - (ring[i][0] - ox) * (ring[i - 1][1] - oy);
  return twice;
}

/** How far a place of a frame lies from its lower left corner, counter-clockwise along the frame; null where it is not on it. */
function alongFrame({ x0, y0, x1, y1 }, [x, y]) {
  const [w, h] = [x1 - x0, y1 - y0];
  if (y === y0) return x - x0;
  if (x === x1) return w + (y - y0);
  if (y === y1) return w + h + (x1 - x);
  return x === x0 ? 2 * w + h + (y1 - y) : null;
}

/** Where lines end at the frame, in the order of the frame: `ahead` is the face that the frame goes on in behind such a place. */
function endsAtFrame(lines, box) {
  const ends = [];
  for (const { points, left, right } of lines) {
    const [first, last] = [points[0], points[points.length - 1]];
    for (const [point, ahead] of [[first, right], [last, left]]) {
      const at = alongFrame(box, point);
      if (at !== null) ends.push({ at, point, ahead });
    }
  }
  return ends.sort((a, b) => a.at - b.at);
}

/** The pieces of the frame between the ends of lines, each with the face within. */
function sidesOfFrame({ lines, box, corner }) {
  const { x0, y0, x1, y1 } = box;
  const corners = [[x0, y0], [x1, y0], [x1, y1], [x0, y1]];
  const ends = endsAtFrame(lines, box);
  if (ends.length === 0) return [{ face: corner, points: [...corners, corners[0]] }];
  const round = 2 * (x1 - x0 + y1 - y0);
  const placed = corners.map((point) => ({ at: alongFrame(box, point), point }));
  const twice = [...placed, ...placed.map(({ at, point }) => ({ at: at + round, point }))];
  return ends.map((end, i) => {
    const next = ends[i + 1] ?? { ...ends[0], at: ends[0].at + round };
    const between = twice.filter(({ at }) => at > end.at && at < next.at).map(({ point }) => point);
    return { face: end.ahead, points: [end.point, ...between, next.point] };
  });
}

/** The sides of all faces but the outside. */
function sidesOf(picture) {
  const borders = picture.lines.filter(({ left, right }) => left !== right).flatMap(({ points, left, right }) => [
    { face: left, points },
    { face: right, points: [...points].reverse() },
  ]);
  const frame = picture.area === null ? [] : sidesOfFrame(picture);
  return [...borders, ...frame].filter(({ face, points }) => face !== 0 && (points.length > 2 || nodeOf(points[0]) !== nodeOf(points[1])));
}

/** How far one turns clockwise from the way back along a side to the beginning of another one: more than 0, and up to a whole turn. */
function turn(side, other) {
  const [a, b] = side.points.slice(-2);
  const [c, d] = other.points;
  const angle = Math.atan2(a[1] - b[1], a[0] - b[0]) - Math.atan2(d[1] - c[1], d[0] - c[0]);
  return angle > 0 ? angle : angle + 2 * Math.PI;
}

/** The side by which the walk round a face goes on: where there are several, the next one clockwise from the side that it came by. */
function takeNext(leaving, side) {
  const row = leaving.get(nodeOf(side.points[side.points.length - 1])) ?? [];
  if (row.length === 0) throw new Error(`the borders of face ${side.face} do not close`);
  const next = row.reduce((best, it) => (turn(side, it) < turn(side, best) ? it : best));
  row.splice(row.indexOf(next), 1);
  return next;
}

const joinedPoints = (sides) => [sides[0].points[0], ...sides.flatMap(({ points }) => points.slice(1))];

/** The closed rings of one face. A walk that comes to a node again is cut there, so that each ring meets a node once. */
function ringsOf(sides) {
  const leaving = new Map();
  for (const side of sides) {
    const node = nodeOf(side.points[0]);
    if (!leaving.has(node)) leaving.set(node, []);
    leaving.get(node).push(side);
  }
  const rings = [];
  for (const row of leaving.values()) while (row.length > 0) rings.push(...ringsOfWalk(row.pop(), leaving));
  return rings;
}

function ringsOfWalk(first, leaving) {
  const rings = [];
  const walk = [];
  const begins = new Map();
  let side = first;
  for (;;) {
    begins.set(nodeOf(side.points[0]), walk.length);
    walk.push(side);
    const at = begins.get(nodeOf(side.points[side.points.length - 1]));
    if (at !== undefined) {
      const ring = walk.splice(at);
      for (const { points } of ring) begins.delete(nodeOf(points[0]));
      rings.push(joinedPoints(ring));
      if (walk.length === 0) return rings;
    }
    side = takeNext(leaving, side);
  }
}

/** Whether a ring goes round a point that is not on it. */
function goesRound(ring, [x, y]) {
  let isIn = false;
  for (let i = 1; i < ring.length; i++) {
    const [a, b] = [ring[i - 1], ring[i]];
    if (a[1] > y !== b[1] > y && a[0] + ((y - a[1]) * (b[0] - a[0])) / (b[1] - a[1]) > x) isIn = !isIn;
  }
  return isIn;
}

/** The polygons of one face: each an outer ring, counter-clockwise, and behind it its holes, clockwise. A hole belongs to the least outer ring round it. */
function polygonsOf(sides) {
  const rings = ringsOf(sides).map((ring) => ({ ring, size: twiceAreaOf(ring) }));
  const outer = rings.filter(({ size }) => size > 0).sort((a, b) => a.size - b.size);
  const polygons = new Map(outer.map((it) => [it, [it.ring]]));
  for (const { ring } of rings.filter(({ size }) => size < 0)) {
    // The middle of a segment is on no other ring.
    const middle = [0, 1].map((axis) => (ring[0][axis] + ring[1][axis]) / 2);
    const round = outer.find((it) => goesRound(it.ring, middle));
    if (round === undefined) throw new Error(`a hole of face ${sides[0].face} lies in none of its parts`);
    polygons.get(round).push(ring);
  }
  return [...polygons.values()];
}

/** The polygons of each face of a picture, by its number, in grid units. */
export function polygonsOfFaces(picture) {
  const byFace = new Map();
  for (const side of sidesOf(picture)) {
    if (!byFace.has(side.face)) byFace.set(side.face, []);
    byFace.get(side.face).push(side);
  }
  return new Map([...byFace].sort(([a], [b]) => a - b).map(([face, sides]) => [face, polygonsOf(sides)]));
}
