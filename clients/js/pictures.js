// What is drawn at a time: a picture of one slice, or of one window, of one step of one version. It is made once and then drawn as often as need be: `fills`
// has rings for each class, to be filled by the even-odd rule, and `lines` has the borders.
//
// A ring is not led round a face, since a window has only parts of the borders of its faces. Each border is closed by a curtain down to the foot of the picture
// instead: whether a point lies in a class is whether the number of curtains over it is odd.

import { boxOf, highestAt, holdsPlace, lowestAbove } from "./places.js";

/** The points of a line on one side of a vertical (axis 0) or horizontal (axis 1) limit, cut exactly at it: the rows of points that stay together. */
function cutAt(points, axis, limit, sign) {
  const inside = (p) => sign * (p[axis] - limit) <= 0;
  const parts = [];
  let part = [];
  points.forEach((q, i) => {
    const p = points[i - 1];
    if (p && inside(p) !== inside(q)) {
      const share = (limit - p[axis]) / (q[axis] - p[axis]);
      const other = p[1 - axis] + share * (q[1 - axis] - p[1 - axis]);
      part.push(axis === 0 ? [limit, other] : [other, limit]);
    }
    if (inside(q)) {
      part.push(q);
    } else if (part.length > 0) {
      parts.push(part);
      part = [];
    }
  });
  if (part.length > 0) parts.push(part);
  return parts;
}

/** The parts of a line that lie in a box. */
export function partsIn(points, box) {
  // Most lines are whole in it.
  if (points.every(([x, y]) => holdsPlace(box, x, y))) return [points];
  return cutAt(points, 1, box.y1, 1)
    .flatMap((part) => cutAt(part, 0, box.x0, -1))
    .flatMap((part) => cutAt(part, 0, box.x1, 1))
    .flatMap((part) => cutAt(part, 1, box.y0, -1))
    .filter((part) => part.some(([x, y]) => x !== part[0][0] || y !== part[0][1]));
}

/** The picture of a whole slice: anything with `step`, `faces` and `edges`. It bears the version and the history that `seen` has. */
export function pictureOfSlice(slice, seen) {
  const lines = [...slice.edges.values()];
  const box = boxOf(lines) ?? { x0: 0, y0: 0, x1: 0, y1: 0 };
  return new Picture({ seen, step: slice.step, area: null, faces: new Map(slice.faces), edges: lines, lines, box, corner: 0 });
}

/**
 * The picture of a window, which bears the version and the history that `seen` has. `ask` gives the face and class of a grid point: where no border runs through the
 * window, all of it lies in one face, and the window does not tell which. The window must be two units wide and high at least.
 */
export async function pictureOfWindow(window, seen, ask) {
  const { x0, y0, x1, y1 } = window.area;
  if (x1 - x0 < 2 || y1 - y0 < 2) throw new RangeError("what is drawn of a window is two units wide and high at least");
  return pictureAtOnce(window, seen) ?? pictureAtOnce(window, seen, await ask(x0 + 1, y1 - 1));
}

/** The same without asking: `found` is the face and class of the window's corner. Null where no border runs through the window and it is not given. */
export function pictureAtOnce(window, seen, found = null) {
  const drawn = drawnOf(window);
  const corner = drawn.corner ?? found?.face ?? null;
  if (corner === null) return null;
  const faces = new Map(window.faces);
  if (drawn.corner === null && corner !== 0) faces.set(corner, found.ofClass);
  return new Picture({ seen, step: window.step, area: { ...window.area }, faces, edges: [...window.edges.values()], ...drawn, corner });
}

// The parts of lines in the box of which they were asked for last, by their points: from one frame to the next most lines stay.
const known = new WeakMap();

function partsKnown(points, box) {
  const last = known.get(points);
  if (last && ["x0", "y0", "x1", "y1"].every((end) => last.box[end] === box[end])) return last.parts;
  const parts = partsIn(points, box);
  known.set(points, { box, parts });
  return parts;
}

/** Half a unit within a window no vertex lies on the frame, and no border runs along it. */
const frameOf = ({ x0, y0, x1, y1 }) => ({ x0: x0 + 0.5, y0: y0 + 0.5, x1: x1 - 0.5, y1: y1 - 0.5 });

/** What is drawn of a window: the parts of its edges in a box, and the face in the upper left corner of this; null where no border runs through it. */
function drawnOf(window) {
  const box = frameOf(window.area);
  const lines = [...window.edges.values()].flatMap((edge) => partsKnown(edge.points, box).map((points) => ({ points, left: edge.left, right: edge.right })));
  return { lines, box, corner: faceOfCorner(lines, box) };
}

/**
 * The face at a place within a window, more than half a unit away from its frame; null where the place is not there. `corner` is the face that all of the window lies
 * in, where no border runs through it; null where that is not known, and then the answer may be null too.
 */
export function faceWithin(window, x, y, corner) {
  const box = frameOf(window.area);
  if (!holdsPlace(box, x, y)) return null;
  const { lines, corner: found } = drawnOf(window);
  return faceIn(lines, passagesThroughTop(lines, box), found ?? corner, x, y);
}

/** The face at a place in a box, by the lines in it, their passages through its top, and the face in its upper left corner. */
function faceIn(lines, passages, corner, x, y) {
  const above = lowestAbove(lines, x, y);
  if (above) return above.below;
  return lastUpTo(passages, x)?.east ?? corner;
}

/** Where lines come through the top of a box: `x`, and the faces `west` and `east`. */
function passagesThroughTop(lines, box) {
  return lines.flatMap(({ points, left, right }) => {
    const [first, last] = [points[0], points[points.length - 1]];
    const down = first[1] === box.y1 ? [{ x: first[0], west: right, east: left }] : [];
    const up = last[1] === box.y1 ? [{ x: last[0], west: left, east: right }] : [];
    return [...down, ...up];
  });
}

/** The passage with the greatest x up to a limit, and where there are several, the last one. */
const lastUpTo = (passages, limit) => passages.reduce((best, it) => (it.x <= limit && it.x >= (best?.x ?? -Infinity) ? it : best), null);

/** The face in the upper left corner of a box, by the lines that run in it; null where none does. */
function faceOfCorner(lines, box) {
  const passages = passagesThroughTop(lines, box);
  if (passages.length > 0) return passages.reduce((best, it) => (it.x < best.x ? it : best)).west;
  // Nothing comes through the top: what lies over the highest line of any column lies along the top and in the corner.
  for (const { points } of lines) {
    const i = points.findIndex((point, at) => at > 0 && points[at - 1][0] !== point[0]);
    if (i > 0) return highestAt(lines, (points[i - 1][0] + points[i][0]) / 2).above;
  }
  return null;
}

class Picture {
  constructor({ seen, step, area, faces, edges, lines, box, corner }) {
    this.version = seen.version;
    this.history = seen.history;
    this.step = step;
    /** What the window shows; null for a slice, which shows everything. */
    this.area = area;
    this.faces = faces;
    this.edges = edges;
    this.lines = lines;
    this.box = box;
    this.corner = corner;
    this.passages = area === null ? [] : passagesThroughTop(lines, box);
    this.fills = this.#fills();
  }

  /** The face at a point of the picture, 0 outside. The point need not be one of the grid. */
  faceAt(x, y) {
    return faceIn(this.lines, this.passages, this.corner, x, y);
  }

  /** The rings of each class. */
  #fills() {
    const { x0, y0, x1, y1 } = this.box;
    const fills = new Map();
    const put = (ofClass, ring) => {
      if (ofClass === null) return;
      if (!fills.has(ofClass)) fills.set(ofClass, []);
      fills.get(ofClass).push(ring);
    };
    const classOf = (face) => this.faces.get(face) ?? null;
    const whole = [[x0, y1], [x1, y1], [x1, y0], [x0, y0]];
    put(classOf(this.corner), whole);
    for (const { points, left, right } of this.lines) {
      if (classOf(left) === classOf(right)) continue;
      const ring = this.#curtain(points);
      put(classOf(left), ring);
      put(classOf(right), ring);
    }
    return fills;
  }

  /** A line closed down to the foot. Where a window cuts it at the top, all that is east of the cut lies on its other side, as far as the line tells. */
  #curtain(points) {
    const { x1, y0, y1 } = this.box;
    const atTop = (point) => this.area !== null && point[1] === y1;
    const ring = [...points];
    if (atTop(points[0])) ring.unshift([x1, y1]);
    if (atTop(points[points.length - 1])) ring.push([x1, y1]);
    ring.push([ring[ring.length - 1][0], y0], [ring[0][0], y0]);
    return ring;
  }
}
