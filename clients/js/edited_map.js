// A map that is edited: its faces and borders, with look-ups, so that an edit costs what it changes; and what each edit makes of it (docs/rules.md, "Edits").

import { EditFault } from "./errors.js";
import { Spokes, faceOf, isCounterClockwise, isRound, pointsOf, sameSide, segmentsOf } from "./sides.js";
import { samePoint } from "./wire.js";

const MOST_FACES = 32768;
const MOST_ARCS = 65536;
const MOST_POINTS = 524288;

/** Keys by name: most names have one alone. */
class Look {
  #keys = new Map();

  add(name, key) {
    const known = this.#keys.get(name);
    if (known === undefined) this.#keys.set(name, key);
    else if (known instanceof Set) known.add(key);
    else if (known !== key) this.#keys.set(name, new Set([known, key]));
  }

  delete(name, key) {
    const known = this.#keys.get(name);
    if (known instanceof Set) known.delete(key);
    if (known === key || known?.size === 0) this.#keys.delete(name);
  }

  has(name) {
    return this.#keys.has(name);
  }

  of(name) {
    const known = this.#keys.get(name);
    return known instanceof Set ? [...known] : known === undefined ? [] : [known];
  }
}

const byKey = (a, b) => a.key - b.key;
const replaced = (edge, points) => ({ ...edge, points });
const NOTHING = { gone: [], come: [], faces: [] };

export class EditedMap {
  #at = new Look();
  #beside = new Look();

  /** `classes` is the number of classes; `arcs` and `points` are those of the map itself, where it has more than its slice shows. */
  constructor({ faces, edges }, { classes = Infinity, arcs = edges.size, points } = {}) {
    this.faces = new Map(faces);
    this.edges = new Map();
    Object.assign(this, { classes, arcs: 0, points: 0 });
    for (const edge of edges.values()) this.#put(edge);
    this.arcs = arcs;
    this.points = points ?? this.points;
    this.nextKey = [...edges.keys()].reduce((next, key) => Math.max(next, key + 1), arcs);
  }

  #count(edge, isThere) {
    const sign = isThere ? 1 : -1;
    this.arcs += sign;
    this.points += sign * edge.points.length;
    const change = isThere ? "add" : "delete";
    for (const point of edge.points) this.#at[change](String(point), edge.key);
    for (const face of [edge.left, edge.right]) this.#beside[change](face, edge.key);
  }

  #put(edge) {
    this.edges.set(edge.key, edge);
    this.#count(edge, true);
  }

  #take(edge) {
    this.edges.delete(edge.key);
    this.#count(edge, false);
  }

  #of(keys) {
    return keys.map((key) => this.edges.get(key)).sort(byKey);
  }

  /** The edges that have a point, by key. */
  edgesAt(point) {
    return this.#of(this.#at.of(String(point)));
  }

  /** The edges beside a face, by key. */
  edgesBeside(face) {
    return this.#of(this.#beside.of(face));
  }

  hasPoint(point) {
    return this.#at.has(String(point));
  }

  isNode(point) {
    return this.edgesAt(point).some(({ points }) => samePoint(points[0], point) || samePoint(points.at(-1), point));
  }

  hasRoom(faces, arcs, points) {
    return this.faces.size + faces <= MOST_FACES && this.arcs + arcs <= MOST_ARCS && this.points + points <= MOST_POINTS;
  }

  get isFull() {
    return this.points >= MOST_POINTS;
  }

  /** Makes a change: edges that go, edges that come, and rows of faces with the class before and after, undefined where there is none. */
  change({ gone, come, faces }) {
    gone.forEach((edge) => this.#take(edge));
    come.forEach((edge) => this.#put(edge));
    for (const [face, , after] of faces) this.#setFace(face, after);
  }

  /** Takes it back. */
  changeBack({ gone, come, faces }) {
    come.forEach((edge) => this.#take(edge));
    gone.forEach((edge) => this.#put(edge));
    for (const [face, before] of [...faces].reverse()) this.#setFace(face, before);
  }

  #setFace(face, ofClass) {
    if (ofClass === undefined) this.faces.delete(face);
    else this.faces.set(face, ofClass);
  }
}

/** Throws where a test does not hold, with the number of its cause. */
function must(holds, cause) {
  if (!holds) throw new EditFault(cause);
}

function classed(map, { face, ofClass }) {
  must(map.faces.has(face) && ofClass < map.classes, 2);
  return { ...NOTHING, faces: [[face, map.faces.get(face), ofClass]] };
}

function moved(map, { from, to }) {
  must(map.hasPoint(from), 3);
  must(!map.hasPoint(to), 4);
  const gone = map.edgesAt(from);
  return { ...NOTHING, gone, come: gone.map((edge) => replaced(edge, edge.points.map((point) => (samePoint(point, from) ? to : point)))) };
}

function added(map, { ends: [p, q], point }) {
  const joins = (a, b) => (samePoint(a, p) && samePoint(b, q)) || (samePoint(a, q) && samePoint(b, p));
  const placeIn = ({ points }) => points.findIndex((it, i) => i > 0 && joins(points[i - 1], it));
  const edge = map.edgesAt(p).find((it) => placeIn(it) > 0);
  must(edge, 5);
  must(!map.hasPoint(point), 4);
  must(!map.isFull, 8);
  const points = [...edge.points];
  points.splice(placeIn(edge), 0, point);
  return { ...NOTHING, gone: [edge], come: [replaced(edge, points)] };
}

/** The first edge that has an inner vertex, and its place there. */
function innerPlace(map, point) {
  must(map.hasPoint(point), 3);
  must(!map.isNode(point), 6);
  const [edge] = map.edgesAt(point);
  return { edge, at: edge.points.findIndex((it) => samePoint(it, point)) };
}

function dropped(map, { point }) {
  const { edge, at } = innerPlace(map, point);
  must(!samePoint(edge.points[at - 1], edge.points[at + 1]), 7);
  return { ...NOTHING, gone: [edge], come: [replaced(edge, edge.points.filter((_, i) => i !== at))] };
}

function parted(map, { point }) {
  const { edge, at } = innerPlace(map, point);
  must(map.hasRoom(0, 1, 1), 11);
  const rest = { ...edge, key: map.nextKey++, points: edge.points.slice(at) };
  return { ...NOTHING, gone: [edge], come: [replaced(edge, edge.points.slice(0, at + 1)), rest] };
}

/** The sides from the end of a new edge along one face to its start; null where they do not lead there. */
function walkBetween(spokes, face, start, end) {
  const walk = [];
  for (let side = end; faceOf(side) === face; ) {
    walk.push(side);
    side = spokes.next(side);
    if (sameSide(side, start)) return walk;
    if (sameSide(side, end)) return null;
  }
  return null;
}

/** Of the segments of the edges of a ring, the one of the least edge and place that is not vertical. */
function leastLeaning(ring) {
  const edges = [...new Set(ring.map(({ edge }) => edge))].sort(byKey);
  for (const { points } of edges) {
    const found = segmentsOf(points).find(([p, q]) => p[0] !== q[0]);
    if (found) return found;
  }
  return null;
}

/** The sides that get the new face: those of the walk, and all of the face in each other ring that lies at the left of the new one. */
function sidesThatGo(map, spokes, face, points, walk) {
  const newRing = [...segmentsOf(points), ...walk.flatMap((side) => segmentsOf(pointsOf(side)))];
  const isLeft = isCounterClockwise(newRing);
  const nameOf = ({ edge, isAlong }) => `${edge.key} ${isAlong}`;
  const done = new Set(spokes.ring(walk[0]).map(nameOf));
  const go = [...walk];
  for (const side of map.edgesBeside(face).flatMap((edge) => [true, false].map((isAlong) => ({ edge, isAlong })))) {
    if (faceOf(side) !== face || done.has(nameOf(side))) continue;
    const ring = spokes.ring(side);
    ring.forEach((it) => done.add(nameOf(it)));
    const leaning = leastLeaning(ring);
    if (leaning && isRound(newRing, leaning) === isLeft) go.push(...ring.filter((it) => faceOf(it) === face));
  }
  return go;
}

function cut(map, { face, ofClass, points }) {
  must(map.faces.has(face) && ofClass < map.classes, 2);
  must(map.hasRoom(1, 1, points.length), 11);
  must(new Set(points.map(String)).size === points.length && !points.slice(1, -1).some((point) => map.hasPoint(point)), 10);
  const spokes = new Spokes(map);
  const [start, end] = [spokes.sector(points[0], points[1]), spokes.sector(points.at(-1), points.at(-2))];
  must(start && end && faceOf(start) === face && faceOf(end) === face, 9);
  const walk = walkBetween(spokes, face, start, end);
  must(walk, 12);
  const made = map.faces.size + 1;
  const come = new Map();
  for (const { edge, isAlong } of sidesThatGo(map, spokes, face, points, walk)) {
    come.set(edge.key, { ...(come.get(edge.key) ?? edge), [isAlong ? "left" : "right"]: made });
  }
  const gone = [...come.keys()].map((key) => map.edges.get(key));
  const added = { key: map.nextKey++, left: made, right: face, points };
  return { gone, come: [...come.values(), added], faces: [[made, undefined, ofClass]] };
}

function fused(map, { kept, gone: lost }) {
  must(map.faces.has(kept) && map.faces.has(lost), 2);
  const isBetween = ({ left, right }) => (left === kept && right === lost) || (left === lost && right === kept);
  must(map.edgesBeside(kept).some(isBetween), 13);
  must([kept, lost].some((face) => !map.edgesBeside(face).every(isBetween)), 14);
  const last = map.faces.size;
  const joined = (face) => (face === lost ? kept : face);
  const renamed = (face) => (joined(face) === last && lost !== last ? lost : joined(face));
  const gone = [...new Set([...map.edgesBeside(lost), ...map.edgesBeside(last)])];
  const come = gone.filter((edge) => !isBetween(edge)).map((edge) => ({ ...edge, left: renamed(edge.left), right: renamed(edge.right) }));
  const [ofLost, ofLast] = [map.faces.get(lost), map.faces.get(last)];
  return { gone, come, faces: [[lost, ofLost, ofLast], [last, ofLast, undefined]] };
}

const CHANGES = { class: classed, move: moved, add: added, drop: dropped, node: parted, cut, fuse: fused };

/** What an edit changes; an EditFault is thrown where it does not apply. */
export const changeOf = (map, edit) => CHANGES[edit.kind](map, edit);
