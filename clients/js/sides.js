// Walks round faces. A side is an edge with a way: its face is the edge's left one along it, and its right one against it. All tests are exact, whatever the
// coordinates are.

import { samePoint } from "./wire.js";

// Of coordinates within their limits, what is farther from 0 than this has its sign in floating point too.
const SURE = 2 ** 14;
// What is farther apart than this on a line is so too.
const APART = 2 ** -6;

export const faceOf = ({ edge, isAlong }) => (isAlong ? edge.left : edge.right);
export const turned = ({ edge, isAlong }) => ({ edge, isAlong: !isAlong });
export const sameSide = (one, other) => one.edge.key === other.edge.key && one.isAlong === other.isAlong;

/** The points of a side, in its way. */
export const pointsOf = ({ edge, isAlong }) => (isAlong ? edge.points : [...edge.points].reverse());

const startOf = ({ edge, isAlong }) => (isAlong ? edge.points[0] : edge.points.at(-1));
const endOf = (side) => startOf(turned(side));
/** The point next to the start of a side: it leaves its start in that direction. */
const towardOf = ({ edge, isAlong }) => (isAlong ? edge.points[1] : edge.points.at(-2));

/** The sign of the cross product of two differences. */
function signOf(ax, ay, bx, by) {
  const about = ax * by - ay * bx;
  if (Math.abs(about) > SURE) return Math.sign(about);
  const exact = BigInt(ax) * BigInt(by) - BigInt(ay) * BigInt(bx);
  return exact > 0n ? 1 : exact < 0n ? -1 : 0;
}

/** Less than 0 where the direction from a point to `p` comes before that to `q`, counter-clockwise from that of positive x; 0 where they are one. */
function compareDirections([x, y], p, q) {
  const [ax, ay, bx, by] = [p[0] - x, p[1] - y, q[0] - x, q[1] - y];
  const half = (dx, dy) => (dy > 0 || (dy === 0 && dx > 0) ? 0 : 1);
  return half(ax, ay) - half(bx, by) || -signOf(ax, ay, bx, by);
}

/** The sides that leave the nodes of a map, each node's in their order. A node's are put in order once, so the map must not change meanwhile. */
export class Spokes {
  #known = new Map();

  constructor(map) {
    this.map = map;
  }

  /** The sides that leave a node, counter-clockwise from the direction of positive x; those of one direction by edge, and its start before its end. */
  at(node) {
    const key = String(node);
    if (!this.#known.has(key)) this.#known.set(key, this.#sorted(node));
    return this.#known.get(key);
  }

  #sorted(node) {
    // They are by edge, and its start before its end; sorting leaves those of one direction so.
    const both = this.map.edgesAt(node).flatMap((edge) => [true, false].map((isAlong) => ({ edge, isAlong })));
    const leaving = both.filter((side) => samePoint(startOf(side), node));
    return leaving.sort((s, t) => compareDirections(node, towardOf(s), towardOf(t)));
  }

  /** The side by which the walk round a face goes on: that in front of the one by which it has come. */
  next(side) {
    const back = turned(side);
    const row = this.at(endOf(side));
    return row.at(row.findIndex((it) => sameSide(it, back)) - 1);
  }

  /** The row of next sides up to the first return. */
  ring(side) {
    const row = [side];
    for (let next = this.next(side); !sameSide(next, side); next = this.next(next)) row.push(next);
    return row;
  }

  /** The side with which the sector begins in which a direction lies: the last one before it. Null where a side has the direction, and at no node. */
  sector(node, toward) {
    const row = this.at(node);
    const order = row.map((side) => compareDirections(node, towardOf(side), toward));
    if (order.includes(0)) return null;
    return row[order.findLastIndex((it) => it < 0)] ?? row.at(-1) ?? null;
  }
}

/** The segments of a row of points. */
export const segmentsOf = (points) => points.slice(1).map((point, i) => [points[i], point]);

/** Whether a ring of segments goes round counter-clockwise. */
export function isCounterClockwise(segments) {
  const twice = segments.reduce((sum, [[ax, ay], [bx, by]]) => sum + BigInt(ax) * BigInt(by) - BigInt(ay) * BigInt(bx), 0n);
  return twice > 0n;
}

const eastward = ([a, b]) => (a[0] < b[0] ? [a, b] : [b, a]);

/** Whether a segment lies above another one on the line at one half above an abscissa, which both of them cross. */
function isAbove(one, other, abscissa) {
  const [[a, b], [c, d]] = [eastward(one), eastward(other)];
  const height = ([p, q]) => p[1] + ((abscissa + 0.5 - p[0]) * (q[1] - p[1])) / (q[0] - p[0]);
  const about = height([a, b]) - height([c, d]);
  if (Math.abs(about) > APART) return about > 0;
  // Both heights as fractions with twice the widths below.
  const fraction = ([p, q]) => {
    const wide = BigInt(q[0] - p[0]);
    return [2n * BigInt(p[1]) * wide + BigInt(2 * (abscissa - p[0]) + 1) * BigInt(q[1] - p[1]), wide];
  };
  const [[top, below], [otherTop, otherBelow]] = [fraction([a, b]), fraction([c, d])];
  return top * otherBelow > otherTop * below;
}

/** Whether a ring of segments goes round a segment that is not vertical: an odd number of them lies above it, on the line at one half above its least abscissa. */
export function isRound(ring, segment) {
  const abscissa = eastward(segment)[0][0];
  const crosses = ([p, q]) => p[0] <= abscissa !== q[0] <= abscissa;
  return ring.filter((it) => crosses(it) && isAbove(it, segment, abscissa)).length % 2 === 1;
}
