// Which face a point lies in, by the borders above it. Points and borders are in grid units, with y upwards.

import { Refused } from "./errors.js";

/** The greatest coordinate of a map. */
export const FARTHEST = 2 ** 31;

// A face of any map is whole in a window that has been doubled so often.
const DOUBLINGS = 33;

/** The coordinate of a map that is next to a number. */
export const within = (z) => Math.max(-FARTHEST, Math.min(FARTHEST, z));

/**
 * The places where lines cross the vertical line just right of x: `y`, `slope`, and the faces `above` and `below`. A line is anything with `points`,
 * `left` and `right`. A segment counts from its left end on and not at its right end, so a vertex counts once and a vertical segment never.
 */
export function* crossingsAt(lines, x) {
  for (const { points, left, right } of lines) {
    for (let i = 1; i < points.length; i++) {
      const forward = points[i - 1][0] < points[i][0];
      const [a, b] = forward ? [points[i - 1], points[i]] : [points[i], points[i - 1]];
      if (a[0] > x || x >= b[0]) continue;
      const slope = (b[1] - a[1]) / (b[0] - a[0]);
      const y = a[0] === x ? a[1] : a[1] + ((x - a[0]) * (b[1] - a[1])) / (b[0] - a[0]);
      yield forward ? { y, slope, above: left, below: right } : { y, slope, above: right, below: left };
    }
  }
}

/** Whether one crossing lies below another one of the same vertical line: lines that begin at one vertex are told apart by their slopes. */
function isLower(one, other) {
  return one.y < other.y || (one.y === other.y && one.slope < other.slope);
}

/** The lowest crossing at (x, y) or above it; null where there is none. */
export function lowestAbove(lines, x, y) {
  let lowest = null;
  for (const crossing of crossingsAt(lines, x)) {
    if (crossing.y >= y && (lowest === null || isLower(crossing, lowest))) lowest = crossing;
  }
  return lowest;
}

/** The highest crossing of the vertical line at x; null where there is none. */
export function highestAt(lines, x) {
  let highest = null;
  for (const crossing of crossingsAt(lines, x)) {
    if (highest === null || isLower(highest, crossing)) highest = crossing;
  }
  return highest;
}

/** The least box round the points of lines; null where there are none. */
export function boxOf(lines) {
  let box = null;
  for (const { points } of lines) {
    for (const [x, y] of points) {
      box ??= { x0: x, y0: y, x1: x, y1: y };
      box.x0 = Math.min(box.x0, x);
      box.y0 = Math.min(box.y0, y);
      box.x1 = Math.max(box.x1, x);
      box.y1 = Math.max(box.y1, y);
    }
  }
  return box;
}

/** The least box round two boxes, either of which may be null. */
export function joinBoxes(a, b) {
  if (!a || !b) return a ?? b;
  return { x0: Math.min(a.x0, b.x0), y0: Math.min(a.y0, b.y0), x1: Math.max(a.x1, b.x1), y1: Math.max(a.y1, b.y1) };
}

export function holdsBox(outer, inner) {
  return outer.x0 <= inner.x0 && outer.y0 <= inner.y0 && outer.x1 >= inner.x1 && outer.y1 >= inner.y1;
}

/**
 * What the edges of a face enclose, in square grid units: its area, where they are all of its edges; less than 0, where its outer ring is not among them. An
 * edge with the face on both sides adds nothing.
 */
export function areaOf(face, edges) {
  if (edges.length === 0) return 0;
  // Measured from one of the points, so that large coordinates lose no digits.
  const [ox, oy] = edges[0].points[0];
  let twice = 0;
  for (const { points, left, right } of edges) {
    const sign = Number(left === face) - Number(right === face);
    for (let i = 1; sign !== 0 && i < points.length; i++) {
      const [p, q] = [points[i - 1], points[i]];
      twice += sign * ((p[0] - ox) * (q[1] - oy) - (q[0] - ox) * (p[1] - oy));
    }
  }
  return twice / 2;
}

export const holdsPlace = ({ x0, y0, x1, y1 }, x, y) => x0 <= x && x <= x1 && y0 <= y && y <= y1;

/** A box of twice the width and height round another one, within the limits of a map. */
function wider({ x0, y0, x1, y1 }) {
  const [w, h] = [Math.ceil((x1 - x0 + 1) / 2), Math.ceil((y1 - y0 + 1) / 2)];
  return { x0: within(x0 - w), y0: within(y0 - h), x1: within(x1 + w), y1: within(y1 + h) };
}

/**
 * All edges of a face, of which `edges` are known and at least one is: `client` is asked for windows that grow until the outer ring of the face is whole. They must
 * be of the version that is shown.
 */
export async function edgesOfFace(client, face, step, edges, options) {
  const { version, history } = client;
  const beside = (all) => [...all].filter((edge) => edge.left === face || edge.right === face);
  let known = beside(edges);
  let box = boxOf(known);
  for (let i = 0; i < DOUBLINGS; i++) {
    const window = await client.window(step, box, options);
    client.keepTo({ version, history });
    known = beside(window.edges.values());
    const around = joinBoxes(box, boxOf(known));
    if (holdsBox(box, around)) {
      // All rings that touch the box are whole; a face with holes alone in it lies round the box.
      if (areaOf(face, known) > 0) return known;
      box = wider(box);
    } else {
      box = around;
    }
  }
  throw new Refused(503, "the face is too large");
}
