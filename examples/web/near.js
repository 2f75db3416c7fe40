// What lies next to a place of the screen: a vertex of a border, or a place on one; and whether a line crosses a border.

import { boxOf } from "./clients/js/places.js";
import { touches } from "./clients/js/replay.js";
import { segmentsOf } from "./clients/js/sides.js";

const L = window.L;

/** The box of the grid within reach of a place of the screen, in pixels. */
function boxRound(map, place, reach) {
  const [a, b] = [[-reach, reach], [reach, -reach]].map((by) => map.containerPointToLatLng(place.add(by)));
  return { x0: Math.min(a.lng, b.lng), y0: Math.min(a.lat, b.lat), x1: Math.max(a.lng, b.lng), y1: Math.max(a.lat, b.lat) };
}

/** Where a point of the grid is on the screen. */
export const onScreen = (map, [x, y]) => map.latLngToContainerPoint([y, x]);

/** The point of the grid that is next to a place of the screen. */
export function gridPoint(map, place) {
  const { lng, lat } = map.containerPointToLatLng(place);
  return [Math.round(lng), Math.round(lat)];
}

/** The vertex that is next to a place of the screen, within reach; null where there is none. */
export function vertexNear(map, edges, place, reach) {
  const box = boxRound(map, place, reach);
  let [nearest, least] = [null, reach];
  for (const { points } of edges) {
    if (!touches(box, points)) continue;
    for (const point of points) {
      if (!touches(box, [point])) continue;
      const distance = onScreen(map, point).distanceTo(place);
      if (distance <= least) [nearest, least] = [point, distance];
    }
  }
  return nearest;
}

/** The place on a segment that is next to a place of the screen, within reach: the `ends` of the segment, and the `point` of the grid. Null where there is none. */
export function segmentNear(map, edges, place, reach) {
  const box = boxRound(map, place, reach);
  let [nearest, least] = [null, reach];
  for (const { points } of edges) {
    if (!touches(box, points)) continue;
    for (let i = 1; i < points.length; i++) {
      const ends = [points[i - 1], points[i]];
      if (!touches(box, ends)) continue;
      const closest = L.LineUtil.closestPointOnSegment(place, ...ends.map((end) => onScreen(map, end)));
      const distance = closest.distanceTo(place);
      if (distance <= least) [nearest, least] = [{ ends, point: gridPoint(map, closest) }, distance];
    }
  }
  return nearest;
}

/** At which side of the line from p to q a point lies. */
const sideOf = (p, q, [x, y]) => Math.sign((q[0] - p[0]) * (y - p[1]) - (q[1] - p[1]) * (x - p[0]));

/** Whether two segments cross: at a place that is an end of neither. */
const cross = ([p, q], [a, b]) => sideOf(p, q, a) * sideOf(p, q, b) < 0 && sideOf(a, b, p) * sideOf(a, b, q) < 0;

/** Whether a row of points crosses a border, other than on the segments that a vertex of it is put on. */
export function crossesBorder(edges, line, adds) {
  const nameOf = (ends) => ends.map(String).sort().join();
  const put = new Set(adds.map(({ ends }) => nameOf(ends)));
  const own = segmentsOf(line);
  const box = boxOf([{ points: line }]);
  const meets = (segment) => touches(box, segment) && own.some((it) => cross(it, segment)) && !put.has(nameOf(segment));
  return [...edges].some(({ points }) => touches(box, points) && segmentsOf(points).some(meets));
}
