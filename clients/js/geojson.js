// A picture as GeoJSON (RFC 7946), in the coordinates of the map or in what is made of them, with the names and attributes that the metadata have.

import { polygonsOfFaces, twiceAreaOf } from "./rings.js";

/** What is told of a face, beside its attributes. */
function ownOf(face, ofClass, metadata) {
  // A face that was merged has no area of its own.
  const area = metadata?.areas?.[metadata.faces?.[face - 1]];
  const own = { face, class: ofClass, class_name: metadata?.classes?.[ofClass]?.[0] ?? null, name: area?.name ?? null, id: area?.id ?? null };
  return { own, attributes: area?.attributes ?? {} };
}

/** One row of properties: an attribute of the same name as one of these gets a line behind its name. */
function propertiesOf(face, ofClass, metadata) {
  const { own, attributes } = ownOf(face, ofClass, metadata);
  const named = Object.entries(attributes).map(([name, value]) => [name in own ? `${name}_` : name, value]);
  return { ...own, ...Object.fromEntries(named) };
}

/** A ring that runs counter-clockwise where `isOuter`, and else clockwise. */
function oriented(ring, isOuter) {
  return twiceAreaOf(ring) > 0 === isOuter ? ring : [...ring].reverse();
}

/**
 * The faces of a picture as a collection of features, as far as the picture shows them. `transform` has `scale` and `translate`, from grid units to the coordinates of
 * the map; `project` makes longitude and latitude of these. With `borders` there is a line for each part of a border too, with the faces at its sides.
 */
export function geojsonOf(picture, metadata, { transform, project, borders = false } = {}) {
  const { scale, translate } = transform ?? metadata?.transform ?? { scale: [1, 1], translate: [0, 0] };
  const inMap = ([x, y]) => [scale[0] * x + translate[0], scale[1] * y + translate[1]];
  const placed = project ? (point) => project(inMap(point)) : inMap;
  const features = [...polygonsOfFaces(picture)].map(([face, polygons]) => {
    const coordinates = polygons.map((rings) => rings.map((ring, at) => oriented(ring.map(placed), at === 0)));
    const geometry = coordinates.length === 1 ? { type: "Polygon", coordinates: coordinates[0] } : { type: "MultiPolygon", coordinates };
    return { type: "Feature", id: face, properties: propertiesOf(face, picture.faces.get(face) ?? null, metadata), geometry };
  });
  const lines = borders ? picture.lines.map(({ points, left, right }) => lineOf(points.map(placed), left, right)) : [];
  return { type: "FeatureCollection", features: [...features, ...lines] };
}

function lineOf(coordinates, left, right) {
  return { type: "Feature", properties: { left, right }, geometry: { type: "LineString", coordinates } };
}
