import type { Metadata } from "./client.js";
import type { Picture } from "./pictures.js";

type Position = [number, number];

/** How grid units become coordinates of the map. */
export interface Transform {
  scale: [number, number];
  translate: [number, number];
}

export interface GeojsonOptions {
  /** Makes longitude and latitude of coordinates of the map. */
  project?: (place: Position) => Position;
  /** Whether there is a line for each part of a border too. */
  borders?: boolean;
}

export interface MapFeature {
  type: "Feature";
  /** The number of a face; a border has none. */
  id?: number;
  properties: Record<string, unknown>;
  geometry: { type: "Polygon"; coordinates: Position[][] } | { type: "MultiPolygon"; coordinates: Position[][][] } | { type: "LineString"; coordinates: Position[] };
}

export interface MapFeatures {
  type: "FeatureCollection";
  features: MapFeature[];
}

/** The faces of a picture, as far as it shows them (RFC 7946). */
export function geojsonOf(picture: Picture, metadata: Metadata | null | undefined, options?: GeojsonOptions & { transform?: Transform | null }): MapFeatures;
