import type { Line } from "./places.js";
import type { Box, Edge, Point, Slice, WindowSlice } from "./wire.js";

/** What was found at a place: face 0 and null outside. */
export interface Found {
  face: number;
  ofClass: number | null;
}

/** Which version of which history something is of. */
export interface Seen {
  version: number | null;
  history?: string | null;
}

/** What is drawn of a slice or of a window. */
export interface Picture {
  readonly version: number | null;
  readonly history: string | null | undefined;
  readonly step: number;
  /** What a window shows; null for a slice. */
  readonly area: Box | null;
  readonly faces: Map<number, number>;
  readonly edges: Edge[];
  readonly lines: Line[];
  readonly box: Box;
  /** The rings of each class, to be filled by the even-odd rule. */
  readonly fills: Map<number, Point[][]>;
  faceAt(x: number, y: number): number;
}

export function partsIn(points: Point[], box: Box): Point[][];
export function pictureOfSlice(slice: Slice, seen: Seen): Picture;
export function pictureOfWindow(window: WindowSlice, seen: Seen, ask: (x: number, y: number) => Promise<Found>): Promise<Picture>;

/** The face at a place within a window; null where the place is not there. */
export function faceWithin(window: WindowSlice, x: number, y: number, corner: number | null): number | null;

/** The same as of `pictureOfWindow` without asking; null where the window does not tell what is at its corner, and `found` is not given. */
export function pictureAtOnce(window: WindowSlice, seen: Seen, found?: Found | null): Picture | null;
