import type { CallOptions } from "./client.js";
import type { Seen } from "./pictures.js";
import type { Box, Edge, Point, WindowSlice } from "./wire.js";

/** Anything with points and the faces at its sides. */
export type Line = Pick<Edge, "points" | "left" | "right">;

export interface Crossing {
  y: number;
  slope: number;
  above: number;
  below: number;
}

export function crossingsAt(lines: Iterable<Line>, x: number): Generator<Crossing, void>;
export function lowestAbove(lines: Iterable<Line>, x: number, y: number): Crossing | null;
export function highestAt(lines: Iterable<Line>, x: number): Crossing | null;
export function boxOf(lines: Iterable<{ points: Point[] }>): Box | null;
export function joinBoxes(a: Box | null, b: Box | null): Box | null;
export function holdsBox(outer: Box, inner: Box): boolean;
/** In square grid units; less than 0 where the outer ring of the face is not among the edges. */
export function areaOf(face: number, edges: Line[]): number;

/** The greatest coordinate of a map. */
export const FARTHEST: number;
/** The coordinate of a map that is next to a number. */
export function within(z: number): number;
export function holdsPlace(box: Box, x: number, y: number): boolean;

/** What is asked for windows, and holds them against what is shown. */
export interface Reader {
  version: number | null;
  history?: string | null;
  window(step: number, area: Box, options?: CallOptions): Promise<WindowSlice>;
  keepTo(seen: Seen): void;
}

/** All edges of a face, of which at least one is known. */
export function edgesOfFace(client: Reader, face: number, step: number, edges: Iterable<Edge>, options?: CallOptions): Promise<Edge[]>;
