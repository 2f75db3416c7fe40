import type { Box, Edge, Packet, Point, Slice, SliceRecord, WindowPacket, WindowRecord, WindowSlice } from "./wire.js";

/** A record that does not fit. */
export class Unfit extends Error {
  constructor(step: number, rule: number);
  readonly step: number;
  /** The least of the rules that it breaks, from 1. */
  readonly rule: number;
}

/** A slice that packets refine. */
export class Refined implements Slice {
  constructor(slice: Slice);
  readonly step: number;
  readonly faces: Map<number, number>;
  readonly edges: Map<number, Edge>;
  /** A copy that shares the edges, which never change. */
  copy(): Refined;
  /** The edges at a face. */
  edgesAt(face: number): Edge[];
  /** The least rule that the record breaks, from 1; 0 where it fits. */
  brokenRule(record: SliceRecord): number;
  /** Throws Unfit and changes nothing where the record does not fit. */
  undo(record: SliceRecord): void;
  replay(packet: Packet): void;
}

/** A window that packets of this window refine. */
export class RefinedWindow implements WindowSlice {
  constructor(window: WindowSlice);
  readonly area: Box;
  step: number;
  readonly faces: Map<number, number>;
  readonly edges: Map<number, Edge>;
  copy(): RefinedWindow;
  brokenRule(record: WindowRecord): number;
  undo(record: WindowRecord): void;
  replay(packet: WindowPacket): void;
}

/** Whether the bounding box of the points overlaps or touches the area. */
export function touches(area: Box, points: Point[]): boolean;
/** The part of a window that a rectangle within its area shows. */
export function clipped(window: WindowSlice, area: Box): RefinedWindow;
