import type { CallOptions, Client } from "./client.js";
import type { EditFault } from "./errors.js";
import type { Edge, Point, Slice } from "./wire.js";

export { EditFault, RefusedBatch } from "./errors.js";

/** What a line of a batch says. One that `isThere` is not sent, since the server has it so already. */
export type Edit = { isThere?: boolean } & (
  | { kind: "class"; face: number; ofClass: number }
  | { kind: "move"; from: Point; to: Point }
  | { kind: "add"; ends: [Point, Point]; point: Point }
  | { kind: "drop"; point: Point }
  | { kind: "node"; point: Point }
  | { kind: "cut"; face: number; ofClass: number; points: Point[] }
  | { kind: "fuse"; kept: number; gone: number }
);

/** Edits that are made, undone and made again together. */
export interface Step {
  edits: Edit[];
}

/** A step that does not apply to a newer version, and why. */
export interface Left extends Step {
  reason: EditFault;
}

export interface Carried {
  draft: Draft;
  left: Left[];
}

/** What may be known of a map beside its slice. */
export interface DraftOptions {
  version?: number | null;
  history?: string | null;
  /** How many classes there are. */
  classes?: number;
  arcs?: number;
  points?: number;
}

/** What a draft is published by. */
export type Publisher = Pick<Client, "edit" | "keepTo">;

/** Edits that are made here first, on a map at full detail, and published together. It can be drawn as a slice. */
export class Draft implements Slice {
  constructor(slice: Pick<Slice, "faces" | "edges">, options?: DraftOptions);
  /** The draft over what a client shows. */
  static of(client: Pick<Client, "info" | "slice" | "keepTo">, options?: CallOptions & { classes?: number }): Promise<Draft>;

  readonly step: number;
  readonly version: number | null;
  readonly history: string | null | undefined;
  readonly faces: Map<number, number>;
  readonly edges: Map<number, Edge>;
  readonly steps: Step[];
  readonly canUndo: boolean;
  readonly canRedo: boolean;

  /** The face at a place, 0 outside. */
  faceAt(x: number, y: number): number;
  hasPoint(point: Point): boolean;
  /** Whether a border begins or ends at a point. */
  isNode(point: Point): boolean;
  edgesAt(point: Point): Edge[];
  edgesBeside(face: number): Edge[];

  setClass(face: number, ofClass: number): void;
  move(from: Point, to: Point): void;
  add(ends: [Point, Point], point: Point): void;
  drop(point: Point): void;
  /** The part at the left of the row of points is the new last face, of this class. */
  cut(face: number, ofClass: number, points: Point[], adds?: { ends: [Point, Point]; point: Point }[]): void;
  /** Adds the second face to the first. */
  fuse(kept: number, gone: number): void;
  /** Makes some edits in one step: all of them, or none. */
  apply(edits: Edit[]): void;
  applyLines(batch: string): void;

  undo(): boolean;
  redo(): boolean;
  /** The lines of all that was done. */
  batch(): string;
  publish(client: Publisher, options?: CallOptions): Promise<{ version: number; foreseen: boolean }>;
  /** The same edits over a newer version, as far as they still apply. */
  carryTo(newer: Draft): Carried;
}

/** Whether the server cuts faces and fuses them; nothing is published by asking. */
export function knowsCuts(client: Pick<Client, "edit">, options?: CallOptions): Promise<boolean>;
