/** A point in grid units: x and y. */
export type Point = [number, number];

/** A rectangle in grid units; its borders are part of it. */
export interface Box {
  x0: number;
  y0: number;
  x1: number;
  y1: number;
}

/** A border between two faces, of which 0 is the outside. */
export interface Edge {
  key: number;
  left: number;
  right: number;
  points: Point[];
}

/** The map after so many steps: the class of each face by its number, and each edge by its key. */
export interface Slice {
  step: number;
  faces: Map<number, number>;
  edges: Map<number, Edge>;
}

/** The edges of a slice whose bounding boxes touch the area, and the faces beside them. */
export interface WindowSlice extends Slice {
  area: Box;
}

export interface Put {
  at: number;
  point: Point;
}

export interface Piece {
  key: number;
  last: number;
  side: number;
  turned: boolean;
}

export interface Mend {
  key: number;
  puts: Put[];
  pieces: Piece[];
}

/** What undoes a step of a slice. */
export interface SliceRecord {
  step: number;
  loser: number;
  loserClass: number;
  winner: number;
  winnerClass: number;
  made: number;
  mends: Mend[];
  ended: Edge[];
}

/** What undoes a step of a window. */
export interface WindowRecord {
  step: number;
  loser: number;
  winner: number;
  made: number;
  faces: [face: number, ofClass: number][];
  mends: Mend[];
  comes: Edge[];
}

export interface Packet {
  from: number;
  to: number;
  records: SliceRecord[];
}

export interface WindowPacket {
  from: number;
  to: number;
  area: Box;
  records: WindowRecord[];
}

/** The numbers of a version. */
export interface Info {
  version: number;
  steps: number;
  faces: number;
  arcs: number;
  points: number;
}

/** A text that is none of its kind. */
export class BadText extends Error {
  constructor(line: number);
  /** The first line, from 1, that is not what must come there. */
  readonly line: number;
}

export function samePoint(p: Point, q: Point): boolean;
export function readSlice(text: string): Slice;
export function readWindow(text: string): WindowSlice;
export function readPacket(text: string): Packet;
export function readWindowPacket(text: string): WindowPacket;
export function readInfo(text: string): Info;
export function sliceText(slice: Slice): string;
export function windowText(slice: WindowSlice): string;
export function packetText(packet: Packet): string;
export function windowPacketText(packet: WindowPacket): string;

/** A cell of an archive: its records without those that change nothing, and in which face its inside lies. */
export interface CellText extends WindowPacket {
  inside: { step: number; face: number; ofClass: number | null }[];
}

export function readCell(text: string): CellText;
/** The same in pieces: it yields behind each record. */
export function cellInPieces(text: string): Generator<void, CellText>;
