import type { Found, Seen } from "./pictures.js";
import type { Refined, RefinedWindow } from "./replay.js";
import type { Box, Edge, Info, Packet, Slice, WindowPacket, WindowSlice } from "./wire.js";

export { OtherHistory, OtherVersion, Refused, Unreachable } from "./errors.js";
export { Refined, RefinedWindow, Unfit } from "./replay.js";
export { BadText } from "./wire.js";

export { FARTHEST } from "./places.js";

/** What goes with a call. */
export interface CallOptions {
  /** Gives the call up: it throws the reason of the signal then. */
  signal?: AbortSignal;
}

/** What goes with requests. */
export interface RequestOptions {
  headers?: HeadersInit;
  credentials?: RequestCredentials;
}

export interface ClientOptions extends RequestOptions {
  /** Stands in place of the global one. */
  fetch?: (address: string, options: RequestInit) => Promise<Response>;
  /** Gives up all calls. */
  signal?: AbortSignal;
  /** What goes with edits alone, in place of what goes with all requests. */
  editing?: RequestOptions;
}

export interface VersionInfo extends Info {
  history: string | null;
}

export interface VersionEvent extends Event {
  readonly version: number;
}

export interface HistoryEvent extends Event {
  readonly version: number;
  readonly history: string | null | undefined;
  readonly published: number | null;
}

export interface UnreachableEvent extends Event {
  readonly reason: string;
  readonly status: number | null;
  readonly said: string;
}

export interface ClientEvents {
  /** The map has another version than the one that is shown. */
  version: VersionEvent;
  /** The map has another history than the one that is shown. */
  history: HistoryEvent;
  /** No answer of the program came. */
  unreachable: UnreachableEvent;
}

/** The requests of a page to one map. Numbers are grid units. */
export class Client extends EventTarget {
  constructor(root: string | URL, options?: ClientOptions);
  /** The address of the map, with a slash at its end. */
  readonly root: string;
  /** The version that is shown; null before the first answer. */
  version: number | null;
  /** The token of its history; null where none is named, undefined before the first answer. */
  history: string | null | undefined;

  info(options?: CallOptions): Promise<VersionInfo>;
  metadata(options?: CallOptions): Promise<Metadata | null>;
  slice(step: number, options?: CallOptions): Promise<Slice>;
  window(step: number, area: Box, options?: CallOptions): Promise<WindowSlice>;
  /** The slice as TopoJSON. */
  topology(step: number, options?: CallOptions): Promise<any>;
  packet(from: number, to: number, options?: CallOptions): Promise<Packet>;
  windowPacket(from: number, to: number, area: Box, options?: CallOptions): Promise<WindowPacket>;
  refined(step: number, options?: CallOptions): Promise<Refined>;
  refine(refined: Refined, step: number, options?: CallOptions): Promise<void>;
  refinedWindow(step: number, area: Box, options?: CallOptions): Promise<RefinedWindow>;
  refineWindow(window: RefinedWindow, step: number, options?: CallOptions): Promise<void>;
  faceAt(x: number, y: number, step: number, options?: CallOptions): Promise<Found>;
  edgesOf(face: number, step: number, edges: Iterable<Edge>, options?: CallOptions): Promise<Edge[]>;
  newest(options?: CallOptions): Promise<VersionInfo>;
  pin(options?: CallOptions): Promise<number>;
  edit(batch: string, options?: CallOptions): Promise<{ version: number; foreseen: boolean }>;
  show(version: number, history?: string | null): void;
  /** Throws where another version or history is shown than these. */
  keepTo(seen: Seen): void;

  addEventListener<T extends keyof ClientEvents>(type: T, listener: (event: ClientEvents[T]) => void, options?: boolean | AddEventListenerOptions): void;
  addEventListener(type: string, listener: EventListenerOrEventListenerObject | null, options?: boolean | AddEventListenerOptions): void;
}

/** What is known of a map beside itself (docs/formats.md, "The metadata"). */
export interface Metadata {
  metadata: number;
  name: string;
  attribution: string;
  bounds: [west: number, south: number, east: number, north: number];
  transform: { scale: [number, number]; translate: [number, number] };
  crs: { epsg: number | null; proj: string | null; name: string | null } | null;
  property: string;
  classes: [name: string, weight: number][];
  steps: { step: number; faces: number; least: number; scale: number | null }[] | null;
  fields: Record<string, string>;
  /** For each face of the map, from face 1, the place of its area in `areas`. */
  faces: number[];
  areas: { id: string | number; name: string | null; attributes: Record<string, unknown>; [more: string]: unknown }[];
}
