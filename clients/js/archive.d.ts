import type { CallOptions, ClientEvents, Metadata, RequestOptions } from "./client.js";
import type { Found, Picture, Seen } from "./pictures.js";
import type { GeojsonOptions, MapFeatures, Transform } from "./geojson.js";
import type { Box, Edge, Slice, WindowSlice } from "./wire.js";

export type { GeojsonOptions, MapFeatures, MapFeature, Transform } from "./geojson.js";

/** An archive that is none, or that is not whole: nothing of it is given. */
export class BadArchive extends Error {
  constructor(reason: string);
}

/** What an area shows at a step; it goes to finer steps by records, one after the other. */
export class View implements WindowSlice {
  private constructor();
  readonly area: Box;
  readonly step: number;
  /** The finest step that it can go to without another request. */
  readonly finest: number;
  /** The next finer step at which something else may be seen; null at the finest one that it can go to. */
  readonly next: number | null;
  readonly faces: Map<number, number>;
  readonly edges: Map<number, Edge>;
  /** What a smaller area within its own shows at its step. */
  cut(area: Box): View;
  /** Goes to a finer step, whose records are here. */
  goTo(step: number): void;
  /** The face at a place of it; null where the cell that the place lies in does not tell. */
  faceAt(x: number, y: number): Found | null;
}

export interface ArchiveInfo {
  version: number;
  steps: number;
  faces: number;
  /** That of the map; where none is named, the archive's own name. */
  history: string;
  /** The name of the archive, which stands for its bytes. */
  archive: string;
  bytes: number;
  bounds: Box;
}

export interface WholeEvent extends Event {
  readonly bytes: number;
}

export interface ArchiveEvents extends ClientEvents {
  /** The server gives no ranges: the whole file was taken. */
  whole: WholeEvent;
}

export interface ArchiveOptions extends RequestOptions {
  fetch?: (address: string, options: RequestInit) => Promise<Response>;
  signal?: AbortSignal;
}

/** A step, or N of a map that is shown at 1 : N. */
export type StepOrScale = number | { scale: number };

/** A map that was published as an archive. Numbers are grid units. */
export class Archive extends EventTarget {
  constructor(url: string | URL | Blob, options?: ArchiveOptions);
  version: number | null;
  history: string | undefined;
  /** Whether the server gives ranges of bytes; null before that is known. */
  ranged: boolean | null;

  info(options?: CallOptions): Promise<ArchiveInfo>;
  metadata(options?: CallOptions): Promise<Metadata | null>;
  /** The metadata without `faces` and `areas`. */
  outline(options?: CallOptions): Promise<Omit<Metadata, "faces" | "areas"> | null>;
  transform(options?: CallOptions): Promise<Transform>;
  view(bounds: Box | null, step: StepOrScale, options?: CallOptions): Promise<View>;
  load(view: View, step: number, options?: CallOptions): Promise<void>;
  refine(view: View, step: number, options?: CallOptions): Promise<void>;
  refined(step: StepOrScale, options?: CallOptions): Promise<View>;
  refinedWindow(step: StepOrScale, area: Box, options?: CallOptions): Promise<View>;
  refineWindow(view: View, step: number, options?: CallOptions): Promise<void>;
  window(step: StepOrScale, area: Box | null, options?: CallOptions): Promise<WindowSlice>;
  slice(step: StepOrScale, options?: CallOptions): Promise<Slice>;
  faceAt(x: number, y: number, step: number, options?: CallOptions): Promise<Found>;
  edgesOf(face: number, step: number, edges: Iterable<Edge>, options?: CallOptions): Promise<Edge[]>;
  picture(view: View, options?: CallOptions): Promise<Picture>;
  geojson(view: View, metadata?: Metadata | null, options?: GeojsonOptions & CallOptions): Promise<MapFeatures>;
  newest(options?: CallOptions): Promise<ArchiveInfo>;
  pin(options?: CallOptions): Promise<number>;
  show(version: number, history?: string): void;
  keepTo(seen: Seen): void;

  addEventListener<T extends keyof ArchiveEvents>(type: T, listener: (event: ArchiveEvents[T]) => void, options?: boolean | AddEventListenerOptions): void;
  addEventListener(type: string, listener: EventListenerOrEventListenerObject | null, options?: boolean | AddEventListenerOptions): void;
}
