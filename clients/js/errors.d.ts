/** An answer that is no success. */
export class Refused extends Error {
  constructor(status: number, said: string);
  readonly status: number;
  /** The first line of what the server wrote; empty where that was no sentence. */
  readonly said: string;
}

/** The map has another version than the one that is shown. */
export class OtherVersion extends Error {
  constructor(version: number);
  /** NaN where it is not known. */
  readonly version: number;
}

/** The server was started anew: its versions have nothing to do with those before. */
export class OtherHistory extends Error {
  constructor(version: number, history: string | null | undefined, published?: number | null);
  /** NaN where it is not known. */
  readonly version: number;
  /** Null where the front server names none. */
  readonly history: string | null | undefined;
  /** The version that an edit has become all the same. */
  readonly published: number | null;
}

/** No answer of the program came. */
export class Unreachable extends Error {
  constructor(reason: string, status?: number | null, said?: string);
  /** Whether a front server says by this status that it has no answer of the program. */
  static isTold(status: number): boolean;
  static told(status: number, said: string): Unreachable;
  /** That of the front server; null where nothing answered. */
  readonly status: number | null;
  readonly said: string;
}

/** What a cause of a line at fault says. */
export function wordsOfCause(cause: number): string;

/** An edit that does not apply. */
export class EditFault extends Error {
  constructor(cause: number, line?: number | null);
  /** The cause that the program would tell. */
  readonly cause: number;
  /** The line of a batch, from 1, where there is one. */
  readonly line: number | null;
}

/** What a refusal of an edit names. */
export type Fault =
  | { kind: "line"; line: number; cause: number }
  | { kind: "meets" | "node"; place: [number, number] }
  | { kind: "stack"; x: number; above: number };

/** Null where it is none of these. */
export function faultIn(said: string): Fault | null;

/** A batch of edits that the server refuses. */
export class RefusedBatch extends Refused {
  constructor(said: string, of: { fault: Fault; step?: number | null; place?: [number, number] | null; isUnknown?: boolean });
  readonly fault: Fault;
  /** The number of the step of the draft, from 0; null where a whole map is refused. */
  readonly step: number | null;
  readonly place: [number, number] | null;
  /** Whether the server is older, and does not know the line. */
  readonly isUnknown: boolean;
}

/** The first line of a plain text; empty where it is no sentence. */
export function sentenceOf(text: string): string;

/** What a client tells who listens. */
export class Told extends Event {
  constructor(type: string, members: Record<string, unknown>);
  /** The event that goes with an error; null where none does. */
  static of(error: unknown): Told | null;
}
