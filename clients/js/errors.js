// What a call of the client throws in place of an answer.

// A longer line is no sentence, whoever sent it.
const LONGEST_SENTENCE = 200;

/** The first line of a plain text; empty where it has a tag, as the pages have that front servers send with an error. */
export function sentenceOf(text) {
  const line = text.trim().split("\n", 1)[0].trim();
  return line.length > LONGEST_SENTENCE || /[<>]/.test(line) ? "" : line;
}

/** An answer that is no success: its `status`, and what the server or the front server `said` of it, which may be nothing. */
export class Refused extends Error {
  constructor(status, said) {
    super(said || `status ${status}, and no reason is given`);
    this.name = "Refused";
    this.status = status;
    this.said = said;
  }
}

/** The map has another version than the one that is shown: everything must be asked for again. */
export class OtherVersion extends Error {
  constructor(version) {
    super(`version ${version} of the map is there`);
    this.name = "OtherVersion";
    this.version = version;
  }
}

/**
 * The server was started anew, and its versions have nothing to do with those before: everything must be asked for again. `version` is NaN where the front server
 * alone has answered, and `history` is null where it names none. `published` is the version that an edit has become all the same, and null where there is none.
 */
export class OtherHistory extends Error {
  constructor(version, history, published = null) {
    super(published === null ? "another history of the map is there" : `the edit is published as version ${published} of another history of the map`);
    this.name = "OtherHistory";
    Object.assign(this, { version, history, published });
  }
}

const OF_A_FRONT_SERVER = new Map([
  [502, "the front server does not reach the program"],
  [504, "no reply came in time"],
]);

/** No answer of the program came. Where the front server tells so, there is its `status`, and what it `said`, which may be nothing. */
export class Unreachable extends Error {
  constructor(reason, status = null, said = "") {
    super(reason);
    this.name = "Unreachable";
    Object.assign(this, { status, said });
  }

  /** Whether a front server says by this status that it has no answer of the program. */
  static isTold(status) {
    return OF_A_FRONT_SERVER.has(status);
  }

  static told(status, said) {
    return new Unreachable(said || OF_A_FRONT_SERVER.get(status), status, said);
  }
}

const OF_A_CAUSE = new Map([
  [1, "the line is none that edits a map"],
  [2, "the map has no such face, or no such class"],
  [3, "no point of a border is there"],
  [4, "a point of a border is there already"],
  [5, "no segment of a border runs between the two points"],
  [6, "a border begins or ends there"],
  [7, "the points before and behind it are one point"],
  [8, "the map has as many points as a map may have"],
  [9, "the line does not begin and end at the border of the face, or does not leave it into the face"],
  [10, "the line comes to one point twice, or on its way to a point of a border"],
  [11, "the map would be larger than a map may be"],
  [12, "the line begins and ends at borders of the face that do not hang together"],
  [13, "the two faces have no border with each other"],
  [14, "nothing would be left of the border round the two faces"],
]);

/** What a cause of a line at fault says (docs/formats.md, "Edit batches"). */
export const wordsOfCause = (cause) => OF_A_CAUSE.get(cause) ?? `the edit is refused, with cause ${cause}`;

/** An edit that does not apply, by the `cause` that the program would tell. `line` is that of a batch, from 1, where there is one. */
export class EditFault extends Error {
  constructor(cause, line = null) {
    super(wordsOfCause(cause));
    this.name = "EditFault";
    Object.assign(this, { cause, line });
  }
}

const FAULTS = [
  [/^edit line ([0-9]+) cause ([0-9]+)$/, ([line, cause]) => ({ kind: "line", line, cause })],
  [/^refused 15 meets [0-9]+ [0-9]+ (-?[0-9]+) (-?[0-9]+) ([0-9]+)$/, ([x, y, below]) => ({ kind: "meets", place: [x / below, y / below] })],
  [/^refused 16 node (-?[0-9]+) (-?[0-9]+) /, ([x, y]) => ({ kind: "node", place: [x, y] })],
  [/^refused 17 stack (-?[0-9]+) ([0-9]+) /, ([x, above]) => ({ kind: "stack", x: x + 0.5, above })],
];

/**
 * What a refusal of an edit names: a `line` with its `cause`, or what is wrong with the map that would come of it: the `place` where borders meet or faces disagree
 * round a node, or the line at `x` along which they disagree, with how many segments are above. Null where it is none of these.
 */
export function faultIn(said) {
  for (const [form, give] of FAULTS) {
    const found = form.exec(said);
    if (found) return give(found.slice(1).map(Number));
  }
  return null;
}

const OF_A_FAULT = {
  line: ({ cause }) => wordsOfCause(cause),
  meets: () => "borders would meet where they must not",
  node: () => "the faces round a point would not agree",
  stack: () => "the faces at two sides of a border would not agree",
};

/**
 * A batch of edits that the server refuses, and what of it: its `fault`, the number of the `step` of the draft from 0, and the `place`; each null where it is not known.
 * `isUnknown` says that the server is older, and does not know the line.
 */
export class RefusedBatch extends Refused {
  constructor(said, { fault, step = null, place = null, isUnknown = false }) {
    super(422, said);
    this.name = "RefusedBatch";
    this.message = isUnknown ? "the server is older, and neither cuts faces nor fuses them" : OF_A_FAULT[fault.kind](fault);
    Object.assign(this, { fault, step, place, isUnknown });
  }
}

/** What a client tells who listens: `version`, `history` or `unreachable` with the members of an error, or another event. */
export class Told extends Event {
  constructor(type, members) {
    super(type);
    Object.assign(this, members);
  }

  /** The event that goes with an error; null where none does. */
  static of(error) {
    if (error instanceof OtherVersion) return new Told("version", { version: error.version });
    if (error instanceof OtherHistory) return new Told("history", { version: error.version, history: error.history, published: error.published });
    if (error instanceof Unreachable) return new Told("unreachable", { reason: error.message, status: error.status, said: error.said });
    return null;
  }
}
