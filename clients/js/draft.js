// Edits that are made here first, on a map that is known at full detail, and published together. Each is applied at once, by the rules of the program, and can be
// undone; whether the map that comes of all of them is sound is asked of the server alone.

import { editsOf, lineOf } from "./edit_lines.js";
import { EditedMap, changeOf } from "./edited_map.js";
import { EditFault, Refused, RefusedBatch, faultIn } from "./errors.js";
import { crossingsAt, lowestAbove } from "./places.js";
import { segmentsOf } from "./sides.js";
import { samePoint } from "./wire.js";

export { EditFault, RefusedBatch } from "./errors.js";

// The lines that a program has not known from its beginning.
const NEWER = ["node", "cut", "fuse"];
const UNKNOWN_LINE = 1;
const IS_A_NODE = 6;

/** The edits of a batch that a server is sent: not those that made a node here of a point that is one there. */
const sent = (edits) => edits.filter(({ isThere }) => !isThere);

export class Draft {
  #map;
  #done = [];
  #undone = [];

  /**
   * `slice` is the one of step 0, with `faces` and `edges`. Beside it may be known: the `version` and the `history` that it is of, the number of `classes`, and that of
   * the `arcs` and `points` of the map, as `info()` tells them.
   */
  constructor(slice, { version = null, history, classes, arcs, points } = {}) {
    this.#map = new EditedMap(slice, { classes, arcs, points });
    this.step = 0;
    this.version = version;
    this.history = history;
  }

  /** The draft over what a client shows. */
  static async of(client, { classes, ...options } = {}) {
    const info = await client.info(options);
    const slice = await client.slice(0, options);
    client.keepTo(info);
    return new Draft(slice, { ...info, classes });
  }

  /** The class of each face by its number, as edited. */
  get faces() {
    return this.#map.faces;
  }

  /** The borders by key, as edited; new ones have new keys. */
  get edges() {
    return this.#map.edges;
  }

  /** What was done, in order: the `edits` of each step. */
  get steps() {
    return this.#done.map(({ edits }) => ({ edits }));
  }

  get canUndo() {
    return this.#done.length > 0;
  }

  get canRedo() {
    return this.#undone.length > 0;
  }

  /** The face at a place, 0 outside. */
  faceAt(x, y) {
    return lowestAbove(this.edges.values(), x, y)?.below ?? 0;
  }

  hasPoint(point) {
    return this.#map.hasPoint(point);
  }

  /** Whether a border begins or ends at a point. */
  isNode(point) {
    return this.#map.isNode(point);
  }

  edgesAt(point) {
    return this.#map.edgesAt(point);
  }

  edgesBeside(face) {
    return this.#map.edgesBeside(face);
  }

  setClass(face, ofClass) {
    this.apply([{ kind: "class", face, ofClass }]);
  }

  move(from, to) {
    this.apply([{ kind: "move", from, to }]);
  }

  /** Puts a point between the ends of a segment. */
  add(ends, point) {
    this.apply([{ kind: "add", ends, point }]);
  }

  drop(point) {
    this.apply([{ kind: "drop", point }]);
  }

  /**
   * Cuts a face along a row of points, from a point of its border to another one: the part at the left of the row is the new last face, of this class. `adds` are
   * vertices that are put on borders first, each with the `ends` of its segment and its `point`, for a row that begins or ends between two points.
   */
  cut(face, ofClass, points, adds = []) {
    const isInner = (point) => !this.isNode(point) && (this.hasPoint(point) || adds.some((it) => samePoint(it.point, point)));
    const nodes = [points[0], points.at(-1)].filter(isInner);
    this.apply([
      ...adds.map(({ ends, point }) => ({ kind: "add", ends, point })),
      ...nodes.map((point) => ({ kind: "node", point })),
      { kind: "cut", face, ofClass, points },
    ]);
  }

  /** Adds the second face to the first; the last face gets its number. */
  fuse(kept, gone) {
    this.apply([{ kind: "fuse", kept, gone }]);
  }

  /** Makes some edits in one step: all of them, or none, where an EditFault is thrown. */
  apply(edits) {
    this.#do(edits);
    this.#undone = [];
  }

  /** The same for the lines of a batch. */
  applyLines(batch) {
    const edits = editsOf(batch);
    const wrong = edits.indexOf(null);
    const before = wrong === -1 ? edits : edits.slice(0, wrong);
    this.#do(before);
    if (wrong !== -1) {
      if (wrong > 0) this.#takeBack(this.#done.pop());
      throw new EditFault(UNKNOWN_LINE, wrong + 1);
    }
    this.#undone = [];
  }

  #do(edits) {
    const changes = [];
    try {
      for (const edit of edits) {
        const change = changeOf(this.#map, edit);
        this.#map.change(change);
        changes.push(change);
      }
    } catch (error) {
      this.#takeBack({ changes });
      if (!(error instanceof EditFault)) throw error;
      throw new EditFault(error.cause, changes.length + 1);
    }
    if (edits.length > 0) this.#done.push({ edits, changes });
  }

  #takeBack({ changes }) {
    for (const change of [...changes].reverse()) this.#map.changeBack(change);
  }

  /** Takes the last step back; whether there was one. */
  undo() {
    const step = this.#done.pop();
    if (step === undefined) return false;
    this.#takeBack(step);
    this.#undone.push(step);
    return true;
  }

  /** Makes the step again that was taken back last; whether there was one. */
  redo() {
    const step = this.#undone.pop();
    if (step === undefined) return false;
    for (const change of step.changes) this.#map.change(change);
    this.#done.push(step);
    return true;
  }

  /** The lines of all that was done. */
  batch() {
    return sent(this.#done.flatMap(({ edits }) => edits)).map((edit) => `${lineOf(edit)}\n`).join("");
  }

  /** The step and the edit that a line of the batch, from 1, is of. */
  #atLine(line) {
    const all = this.#done.flatMap(({ edits }, step) => sent(edits).map((edit) => ({ step, edit })));
    return all[line - 1] ?? null;
  }

  /**
   * Publishes what was done. The client must show the version that the draft is of. Gives the number of the new version, and whether it was `foreseen`; then nothing is
   * done any more, and the draft goes on from that version, if it was. RefusedBatch is thrown where the server refuses a line, or the map that comes of it.
   */
  async publish(client, options) {
    client.keepTo(this);
    for (;;) {
      try {
        const told = await client.edit(this.batch(), options);
        Object.assign(this, { version: told.foreseen ? told.version : NaN });
        this.#done = [];
        this.#undone = [];
        return told;
      } catch (error) {
        const fault = error instanceof Refused && error.status === 422 ? faultIn(error.said) : null;
        if (fault === null) throw error;
        if (!this.#learns(fault)) throw this.#refused(error.said, fault);
      }
    }
  }

  /**
   * A slice does not show the nodes at which two arcs of the same sides meet. Where a point that is to be made a node is such a one, no line need say so: whether that
   * was the fault.
   */
  #learns({ kind, line, cause }) {
    const found = kind === "line" && cause === IS_A_NODE ? this.#atLine(line) : null;
    if (found?.edit.kind !== "node") return false;
    found.edit.isThere = true;
    return true;
  }

  #refused(said, fault) {
    if (fault.kind !== "line") return new RefusedBatch(said, { fault, place: this.#placeOf(fault) });
    const { step, edit } = this.#atLine(fault.line) ?? { step: null, edit: null };
    const isUnknown = fault.cause === UNKNOWN_LINE && NEWER.includes(edit?.kind);
    return new RefusedBatch(said, { fault, step, place: edit && placeOfEdit(edit), isUnknown });
  }

  /** Where the map that comes of the edits is at fault. */
  #placeOf({ place, x, above }) {
    if (place) return place;
    const heights = [...crossingsAt(this.edges.values(), x)].map(({ y }) => y).sort((a, b) => b - a);
    const y = heights[above] ?? heights.at(-1) ?? null;
    return y === null ? null : [x, y];
  }

  /**
   * The same edits on a newer version: a draft over it in which each step was made again that still applies, and the steps that were `left`, each with its edits and
   * the reason. A face is the same where most of its border is as it was, and no part of it is another face's; once a step was left, where all of it is.
   */
  carryTo(newer) {
    const steps = this.#done.length;
    const left = [];
    while (this.undo());
    for (let i = 0; i < steps; i++) {
      const { edits } = this.#undone.at(-1);
      const reason = carry(edits, this.#map, newer, left.length > 0);
      if (reason) left.push({ edits, reason });
      this.redo();
    }
    return { draft: newer, left };
  }
}

/** Where an edit is: a point of it; null where it names faces alone. */
function placeOfEdit(edit) {
  return edit.to ?? edit.point ?? edit.points?.[0] ?? null;
}

/** The segments of the border of a face, each so that the face is at its left. */
function borderOf(map, face) {
  return map.edgesBeside(face).flatMap(({ left, right, points }) => [
    ...(left === face ? segmentsOf(points) : []),
    ...(right === face ? segmentsOf(points).map(([p, q]) => [q, p]) : []),
  ]);
}

/** The face at the left of a segment; null where the map has no such segment. */
function faceAtLeft(map, [p, q]) {
  for (const { left, right, points } of map.edgesAt(p)) {
    for (let i = 1; i < points.length; i++) {
      if (samePoint(points[i - 1], p) && samePoint(points[i], q)) return left;
      if (samePoint(points[i - 1], q) && samePoint(points[i], p)) return right;
    }
  }
  return null;
}

/** The number that a face of one map has in another; null where it is not there any more. */
function sameFace(face, map, other, isExact) {
  const border = borderOf(map, face);
  const faces = border.map((segment) => faceAtLeft(other, segment)).filter((it) => it !== null);
  const [found] = faces;
  if (!found || faces.some((it) => it !== found)) return null;
  const longest = Math.max(border.length, borderOf(other, found).length);
  return (isExact ? faces.length === longest : 2 * faces.length >= longest) ? found : null;
}

/** Makes the edits of a step in another draft; the reason, where they do not apply there. */
function carry(edits, map, newer, isExact) {
  const named = new Set(edits.flatMap(({ face, kept, gone }) => [face, kept, gone]).filter((it) => it !== undefined));
  const there = new Map([...named].map((face) => [face, map.faces.has(face) ? sameFace(face, map, newer, isExact) : null]));
  if ([...there.values()].includes(null)) return new EditFault(2);
  const told = edits.map((edit) => {
    const { isThere, ...rest } = edit;
    for (const name of ["face", "kept", "gone"]) if (name in rest) rest[name] = there.get(rest[name]);
    return isThere ? { ...rest, isThere } : rest;
  });
  try {
    newer.apply(told.filter(({ kind, point }) => kind !== "node" || !newer.isNode(point)));
    return null;
  } catch (error) {
    if (error instanceof EditFault) return error;
    throw error;
  }
}

/**
 * Whether the server that a client asks cuts faces and fuses them. It is sent a batch that it refuses in either case, so that nothing is published: there is no face 0
 * to fuse.
 */
export async function knowsCuts(client, options) {
  try {
    await client.edit("fuse 0 0\n", options);
  } catch (error) {
    const fault = error instanceof Refused && error.status === 422 ? faultIn(error.said) : null;
    if (fault?.kind !== "line") throw error;
    return fault.cause !== UNKNOWN_LINE;
  }
  return false;
}
