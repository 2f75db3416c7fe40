// Refinement on the client: a record takes a slice one step back. It is tested against the slice before anything changes (docs/rules.md, "Records").

import { samePoint } from "./wire.js";

/** A record that does not fit: `rule` is the least of the rules that it breaks, seven for a slice and eight for a window. */
export class Unfit extends Error {
  constructor(step, rule) {
    super(`the record of step ${step} breaks rule ${rule}`);
    this.name = "Unfit";
    this.step = step;
    this.rule = rule;
  }
}

const ascend = (numbers) => numbers.every((number, i) => i === 0 || numbers[i - 1] < number);

const hasSide = (edge, face) => edge.left === face || edge.right === face;

/** Faces and edges with a look-up of the edges at each face, so that a record costs what it changes. */
class Changing {
  constructor({ step, faces, edges }) {
    this.step = step;
    this.faces = new Map(faces);
    this.edges = new Map();
    this.beside = new Map();
    for (const edge of edges.values()) this.#put(edge);
  }

  /** The edges at a face. */
  edgesAt(face) {
    return [...(this.beside.get(face) ?? [])].map((key) => this.edges.get(key));
  }

  #put(edge) {
    this.edges.set(edge.key, edge);
    for (const face of [edge.left, edge.right]) {
      if (!this.beside.has(face)) this.beside.set(face, new Set());
      this.beside.get(face).add(edge.key);
    }
  }

  #take(edge) {
    this.edges.delete(edge.key);
    for (const face of [edge.left, edge.right]) {
      this.beside.get(face)?.delete(edge.key);
      if (this.beside.get(face)?.size === 0) this.beside.delete(face);
    }
  }

  /** The least rule that the record breaks, from 1; 0 where it fits. */
  brokenRule(record) {
    return this.test(record).rule;
  }

  /** Takes it one step back; throws Unfit and changes nothing where the record does not fit. */
  undo(record) {
    const { rule, gone, come } = this.test(record);
    if (rule !== 0) throw new Unfit(record.step, rule);
    for (const edge of gone) this.#take(edge);
    for (const edge of come) this.#put(edge);
    this.changeFaces(record, gone);
    this.step -= 1;
  }

  /** What undoing the record makes of the edges at the face that was made: those that go, and those that each of them becomes. */
  become(record) {
    const mends = new Map(record.mends.map((mend) => [mend.key, mend]));
    const gone = this.edgesAt(record.made);
    return { gone, kept: gone.flatMap((edge) => this.keeps(refined(record, mends.get(edge.key), edge), mends.has(edge.key))) };
  }
}

/** The least of the rules that a record breaks, from 1; 0 where it breaks none. */
const leastBroken = (rules, changing, record) => 1 + rules.findIndex((fits) => !fits(changing, record));

/** A slice that packets refine. */
export class Refined extends Changing {
  /** A copy that shares the edges, which never change. */
  copy() {
    return new Refined(this);
  }

  /** The least rule that the record breaks, and where there is none, which edges go and come. */
  test(record) {
    const rule = leastBroken([fitsStep, fitsFaces, fitsMends, fitsPuts, fitsPieces, fitsEnded, fitsKeys], this, record);
    if (rule !== 0) return { rule };
    const { gone, kept } = this.become(record);
    return { rule, gone, come: [...kept, ...record.ended] };
  }

  keeps(pieces) {
    return pieces;
  }

  changeFaces(record) {
    this.faces.delete(record.made);
    this.faces.set(record.loser, record.loserClass);
    this.faces.set(record.winner, record.winnerClass);
  }

  /** Undoes the records of a packet that begins at this slice, as far as they fit. */
  replay(packet) {
    if (this.step !== packet.from) throw new Unfit(packet.from, 1);
    for (const record of packet.records) this.undo(record);
  }
}

/** The window of a slice, which packets of that window refine: what they do not say is for which window they are, so that of another one is refused here. */
export class RefinedWindow extends Changing {
  // Faces without an edge, which the first record takes away, and faces at edges that have no row, which no record forgives.
  #idle;
  #untold;

  constructor(window) {
    super(window);
    this.area = { ...window.area };
    this.#idle = [...this.faces.keys()].filter((face) => !this.beside.has(face));
    this.#untold = [...this.beside.keys()].filter((face) => face !== 0 && !this.faces.has(face));
  }

  /** A copy that shares the edges, which never change. */
  copy() {
    return new RefinedWindow(this);
  }

  /** The least rule that the record breaks, and where there is none, which edges go and come. */
  test(record) {
    const rule = leastBroken([fitsStep, fitsFacesIn, fitsMends, fitsPuts, fitsPieces, fitsComes], this, record);
    if (rule !== 0) return { rule };
    const { gone, kept } = this.become(record);
    const come = [...kept, ...record.comes];
    if (!this.#fitsKeysIn(gone, come)) return { rule: 7 };
    return this.#fitsRows(record, gone, come) ? { rule: 0, gone, come } : { rule: 8 };
  }

  /** Pieces of a mended edge are kept as far as they touch the window. */
  keeps(pieces, isMended) {
    return isMended ? pieces.filter((piece) => touches(this.area, piece.points)) : pieces;
  }

  /** Whether no key is there twice when these edges have gone and come. */
  #fitsKeysIn(gone, come) {
    const free = new Set(gone.map((edge) => edge.key));
    const keys = new Set(come.map((edge) => edge.key));
    return keys.size === come.length && [...keys].every((key) => free.has(key) || !this.edges.has(key));
  }

  /** Whether each face beside an edge has a row, old or new, when these edges have gone and come. */
  #fitsRows(record, gone, come) {
    const rows = new Set(record.faces.map(([face]) => face));
    const hasRow = (face) => face === 0 || rows.has(face) || this.faces.has(face);
    if (!come.every(({ left, right }) => hasRow(left) && hasRow(right))) return false;
    const keys = new Set(gone.map((edge) => edge.key));
    return this.#untold.every((face) => hasRow(face) || [...this.beside.get(face)].every((key) => keys.has(key)));
  }

  /** Of all rows, old and new, those of faces beside an edge are kept. */
  changeFaces(record, gone) {
    for (const [face, ofClass] of record.faces) this.faces.set(face, ofClass);
    const faces = [...this.#idle, ...record.faces.map(([face]) => face), ...gone.flatMap(({ left, right }) => [left, right])];
    for (const face of faces) if (!this.beside.has(face)) this.faces.delete(face);
    this.#idle = [];
    this.#untold = [];
  }

  /** Undoes the records of a packet of this window that begins at its step, as far as they fit. */
  replay(packet) {
    const isSame = ["x0", "y0", "x1", "y1"].every((end) => packet.area[end] === this.area[end]);
    if (this.step !== packet.from || !isSame) throw new Unfit(packet.from, 1);
    for (const record of packet.records) this.undo(record);
  }
}

/** The part of a window that a rectangle within its area shows: that rectangle's own window of the same step. */
export function clipped(window, area) {
  const edges = new Map([...window.edges].filter(([, edge]) => touches(area, edge.points)));
  const beside = new Set([...edges.values()].flatMap((edge) => [edge.left, edge.right]));
  return new RefinedWindow({ area, step: window.step, faces: [...window.faces].filter(([face]) => beside.has(face)), edges });
}

/** Whether the bounding box of the points overlaps or touches the window. */
export function touches({ x0, y0, x1, y1 }, points) {
  let [below, right, above, left] = [true, true, true, true];
  for (const [x, y] of points) {
    if (x >= x0) left = false;
    if (x <= x1) right = false;
    if (y >= y0) below = false;
    if (y <= y1) above = false;
    if (!left && !right && !below && !above) return true;
  }
  return false;
}

function refined(record, mend, edge) {
  const become = (side) => (face) => (face === record.made ? side : face);
  if (!mend) {
    const winner = become(record.winner);
    return [{ ...edge, left: winner(edge.left), right: winner(edge.right) }];
  }
  const points = edge.points.slice();
  for (const put of mend.puts) points.splice(put.at, 0, put.point);
  let first = 0;
  return mend.pieces.map((piece) => {
    const cut = points.slice(first, piece.last + 1);
    first = piece.last;
    const side = become(piece.side);
    const [left, right] = [side(edge.left), side(edge.right)];
    return piece.turned
      ? { key: piece.key, left: right, right: left, points: cut.reverse() }
      : { key: piece.key, left, right, points: cut };
  });
}

function fitsStep(slice, record) {
  return slice.step === record.step && record.step >= 1;
}

function fitsFaces(slice, { loser, winner, winnerClass, made }) {
  return (
    slice.faces.get(made) === winnerClass &&
    !slice.faces.has(loser) &&
    !slice.faces.has(winner) &&
    new Set([loser, winner, made, 0]).size === 4
  );
}

function fitsMends(slice, record) {
  const hasOneSide = (edge) => edge && hasSide(edge, record.made) && edge.left !== edge.right;
  return ascend(record.mends.map((mend) => mend.key)) && record.mends.every((mend) => hasOneSide(slice.edges.get(mend.key)));
}

function fitsPuts(slice, record) {
  return record.mends.every((mend) => {
    const points = slice.edges.get(mend.key).points.slice();
    return (
      ascend(mend.puts.map((put) => put.at)) &&
      mend.puts.every(({ at, point }) => {
        if (at < 1 || at >= points.length || samePoint(points[at - 1], point) || samePoint(points[at], point)) return false;
        points.splice(at, 0, point);
        return true;
      })
    );
  });
}

function fitsPieces(slice, record) {
  return record.mends.every((mend) => {
    const places = mend.pieces.map((piece) => piece.last);
    const last = slice.edges.get(mend.key).points.length + mend.puts.length - 1;
    return (
      places.length > 0 &&
      ascend([0, ...places]) &&
      places[places.length - 1] === last &&
      mend.pieces.every((piece) => piece.side === record.loser || piece.side === record.winner)
    );
  });
}

function fitsEnded(_slice, { loser, winner, ended }) {
  const between = (edge) => (edge.left === loser && edge.right === winner) || (edge.left === winner && edge.right === loser);
  return ascend(ended.map((edge) => edge.key)) && ended.every(between);
}

function fitsKeys(slice, record) {
  const gone = new Set(record.mends.map((mend) => mend.key));
  const come = [...record.mends.flatMap((mend) => mend.pieces), ...record.ended].map((it) => it.key);
  return new Set(come).size === come.length && come.every((key) => gone.has(key) || !slice.edges.has(key));
}

function fitsFacesIn(window, { loser, winner, made }) {
  return !window.faces.has(loser) && !window.faces.has(winner) && new Set([loser, winner, made, 0]).size === 4;
}

function fitsComes(window, { faces, comes }) {
  const numbers = faces.map(([face]) => face);
  return ascend(comes.map((edge) => edge.key)) && ascend(numbers) && numbers.every((face) => face !== 0 && !window.faces.has(face));
}
