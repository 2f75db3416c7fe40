// The cells of an archive, and what is put together of them: a cell leads from the window that its parent ends with, cut to its area, to a finer one of its own.

import { BadArchive } from "./archive_file.js";
import { faceWithin } from "./pictures.js";
import { atOnce, inPieces } from "./pieces.js";
import { RefinedWindow, Unfit, clipped, touches } from "./replay.js";

/** Whether two boxes overlap or touch. */
export const meet = (a, b) => a.x0 <= b.x1 && a.x1 >= b.x0 && a.y0 <= b.y1 && a.y1 >= b.y0;

/** The four parts of an area, in the order in which the children of a cell stand. */
function quarters({ x0, y0, x1, y1 }) {
  const [xm, ym] = [Math.floor((x0 + x1) / 2), Math.floor((y0 + y1) / 2)];
  return [{ x0, y0, x1: xm, y1: ym }, { x0: xm, y0, x1, y1: ym }, { x0, y0: ym, x1: xm, y1 }, { x0: xm, y0: ym, x1, y1 }];
}

/** Says where each cell lies and from which step it leads, and that the list is one of cells. */
function place(index) {
  const { cells, bounds, steps } = index;
  if (cells.length === 0) throw new BadArchive("the index of the archive has no cell");
  Object.assign(cells[0], { from: steps, area: bounds, isPlaced: true });
  let next = 1;
  for (const cell of cells) {
    const hasChildren = cell.child !== 0;
    if (!cell.isPlaced || cell.to > cell.from || hasChildren !== (cell.to !== 0) || (hasChildren && cell.child !== next)) {
      throw new BadArchive(`cell ${cell.number} of the archive's index does not fit the cells before it`);
    }
    if (!hasChildren) continue;
    for (const area of quarters(cell.area)) {
      if (next < cells.length) Object.assign(cells[next], { from: cell.to, area, parent: cell, isPlaced: true });
      next += 1;
    }
  }
  if (next !== cells.length) throw new BadArchive(`the archive's index has ${cells.length} cells in place of ${next}`);
}

/** Keeps what was used last. */
class Recent {
  #values = new Map();

  constructor(most) {
    this.most = most;
  }

  get(key) {
    const value = this.#values.get(key);
    if (value !== undefined) this.set(key, value);
    return value;
  }

  set(key, value) {
    this.#values.delete(key);
    this.#values.set(key, value);
    if (this.#values.size > this.most) this.#values.delete(this.#values.keys().next().value);
  }
}

// So many cells are kept as records, and the last windows of so many.
const PARSED = 96;
const LASTS = 64;

/** The cells of one archive, of which the texts are read as they are wanted. */
export class Cells {
  #read;
  #slice;
  #parsed = new Recent(PARSED);
  #lasts = new Recent(LASTS);

  /** `read` reads the texts of cells, and gives each on as `readCell` has it; `slice` is the coarsest one. */
  constructor(index, slice, read) {
    place(index);
    this.#read = read;
    this.#slice = slice;
    Object.assign(this, { all: index.cells, bounds: index.bounds, steps: index.steps });
  }

  /** The cells whose records lead to the windows in an area at a step, each behind its parent. */
  needed(area, step) {
    const found = [];
    const visit = (cell) => {
      if (cell.from <= step || !meet(cell.area, area)) return;
      found.push(cell);
      this.childrenOf(cell).forEach(visit);
    };
    visit(this.all[0]);
    return found;
  }

  /** The cells whose windows at a step show what there is in an area. */
  showing(area, step) {
    const found = [];
    const visit = (cell) => {
      if (!meet(cell.area, area)) return;
      if (step >= cell.to) found.push(cell);
      else this.childrenOf(cell).forEach(visit);
    };
    visit(this.all[0]);
    return found;
  }

  childrenOf({ child }) {
    return child === 0 ? [] : this.all.slice(child, child + 4);
  }

  /** The records of the cells that lead to an area at a step, by cell. */
  async load(area, step, signal) {
    const needed = this.needed(area, step);
    const found = new Map(needed.map((cell) => [cell, this.#parsed.get(cell)]));
    const missing = needed.filter((cell) => found.get(cell) === undefined);
    await this.#read(missing, signal, (cell, text) => {
      this.#mustBeOf(cell, text);
      found.set(cell, text);
      this.#parsed.set(cell, text);
    });
    return found;
  }

  #mustBeOf(cell, { from, to, area }) {
    const isIts = from === cell.from && to === cell.to && ["x0", "y0", "x1", "y1"].every((end) => area[end] === cell.area[end]);
    if (!isIts) throw new BadArchive(`cell ${cell.number} of the archive is that of another place`);
  }

  /** The window that a cell begins with. `records` has those of its parents. */
  *#first(cell, records) {
    if (!cell.parent) return new RefinedWindow({ ...this.#slice, area: this.bounds });
    return clipped(yield* this.last(cell.parent, records), cell.area);
  }

  /** The window of a cell at a step, by its records and those of its parents: in pieces, as what follows. */
  *at(cell, step, records) {
    const window = yield* this.#first(cell, records);
    yield;
    if (step < cell.from) yield* advance(window, records.get(cell), step);
    return window;
  }

  /** The window that a cell ends with, which is not to be changed. */
  *last(cell, records) {
    const known = this.#lasts.get(cell);
    if (known) return known;
    const window = yield* this.at(cell, cell.to, records);
    this.#lasts.set(cell, window);
    return window;
  }

  /** The windows of the cells that show an area at a step, by cell. */
  *live(area, step, records) {
    const live = new Map();
    for (const cell of this.showing(area, step)) live.set(cell, yield* this.at(cell, step, records));
    return live;
  }
}

/** Takes the window of a cell to a finer step, by the records of the cell above that; a record is a piece. */
function* advance(window, { records }, step) {
  try {
    // They stand by descending step, and those above the window's have been undone.
    let at = firstUpTo(records, window.step);
    for (; at < records.length && records[at].step > step; at++) {
      window.step = records[at].step;
      window.undo(records[at]);
      yield;
    }
    window.step = step;
  } catch (error) {
    if (!(error instanceof Unfit)) throw error;
    throw new BadArchive(`a record of the archive does not fit: ${error.message}`);
  }
}

/** The place of the first record whose step is not above a step. */
function firstUpTo(records, step) {
  let [low, high] = [0, records.length];
  while (low < high) {
    const middle = (low + high) >> 1;
    if (records[middle].step > step) low = middle + 1;
    else high = middle;
  }
  return low;
}

/**
 * What an area shows at a step: the very window that the server of maps would give. It goes to finer steps by the records of its cells, one after the other, as far
 * as these were loaded for it.
 */
export class View {
  #cells;
  #records = new Map();
  #live = new Map();
  #shown = null;

  /** `live` has the windows of the cells that show the area at the step. */
  constructor(cells, area, step, records, live) {
    this.#cells = cells;
    this.area = { ...area };
    this.step = step;
    /** The finest step that it can go to without another request. */
    this.finest = step;
    this.#live = live;
    this.add(records, step);
  }

  /** What an area shows at a step, by the records that lead there. It is put together piece by piece, and frames can be drawn between. */
  static async of(cells, area, step, records) {
    return new View(cells, area, step, records, await inPieces(cells.live(area, step, records)));
  }

  /** What a smaller area within its own shows at its step. */
  cut(area) {
    const live = [...this.#live].filter(([cell]) => meet(cell.area, area)).map(([cell, window]) => [cell, window.copy()]);
    return new View(this.#cells, area, this.step, this.#records, new Map(live));
  }

  /** Whether it was put together of these cells. */
  isOf(cells) {
    return this.#cells === cells;
  }

  /** More records, which lead to a finer step. */
  add(records, step) {
    for (const [cell, text] of records) this.#records.set(cell, text);
    this.finest = Math.min(this.finest, step);
  }

  /** Goes to a finer step, whose records are here. */
  goTo(step) {
    if (step > this.step || step < this.finest) throw new RangeError(`step ${step} is not between ${this.step} and ${this.finest}`);
    if (step === this.step) return;
    const live = new Map();
    for (const [cell, window] of this.#live) this.#onward(cell, window, step, live);
    this.#live = live;
    this.step = step;
    this.#shown = null;
  }

  /** Where a cell ends before the step, its children that meet the area go on from it. */
  #onward(cell, window, step, live) {
    const last = Math.max(step, cell.to);
    if (last < window.step) atOnce(advance(window, this.#records.get(cell), last));
    if (step >= cell.to) return live.set(cell, window);
    for (const child of this.#cells.childrenOf(cell).filter((it) => meet(it.area, this.area))) {
      this.#onward(child, clipped(window, child.area), step, live);
    }
    return live;
  }

  /** The next finer step at which something else may be seen; null at the finest step that it can go to. */
  get next() {
    if (this.step === this.finest) return null;
    let next = this.finest;
    for (const cell of this.#live.keys()) {
      if (cell.to === this.step) return this.step - 1;
      const { records } = this.#records.get(cell);
      const record = records[firstUpTo(records, this.step)];
      next = Math.max(next, record ? record.step - 1 : cell.to);
    }
    return next;
  }

  /** The rows of the faces beside its edges, class by number. */
  get faces() {
    return this.#whole().faces;
  }

  /** Its edges by key, each once. */
  get edges() {
    return this.#whole().edges;
  }

  #whole() {
    if (this.#shown) return this.#shown;
    const [faces, edges] = [new Map(), new Map()];
    for (const window of this.#live.values()) {
      for (const [key, edge] of window.edges) {
        if (edges.has(key) || !touches(this.area, edge.points)) continue;
        edges.set(key, edge);
        for (const face of [edge.left, edge.right]) if (face !== 0) faces.set(face, window.faces.get(face));
      }
    }
    this.#shown = { faces, edges };
    return this.#shown;
  }

  /** The face at a place and its class, where the cell that the place lies in tells it; null where only its neighbours do. */
  faceAt(x, y) {
    for (const [cell, window] of this.#live) {
      const inside = this.#records.get(cell)?.inside ?? [];
      const corner = inside.findLast(({ step }) => step >= this.step) ?? null;
      const face = faceWithin(window, x, y, corner?.face ?? null);
      if (face !== null) return { face, ofClass: window.faces.get(face) ?? (face === corner?.face ? corner.ofClass : null) };
    }
    return null;
  }
}
