// The tools with which a map is edited. Each is told where the reader points (pointing.js), and makes steps of the draft.

import { EditFault } from "./clients/js/errors.js";
import { crossesBorder, gridPoint, onScreen, segmentNear, vertexNear } from "./near.js";

// The cause of a line that meets a border on its way, and that of one that does not lead into a face.
const CROSSES = 10;
const LEADS_ELSEWHERE = 9;

const same = (p, q) => String(p) === String(q);

class Tool {
  /** `editing` has the `draft`, the `map`, and the `marks`; it `makes` a step, which may be refused. */
  constructor(editing) {
    this.editing = editing;
  }

  get draft() {
    return this.editing.draft;
  }

  get map() {
    return this.editing.map;
  }

  get marks() {
    return this.editing.marks;
  }

  /** What may be near to the reader's place. */
  vertexAt(place, reach) {
    return vertexNear(this.map, this.editing.seen, place, reach);
  }

  segmentAt(place, reach) {
    return segmentNear(this.map, this.editing.seen, place, reach);
  }

  faceAt(place) {
    const { lng, lat } = this.map.containerPointToLatLng(place);
    return this.draft.faceAt(lng, lat);
  }

  takes() {
    return false;
  }

  drags() {}

  drops() {}

  letsGo() {}

  hovers() {}

  /** Enter or the space bar at the place of the cross. */
  keys(place, reach) {
    this.taps(place, reach);
  }

  presses() {
    return false;
  }

  /** What is begun is given up: another tool is taken, or the draft has changed. */
  leave() {
    this.marks.clear("held", "chosen", "line");
  }
}

/** Moves vertices by dragging them, adds one where a border is tapped, and removes the one that is chosen. */
export class Points extends Tool {
  name = "points";
  hint = "Drag a vertex to move it, tap a border to add one, tap a vertex to choose it.";
  chosen = null;
  // A vertex that is dragged, or a place on a border where one is to be; and whether the keys have taken it up.
  taken = null;
  isByKeys = false;

  #at(place, reach) {
    const vertex = this.vertexAt(place, reach);
    return vertex ? { vertex } : this.segmentAt(place, reach);
  }

  #choose(vertex) {
    this.chosen = vertex;
    this.marks.points("held", vertex ? [vertex] : []);
    this.editing.tellTool();
  }

  /** With a finger a border is only tapped: it would hardly find a place where it can move the map. */
  takes(place, reach, isFinger) {
    const found = this.#at(place, reach);
    this.taken = found?.vertex || !isFinger ? found : null;
    // A vertex goes as far as the pointer does, wherever that has taken it.
    this.beside = found?.vertex ? onScreen(this.map, found.vertex).subtract(place) : [0, 0];
    return this.taken !== null;
  }

  #goal(place) {
    return gridPoint(this.map, place.add(this.beside));
  }

  drags(place) {
    const to = this.#goal(place);
    this.marks.points("held", [to]);
    this.marks.lines("line", this.#linesTo(to));
  }

  /** The segments beside the vertex that is taken, as they would be. */
  #linesTo(to) {
    const { vertex, ends } = this.taken;
    if (ends) return [[ends[0], to, ends[1]]];
    return this.draft.edgesAt(vertex).flatMap(({ points }) => points.slice(1).flatMap((q, i) => {
      const p = points[i];
      return same(p, vertex) ? [[to, q]] : same(q, vertex) ? [[p, to]] : [];
    }));
  }

  drops(place) {
    const [{ vertex, ends }, to] = [this.taken, this.#goal(place)];
    this.letsGo();
    if (vertex && same(vertex, to)) return;
    if (this.editing.makes(() => (vertex ? this.draft.move(vertex, to) : this.draft.add(ends, to)))) this.#choose(to);
  }

  letsGo() {
    this.taken = null;
    this.isByKeys = false;
    this.marks.clear("held", "line");
  }

  taps(place, reach) {
    const found = this.#at(place, reach);
    this.letsGo();
    if (!found) return this.#choose(null);
    if (found.vertex) this.#choose(found.vertex);
    else if (this.editing.makes(() => this.draft.add(found.ends, found.point))) this.#choose(found.point);
  }

  /** The keys take a vertex up, and put it down. */
  keys(place, reach) {
    if (this.isByKeys) return this.drops(place);
    if (!this.takes(place, reach)) return this.taps(place, reach);
    this.isByKeys = true;
    this.drags(place);
    this.editing.tell("Move the vertex by the arrow keys. Enter puts it down, Escape leaves it where it was.");
  }

  hovers(place, reach) {
    if (this.isByKeys) return this.drags(place);
    const found = this.#at(place, reach);
    this.marks.points("held", [...(found ? [found.vertex ?? found.point] : []), ...(this.chosen ? [this.chosen] : [])]);
    this.editing.tellPlace(found ? (found.vertex ? "a vertex" : "a border") : null);
  }

  presses(key) {
    if (key === "Escape" && (this.isByKeys || this.chosen)) {
      this.letsGo();
      this.#choose(null);
      return true;
    }
    if (key !== "Delete" && key !== "Backspace") return false;
    this.remove();
    return true;
  }

  /** Takes the chosen vertex out. */
  remove() {
    const { chosen } = this;
    if (chosen && this.editing.makes(() => this.draft.drop(chosen))) this.#choose(null);
  }

  show() {
    this.#choose(this.chosen && this.draft.hasPoint(this.chosen) ? this.chosen : null);
  }

  leave() {
    super.leave();
    this.letsGo();
    this.#choose(null);
  }
}

/** Gives faces a class. */
export class Classes extends Tool {
  name = "classes";
  hint = "Choose a class, and tap the areas that are to have it.";

  taps(place) {
    const face = this.faceAt(place);
    if (face === 0) return this.editing.tell("There is no area at this place.");
    const { ofClass } = this.editing;
    if (this.draft.faces.get(face) !== ofClass) this.editing.makes(() => this.draft.setClass(face, ofClass));
  }

  hovers(place, _reach, byKeys) {
    if (byKeys) this.editing.tellPlace(this.editing.nameOf(this.faceAt(place)));
  }

  show() {}
}

/** Splits a face along a line that is drawn from one place of its border to another. */
export class Split extends Tool {
  name = "split";
  hint = "Draw a line across an area: drag from border to border, or tap along the way.";
  line = [];
  // Vertices that are to be put on borders for the ends of the line.
  adds = [];
  // Whether the line was begun by the press that is held.
  isNew = false;

  /** The place of a border next to a place of the screen: a vertex, where one is very near. */
  #border(place, reach) {
    const vertex = this.vertexAt(place, reach / 2);
    if (vertex) return { point: vertex };
    const found = this.segmentAt(place, reach);
    // A place that is next to a vertex on the grid is that vertex.
    return found && this.draft.hasPoint(found.point) ? { point: found.point } : found;
  }

  #put({ point, ends }) {
    this.line.push(point);
    if (ends) this.adds.push({ ends: this.#endsNow(ends, point), point });
    this.#draw();
  }

  /** The segment that a vertex is put on: where the line begins on the same one, that has two parts by then. */
  #endsNow([p, q], point) {
    const [first] = this.adds;
    if (!first || !same(first.ends, [p, q])) return [p, q];
    const far = (a, b) => Math.hypot(a[0] - b[0], a[1] - b[1]);
    return far(p, point) < far(p, first.point) ? [p, first.point] : [first.point, q];
  }

  #draw(...more) {
    this.marks.lines("line", this.line.length + more.length > 1 ? [[...this.line, ...more]] : []);
    this.marks.points("held", [...this.line, ...more].slice(0, 1));
  }

  takes(place, reach) {
    const begin = this.line.length === 0 ? this.#border(place, reach) : null;
    this.isNew = begin !== null;
    if (begin) this.#put(begin);
    return this.isNew;
  }

  drags(place) {
    this.#draw(gridPoint(this.map, place));
  }

  drops(place, reach) {
    this.#goOn(place, reach);
  }

  letsGo() {
    if (this.isNew) this.#forget();
  }

  taps(place, reach) {
    if (this.isNew) {
      this.isNew = false;
      return this.editing.tell("Tap the border where the line ends, or a place where it turns. Escape gives it up.");
    }
    if (this.line.length === 0 && !this.takes(place, reach)) return this.editing.tell("A line begins on a border: tap one.");
    if (this.isNew) return this.taps(place, reach);
    return this.#goOn(place, reach);
  }

  /** The next point of the line; on a border it is the last. */
  #goOn(place, reach) {
    this.isNew = false;
    const border = this.#border(place, reach);
    if (border && same(border.point, this.line[0])) return this.#draw();
    if (!border) return this.#put({ point: gridPoint(this.map, place) });
    this.#put(border);
    const { line, adds } = this;
    this.#forget();
    return this.editing.makes(() => this.#cut(line, adds));
  }

  /** Cuts the face into which the line leads: one of those beside its beginning. What crosses a border would be refused when it is published. */
  #cut(line, adds) {
    if (crossesBorder(this.draft.edges.values(), line, adds)) throw new EditFault(CROSSES);
    const [first] = adds.filter(({ point }) => same(point, line[0]));
    const beside = this.draft.edgesAt(first ? first.ends[0] : line[0]).flatMap(({ left, right }) => [left, right]);
    let fault = null;
    for (const face of [...new Set(beside)].filter((it) => it !== 0)) {
      try {
        return this.draft.cut(face, this.draft.faces.get(face), line, adds);
      } catch (error) {
        // The line leads into another one, or says more of this one.
        if (fault === null || error.cause !== LEADS_ELSEWHERE) fault = error;
      }
    }
    throw fault;
  }

  hovers(place, reach, byKeys) {
    if (this.line.length > 0) this.#draw((this.#border(place, reach) ?? { point: gridPoint(this.map, place) }).point);
    else this.marks.points("held", [this.#border(place, reach)?.point].filter(Boolean));
    if (byKeys) this.editing.tellPlace(this.#border(place, reach) ? "a border" : this.editing.nameOf(this.faceAt(place)));
  }

  presses(key) {
    if (this.line.length === 0 || !["Escape", "Backspace"].includes(key)) return false;
    if (key === "Backspace" && this.line.length > 1) {
      this.line.pop();
      this.#draw();
    } else {
      this.#forget();
    }
    return true;
  }

  #forget() {
    Object.assign(this, { line: [], adds: [], isNew: false });
    this.marks.clear("line", "held");
    this.editing.tellTool();
  }

  show() {
    // What the line was begun on may have changed.
    if (this.line.length > 0) this.#forget();
  }

  leave() {
    super.leave();
    this.#forget();
  }
}

/** Joins a face to another one. */
export class Join extends Tool {
  name = "join";
  hint = "Tap the area that stays, and then a neighbour that becomes part of it.";
  first = 0;

  taps(place) {
    const face = this.faceAt(place);
    if (face === 0) return this.editing.tell("There is no area at this place.");
    if (this.first === 0) return this.#choose(face);
    const { first } = this;
    this.#choose(0);
    if (first !== face) this.editing.makes(() => this.draft.fuse(first, face));
  }

  #choose(face) {
    this.first = face;
    this.marks.lines("chosen", face === 0 ? [] : this.draft.edgesBeside(face).map(({ points }) => points));
    if (face === 0) this.editing.tellTool();
    else this.editing.tell(`${this.editing.nameOf(face)} stays. Tap the neighbour that becomes part of it; Escape gives it up.`);
  }

  hovers(place, _reach, byKeys) {
    if (byKeys) this.editing.tellPlace(this.editing.nameOf(this.faceAt(place)));
  }

  presses(key) {
    if (key !== "Escape" || this.first === 0) return false;
    this.#choose(0);
    return true;
  }

  show() {
    this.#choose(0);
  }

  leave() {
    super.leave();
    this.#choose(0);
  }
}
