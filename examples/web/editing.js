// Editing: the map is shown at full detail with the edits that were made on it, which are nobody else's until they are published.

import { Draft, knowsCuts } from "./clients/js/draft.js";
import { pictureAtOnce } from "./clients/js/pictures.js";
import { holdsBox } from "./clients/js/places.js";
import { touches } from "./clients/js/replay.js";
import { segmentsOf } from "./clients/js/sides.js";
import { Marks } from "./marks.js";
import { Pointing } from "./pointing.js";
import { BEYOND, gridBox } from "./showing.js";
import { Toolbar } from "./toolbar.js";
import { Classes, Join, Points, Split } from "./tools.js";
import { wordsOfFault, wordsOfStep } from "./words.js";

const NEWER_TOOLS = ["split", "join"];
// Where more points would be seen, the reader has to come nearer: each step would take long to draw, and he could tell no vertex from another.
const MOST_POINTS = 5000;

export class Editing {
  /**
   * `client`, `sheet`, `panel` and `known` are those of the page, which is `told`: what is `published`, of how many steps; what `refused` that; what `failed` to be read;
   * that editing has `ended`; and that it `renews` what it shows to the newest version. `told.coarse` gives its own picture, for a view that shows too much.
   */
  constructor({ client, sheet, panel, known }, told) {
    Object.assign(this, { client, sheet, panel, known, told, draft: null, isBusy: false, isFar: false, knowsCuts: null });
    this.map = sheet.map;
    this.marks = new Marks(this.map);
    this.tools = [Points, Classes, Split, Join].map((Kind) => new Kind(this));
    this.pointing = new Pointing(this.map, this.#pointed());
    this.toolbar = new Toolbar({
      takes: (name) => this.take(name),
      undoes: () => this.undo(),
      redoes: () => this.redo(),
      removes: () => this.tool.remove?.(),
      publishes: () => this.publish(),
      closes: () => this.close(),
    });
    document.addEventListener("keydown", (event) => this.#key(event));
    window.addEventListener("beforeunload", (event) => this.isChanged && event.preventDefault());
  }

  get isOn() {
    return this.draft !== null;
  }

  /** Whether there are edits that are not published. */
  get isChanged() {
    return this.draft?.canUndo ?? false;
  }

  /** The class that the reader has chosen. */
  get ofClass() {
    return this.toolbar.ofClass;
  }

  nameOf(face) {
    if (face === 0) return "The outside";
    return `Area ${face} (${this.known.nameOfClass(this.draft.faces.get(face))})`;
  }

  /** What the tools are told of the reader's pointing. */
  #pointed() {
    const whenFree = (name) => (...words) => (this.isBusy || this.isFar ? false : this.tool[name](...words));
    const free = Object.fromEntries(["takes", "drags", "drops", "taps", "keys", "hovers", "presses"].map((name) => [name, whenFree(name)]));
    return { ...free, letsGo: () => this.tool.letsGo() };
  }

  /** Asks for the map at full detail, and begins. */
  async open() {
    this.tool = this.tools[0];
    await this.#busy("The map is asked for at full detail.", async () => this.#begin(await this.#newest()), this.told.failed);
  }

  #newest() {
    const count = this.known.classes.length;
    return Draft.of(this.client, count > 0 ? { classes: count } : {});
  }

  /** Works while nothing can be edited; an error is told. */
  async #busy(words, work, failed) {
    if (this.isBusy) return;
    this.isBusy = true;
    this.tell(words);
    this.toolbar.tell(this);
    try {
      await work();
    } catch (error) {
      failed(error);
    } finally {
      this.isBusy = false;
      this.toolbar.tell(this);
      if (this.isOn) this.tellTool();
    }
  }

  /** Edits a draft from here on. */
  #begin(draft) {
    this.draft = draft;
    // Where the draft has edits already, they were carried over.
    this.before = null;
    this.toolbar.open(this.#classes(), this.known);
    this.pointing.turn(true);
    document.body.classList.add("editing");
    this.#changed();
  }

  /** The numbers of the classes that a face may have. */
  #classes() {
    const count = this.known.classes.length || 1 + Math.max(0, ...this.draft.faces.values());
    return Array.from({ length: count }, (_, number) => number);
  }

  /** Takes a tool up. */
  take(name) {
    this.pointing.giveUp();
    this.tool.leave();
    this.tool = this.tools.find((it) => it.name === name);
    this.tellTool();
    this.toolbar.tell(this);
    if (NEWER_TOOLS.includes(name)) this.#askForCuts();
  }

  /** An older server neither splits nor joins: that is told before the reader has drawn anything. */
  async #askForCuts() {
    try {
      this.knowsCuts ??= await knowsCuts(this.client);
    } catch {
      // It is told when the edits are published.
      return;
    }
    if (!this.knowsCuts && NEWER_TOOLS.includes(this.tool?.name)) {
      this.panel.complain("tool", "The server is older than this page: it neither splits areas nor joins them. All other edits can be made.");
      this.take("points");
    }
  }

  /** Makes a step by some work on the draft; whether it was not refused. */
  makes(work) {
    try {
      work();
    } catch (error) {
      if (error.name !== "EditFault") throw error;
      this.panel.complain("tool", wordsOfFault(error));
      this.#changed();
      return false;
    }
    this.panel.settle("tool");
    this.panel.settle("edit");
    this.#changed();
    return true;
  }

  undo() {
    if (!this.isBusy && this.draft.undo()) this.#again();
  }

  redo() {
    if (!this.isBusy && this.draft.redo()) this.#again();
  }

  #again() {
    this.panel.settle("tool");
    this.panel.settle("edit");
    this.#changed();
  }

  #key(event) {
    if (!this.isOn || !(event.ctrlKey || event.metaKey) || event.altKey) return;
    const key = event.key.toLowerCase();
    const isRedo = key === "y" || (key === "z" && event.shiftKey);
    if (!isRedo && key !== "z") return;
    event.preventDefault();
    if (isRedo) this.redo();
    else this.undo();
  }

  /** The draft has changed: it is drawn, and what it has is told. */
  #changed() {
    this.marks.clear("wrong");
    this.refused = null;
    this.draw();
    if (!this.isFar) this.tool.show();
    this.#tellSteps();
  }

  #tellSteps() {
    this.toolbar.tell(this);
    this.panel.tellSteps(this.draft.steps.map(({ edits }) => wordsOfStep(edits, this.known)), this.refused);
    this.panel.tellDraft(this.draft);
  }

  /** Draws the draft as far as it is seen. */
  draw() {
    const seen = this.sheet.box;
    const area = gridBox(seen, BEYOND);
    const edges = new Map([...this.draft.edges].filter(([, { points }]) => touches(area, points)));
    this.area = area;
    this.seen = [...edges.values()];
    this.#goFar(this.seen.reduce((sum, { points }) => sum + points.length, 0) > MOST_POINTS);
    if (this.isFar) return;
    const face = this.draft.faceAt(area.x0 + 1, area.y1 - 1);
    const window = { step: 0, area, faces: this.draft.faces, edges };
    this.sheet.show(pictureAtOnce(window, this.draft, { face, ofClass: this.draft.faces.get(face) ?? null }));
    this.marks.vertices(this.seen, gridBox(seen));
    this.marks.lines("changed", this.#changedSegments());
  }

  /** From afar the page's own picture is shown, without the edits. */
  #goFar(isFar) {
    const hasChanged = this.isFar !== isFar;
    this.isFar = isFar;
    if (isFar) {
      this.pointing.giveUp();
      this.marks.clear();
      this.told.coarse();
    }
    if (hasChanged) this.tellTool();
  }

  /** The segments that the map does not have without the edits. */
  #changedSegments() {
    this.before ??= this.#withoutEdits();
    const [before, after] = [this.before, this.draft.edges];
    const nameOf = (segment) => segment.map(String).sort().join();
    const gone = [...before.values()].filter((edge) => after.get(edge.key) !== edge);
    const were = new Set(gone.flatMap(({ points }) => segmentsOf(points)).map(nameOf));
    const changed = this.seen.filter((edge) => before.get(edge.key) !== edge);
    return changed.flatMap(({ points }) => segmentsOf(points)).filter((segment) => !were.has(nameOf(segment)));
  }

  /** The edges of the draft as they were before its first step. */
  #withoutEdits() {
    const steps = this.draft.steps.length;
    while (this.draft.undo());
    const edges = new Map(this.draft.edges);
    for (let i = 0; i < steps; i++) this.draft.redo();
    return edges;
  }

  /** The view has moved. */
  look() {
    if (!this.isOn) return;
    if (this.isFar || !holdsBox(this.area, gridBox(this.sheet.box))) this.draw();
    else this.marks.vertices(this.seen, gridBox(this.sheet.box));
  }

  /** A sentence on what to do. */
  tell(words) {
    this.toolbar.hint(words);
  }

  tellTool() {
    if (this.isOn && !this.isBusy) this.tell(this.isFar ? "Come nearer to edit: from here there are too many vertices to tell one from another." : this.tool.hint);
    this.toolbar.tell(this);
  }

  /** What lies under the cross, or next to the pointer. */
  tellPlace(words) {
    this.toolbar.place(words ?? "");
  }

  /** Publishes the edits. */
  async publish() {
    if (!this.isChanged) return;
    const count = this.draft.steps.length;
    await this.#busy("The edits are on their way.", async () => {
      const told = await this.draft.publish(this.client);
      this.told.published(told, count);
      // What is there now is asked for anew: another editor may have come between.
      this.#begin(await this.#newest());
    }, this.told.refused);
  }

  /** The edits were refused: the step is marked, and the place. */
  mark({ step, place }) {
    this.refused = step;
    this.#tellSteps();
    this.marks.points("wrong", place ? [place] : []);
    if (place) this.map.panInside([place[1], place[0]], { padding: [60, 60], animate: false });
  }

  /** Whether the map has another version than the one that is edited. */
  isOutdated({ version, history }) {
    return this.isOn && (version !== this.draft.version || history !== this.draft.history);
  }

  /** Goes on with the newest version: with all edits that still apply, or with none. */
  async goOn(withEdits) {
    // The server may have been started anew, and be another one.
    this.knowsCuts = null;
    await this.#busy("The newest version is asked for.", async () => {
      await this.told.renews();
      const { draft, left } = withEdits ? this.draft.carryTo(await this.#newest()) : { draft: await this.#newest(), left: [] };
      this.#begin(draft);
      if (withEdits) this.#tellCarried(draft.steps.length, left);
    }, this.told.failed);
  }

  #tellCarried(count, left) {
    const whole = `${count} of ${count + left.length} steps ${count === 1 ? "is" : "are"} made again on version ${this.draft.version}. Look at the map, and publish.`;
    const lost = left.map(({ edits, reason }) => ` Left out: ${wordsOfStep(edits, this.known)} (${reason.message}).`).join("");
    if (lost) this.panel.complain("edit", whole + lost);
    else this.panel.note("edit", whole);
  }

  /** Ends editing; where edits would be lost, the reader is asked. */
  close() {
    if (this.isBusy) return;
    if (!this.isChanged) return this.end();
    this.panel.settle("tool");
    const count = this.draft.steps.length;
    this.panel.note("close", `${count === 1 ? "One step is" : `${count} steps are`} not published.`, true, [["Discard", () => this.end()]]);
  }

  end() {
    if (this.isChanged) this.panel.settle("edit");
    this.tool.leave();
    this.draft = null;
    this.isFar = false;
    this.marks.clear();
    this.pointing.turn(false);
    this.toolbar.close();
    document.body.classList.remove("editing");
    for (const cause of ["close", "tool"]) this.panel.settle(cause);
    this.panel.tellSteps(null);
    this.told.ended();
  }
}
