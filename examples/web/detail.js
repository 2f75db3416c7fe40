// How much of a served map is asked for: the coarsest slice first, and then as much detail as the view can show, by packets of records; where little is seen of a large
// map, of the window that is shown.

import { clipped } from "./clients/js/replay.js";
import { pictureAtOnce, pictureOfSlice, pictureOfWindow } from "./clients/js/pictures.js";
import { boxOf, holdsBox, joinBoxes } from "./clients/js/places.js";
import { BEYOND, Showing, gridBox, sizeOf } from "./showing.js";

// Records are asked for so many at a time, so that a long way shows its progress.
const RECORDS_AT_ONCE = 500;
// Where the view shows less than this part of the map, and the way to its step is longer than one packet, a window is asked for.
const SMALL_PART = 0.05;
// A window is refined by records, where its way is not longer than so many steps: each of them has a line in the packet, and a new window has none.
const STEPS_OF_A_WINDOW = 4000;

/** Something that records refine, which are here by their steps: it can go to any step that they lead to. */
class Refining {
  constructor(refined, records = new Map()) {
    Object.assign(this, { refined, records });
  }

  get step() {
    return this.refined.step;
  }

  get edges() {
    return this.refined.edges;
  }

  /** The next step at which something else may be seen; null where no record is here. */
  get next() {
    let { step } = this;
    const changesNothing = (record) => record.mends.length + (record.comes?.length ?? 1) + (record.faces?.length ?? 0) === 0;
    while (this.records.has(step) && changesNothing(this.records.get(step))) step -= 1;
    return this.records.has(step) ? step - 1 : null;
  }

  goTo(step) {
    while (this.refined.step > step) this.refined.undo(this.records.get(this.refined.step));
  }
}

export class Detail extends Showing {
  /** Whether all is here that the view wants. */
  get complete() {
    if (this.outdated) return false;
    return this.view === null || this.finest <= this.wanted || (this.#windowIsLess() && this.#windowCovers() && this.#windowLeadsTo(this.wanted));
  }

  /** How far the way to the wanted step has been gone, from 0 to 1; null where one answer is waited for, whose length is not known. */
  get progress() {
    if (this.outdated || this.view === null || this.#windowIsLess()) return null;
    return (this.info.steps - this.finest) / Math.max(this.info.steps - this.wanted, 1);
  }

  /** All edges of a face of the picture. */
  async edgesOf(face) {
    const { picture } = this;
    return picture.area ? this.of(picture, this.client.edgesOf(face, picture.step, picture.edges)) : picture.edges;
  }

  /** Asks for the coarsest slice; what is shown changes only when it is there. */
  async load() {
    const info = await this.client.info();
    const coarsest = await this.of(info, this.client.refined(info.steps));
    const records = new Map();
    Object.assign(this, { info, coarsest, slice: new Refining(coarsest.copy(), records), records, finest: info.steps, window: null, whole: null });
    this.begin(boxOf(coarsest.edges.values()) ?? { x0: 0, y0: 0, x1: 1, y1: 1 });
  }

  ask() {
    return this.#windowIsLess() ? this.#askWindow() : this.#askPacket();
  }

  /** Asks for the next records towards the wanted step. */
  async #askPacket() {
    const to = Math.max(this.wanted, this.finest - RECORDS_AT_ONCE);
    const packet = await this.of(this.info, this.client.packet(this.finest, to));
    for (const record of packet.records) this.records.set(record.step, record);
    this.finest = to;
  }

  /** Asks for what leads from what is here to the window that the view wants, or where that is too far, for this window itself. */
  async #askWindow() {
    const { client, info, wanted } = this;
    const area = gridBox(this.view.box, BEYOND);
    const begun = this.#windowHere(area);
    if (begun && begun.step >= wanted && begun.step - wanted <= STEPS_OF_A_WINDOW) {
      const { records } = await this.of(info, client.windowPacket(begun.step, wanted, area));
      this.window = { area, finest: wanted, refining: new Refining(begun, new Map(records.map((record) => [record.step, record]))) };
    } else {
      const window = await this.of(info, client.refinedWindow(wanted, area));
      this.window = { area, finest: wanted, refining: new Refining(window) };
    }
    await this.#askCorner(wanted);
  }

  /** Where no border runs through the window in the end, it is asked in which face it lies. */
  async #askCorner(step) {
    const { window, info } = this;
    const end = clipped(window.refining.refined, window.area);
    new Refining(end, window.refining.records).goTo(step);
    window.end = await this.of(info, pictureOfWindow(end, info, (x, y) => this.client.faceAt(x, y, step)));
  }

  /** The window of an area at the step that is shown, or at a finer one, cut out of what is here; null where nothing here has it. */
  #windowHere(area) {
    const { window, slice, picture } = this;
    if (picture?.area && window && holdsBox(window.area, area)) return clipped(window.refining.refined, area);
    return picture && !picture.area ? clipped(slice.refined, area) : null;
  }

  /** How much of the map is seen, from 0 to 1. */
  #partSeen() {
    const [a, b] = [this.view.box, this.bounds];
    const wide = Math.min(a.x1, b.x1) - Math.max(a.x0, b.x0);
    const high = Math.min(a.y1, b.y1) - Math.max(a.y0, b.y0);
    return wide <= 0 || high <= 0 ? 0 : (wide * high) / sizeOf(b);
  }

  /** A window is less than the way to its step: little of the map is seen, and the way is long. */
  #windowIsLess() {
    return this.finest - this.wanted > RECORDS_AT_ONCE && this.#partSeen() < SMALL_PART;
  }

  #windowLeadsTo(step) {
    return this.window.finest <= step && step <= this.window.refining.step;
  }

  #windowCovers() {
    return this.window !== null && holdsBox(this.window.area, gridBox(this.view.box));
  }

  /** The best that is here and covers the view: the window where it is finer than the slice can be, and else the slice. */
  choose() {
    if (this.info === null || this.view === null) return;
    const step = Math.max(this.finest, this.wanted);
    const windowed = this.finest > this.wanted && this.#windowCovers() && this.window.finest < step;
    if (windowed) this.#chooseWindow();
    else this.#chooseSlice(step);
  }

  #chooseWindow() {
    const { refining, finest, end } = this.window;
    const to = Math.max(finest, Math.min(this.wanted, refining.step));
    this.#onward(refining, to, () => (refining.step === finest ? end : pictureAtOnce(refining.refined, this.info)));
  }

  #chooseSlice(step) {
    if (step > this.slice.step) {
      this.slice = new Refining(this.coarsest.copy(), this.records);
      this.slice.goTo(step);
    }
    this.#onward(this.slice, step, () => this.#pictureOfSlice());
  }

  /** Shows something, and takes it to a finer step piece by piece. It begins where what was shown has ended, if it can. */
  #onward(refining, step, draw) {
    if (this.way?.refined === refining && this.way.step === step) return;
    this.leave();
    if (this.shown !== refining) refining.goTo(Math.max(step, Math.min(refining.step, this.picture?.step ?? 0)));
    this.shown = refining;
    this.show(draw());
    this.goBy(refining, step, draw);
  }

  #pictureOfSlice() {
    const { slice } = this;
    if (this.whole?.step === slice.step) return this.whole;
    this.whole = pictureOfSlice(slice.refined, this.info);
    // A finer slice may reach farther than a coarse one.
    this.bounds = joinBoxes(this.bounds, this.whole.box);
    return this.whole;
  }
}
