// How much of an archive is read: at any time the cells that the view shows at its step. What is shown goes on to finer steps by their records.

import { pictureAtOnce } from "./clients/js/pictures.js";
import { holdsBox } from "./clients/js/places.js";
import { BEYOND, Showing, gridBox, sizeOf } from "./showing.js";

// What is shown is cut to the view where it is so many times as large.
const LARGE = 6;

export class ArchiveDetail extends Showing {
  /** Whether all is here that the view wants. */
  get complete() {
    if (this.outdated) return false;
    return this.view === null || (this.#covers(this.seen) && this.seen.finest <= this.wanted && this.wanted <= this.seen.step && !this.#isLarge());
  }

  get progress() {
    return null;
  }

  edgesOf(face) {
    const { picture } = this;
    return this.of(picture, this.client.edgesOf(face, picture.step, picture.edges));
  }

  async load() {
    const info = await this.client.info();
    Object.assign(this, { info, seen: null });
    this.begin(info.bounds);
  }

  #covers(seen) {
    return seen !== null && holdsBox(seen.area, gridBox(this.view.box));
  }

  /** Whether much more is held than the view shows, so that going on with all of it would be a waste. */
  #isLarge() {
    return this.seen.step > this.wanted && sizeOf(this.seen.area) > LARGE * sizeOf(this.view.box);
  }

  /** Asks for the cells that the view shows: on from what is shown, where that covers it and is coarser. */
  async ask() {
    const { client, wanted } = this;
    const area = gridBox(this.view.box, BEYOND);
    if (this.#covers(this.seen) && this.seen.step > wanted) {
      const seen = this.#isLarge() && holdsBox(this.seen.area, area) ? this.seen.cut(area) : this.seen;
      await this.#of(client.load(seen, wanted));
      this.seen = seen;
    } else {
      this.seen = await this.#of(client.view(area, wanted));
    }
    await this.#askCorner();
  }

  #of(asked) {
    return this.of(this.info, asked);
  }

  /** Where no border runs through what is shown, and its own cells do not tell in which face it lies, this is asked. */
  async #askCorner() {
    const { seen } = this;
    if (this.#draw(seen) === null) this.corner = { seen, found: await this.#of(this.client.faceAt(...cornerOf(seen), seen.step)) };
  }

  #draw(seen) {
    return pictureAtOnce(seen, this.info) ?? pictureAtOnce(seen, this.info, this.#atCorner(seen));
  }

  /** The face in the corner of what is shown, as far as it is known without asking. */
  #atCorner(seen) {
    const asked = this.corner?.seen === seen ? this.corner.found : null;
    return this.#outside(...cornerOf(seen)) ?? seen.faceAt(...cornerOf(seen)) ?? asked;
  }

  /** What is outside the bounds of the map is in face 0. */
  #outside(x, y) {
    const { x0, y0, x1, y1 } = this.info.bounds;
    return x < x0 || x > x1 || y < y0 || y > y1 ? { face: 0, ofClass: null } : null;
  }

  /** The view of the archive that is here, if it covers what is seen; else what was shown stays. */
  choose() {
    if (this.info === null || this.view === null || !this.#covers(this.seen)) return;
    const { seen } = this;
    const to = Math.max(seen.finest, Math.min(this.wanted, seen.step));
    if (this.way?.refined === seen && this.way.step === to) return;
    this.leave();
    const isShown = this.picture !== null && this.picture.step === seen.step && this.shown === seen;
    this.shown = seen;
    if (!isShown) this.show(this.#draw(seen));
    this.goBy(seen, to, () => this.#draw(seen));
  }
}

/** A place in the upper left corner of a window. */
const cornerOf = ({ area: { x0, y1 } }) => [x0 + 1, y1 - 1];
