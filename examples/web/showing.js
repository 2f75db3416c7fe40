// What is shown of a map as its view changes: one picture at any time, which covers the view. It becomes finer by a few records between two frames.

import { within } from "./clients/js/places.js";

// How many pixels a face is to have on average; with less, coarser steps are shown.
const PIXELS_A_FACE = 20000;
// A picture reaches beyond the view by this part of its width and height, so that a small move needs no other one.
export const BEYOND = 0.25;
// After a failure it is tried again.
const SECONDS_TO_WAIT = 3;
// A way to a finer step is gone in so many frames, and in more where the records of a frame take longer than so many milliseconds.
const FRAMES = 20;
const MILLISECONDS_OF_RECORDS = 2;

/** A box in whole grid units round another one, within the limits of a map. */
export function gridBox({ x0, y0, x1, y1 }, beyond = 0) {
  const [w, h] = [beyond * (x1 - x0) + 1, beyond * (y1 - y0) + 1];
  return { x0: within(Math.floor(x0 - w)), y0: within(Math.floor(y0 - h)), x1: within(Math.ceil(x1 + w)), y1: within(Math.ceil(y1 + h)) };
}

export const sizeOf = (box) => Math.max(box.x1 - box.x0, 1) * Math.max(box.y1 - box.y0, 1);

/** Takes something to a finer step, or as far as there is time for in a frame. */
function goPiece(refined, step) {
  const end = performance.now() + MILLISECONDS_OF_RECORDS;
  do {
    refined.goTo(Math.max(step, refined.next ?? step));
  } while (refined.step > step && performance.now() < end);
}

/** Waits for the next frame; where the page is not seen there is none. */
const nextFrame = () => new Promise((resolve) => (document.hidden ? resolve() : requestAnimationFrame(resolve)));

export class Showing {
  /**
   * `told` is told what happens: a version `begins`, a picture `shows`, the way to it `works` on or is done, a request `fails` or an answer `heals` that, it `hears`
   * of a newer version, and what is shown is what somebody else `published`, or what a server has that `restarted`.
   */
  constructor(client, told) {
    Object.assign(this, { client, told, info: null, picture: null, view: null, outdated: true, working: false, waiting: null });
    /** What the reader is to be told when the other version is there: "published" or "restarted". */
    this.news = null;
    // The way to a finer step that is being gone: one at a time, and the last one counts.
    this.way = null;
  }

  /** The view has changed: its box in grid units, and how many square pixels a square unit has. */
  look(box, density) {
    this.view = { box, density };
    try {
      this.choose();
      this.work();
    } catch (error) {
      this.fail(error);
    }
  }

  /** Whether the picture is the one that the view wants. */
  get settled() {
    return this.complete && this.way === null;
  }

  /** The step whose faces are large enough at the scale of the view. */
  get wanted() {
    const faces = (sizeOf(this.bounds) * this.view.density) / PIXELS_A_FACE;
    return Math.round(Math.max(0, Math.min(this.info.steps, this.info.faces - faces)));
  }

  /** Everything is asked for again, of the version that the client shows now. */
  renew() {
    this.outdated = true;
    return this.work();
  }

  goTo(version, history, hasRestarted) {
    if (this.news !== "restarted") this.news = hasRestarted ? "restarted" : "published";
    this.client.show(version, history);
    this.renew();
  }

  /** Shows a picture. */
  show(picture) {
    if (picture === null || picture === this.picture) return;
    this.picture = picture;
    this.told.shows(picture);
  }

  /**
   * Takes something to a finer step by pieces, between which it is drawn: `refined` has `step` and `goTo`, and `draw` gives the picture of it, or null where it cannot
   * be told at once. Another way, or `leave`, ends this one where it is.
   */
  goBy(refined, step, draw) {
    if (refined.step <= step) return;
    this.way = { refined, step, draw };
    this.#goOn(this.way).catch((error) => this.fail(error));
  }

  async #goOn(way) {
    const { refined, step, draw } = way;
    const piece = Math.ceil((refined.step - step) / FRAMES);
    while (refined.step > step) {
      await nextFrame();
      if (this.way !== way) return;
      // Steps that change nothing take no frame.
      goPiece(refined, Math.max(step, Math.min(refined.step - piece, refined.next ?? step)));
      this.show(draw());
    }
    this.leave();
    // The bounds of the map may have grown on the way, and so other detail is wanted.
    this.choose();
    this.work();
    this.told.works();
  }

  /** No way is gone any more. */
  leave() {
    this.way = null;
  }

  /** Works until all is here that the view wants, however that changes meanwhile. */
  async work() {
    // Where nothing is to be asked, a failure that was told of stays, and so does the time of the next attempt.
    if (this.working || this.complete) return;
    this.working = true;
    clearTimeout(this.waiting);
    try {
      while (!this.complete) {
        this.told.works();
        await this.#askNext();
        this.choose();
      }
    } catch (error) {
      this.fail(error);
    } finally {
      this.working = false;
      this.told.works();
    }
  }

  async #askNext() {
    // What moved the view is drawn first.
    await new Promise((resolve) => setTimeout(resolve));
    try {
      if (this.outdated) await this.load();
      else await this.ask();
      this.told.heals();
    } catch (error) {
      if (!this.follows(error)) throw error;
      // What is at hand has led to a refusal, and would lead to it again.
      this.outdated = true;
    }
  }

  fail(error) {
    this.told.fails(error);
    // What does not fit, or cannot be read, may be of another map: all is asked for again.
    if (["Unfit", "BadText", "BadArchive"].includes(error.name)) this.outdated = true;
    clearTimeout(this.waiting);
    this.waiting = setTimeout(() => (this.complete ? this.listen() : this.work()), SECONDS_TO_WAIT * 1000);
  }

  /** A version is there: what is shown changes with its first picture. */
  begin(bounds) {
    this.leave();
    this.bounds = bounds;
    this.outdated = false;
    this.told.begins(bounds);
    const { news } = this;
    this.news = null;
    if (news) this.told[news](this.info.version);
  }

  /** Whether an error tells of another version or history. It is shown then; an own edit, or another call, may have moved the client there already. */
  follows(error) {
    if (!["OtherVersion", "OtherHistory"].includes(error.name)) return false;
    const { client } = this;
    const { version, history = client.history } = error;
    const isOtherHistory = history !== client.history;
    const isThere = !isOtherHistory && (Number.isNaN(version) || version === client.version);
    if (!isThere) this.goTo(version, history, isOtherHistory || version < client.version);
    else if (!this.#isOf(client)) this.renew();
    return true;
  }

  /** Whether what is at hand is of this version and history. */
  #isOf({ version, history }) {
    return this.info?.version === version && this.info.history === history;
  }

  /** Shows the newest version. */
  async catchUp() {
    const { version, history } = this.client;
    await this.client.pin();
    if (this.client.version !== version || this.client.history !== history) await this.renew();
  }

  /** Asks whether there is a newer version, or another map since the server was started anew. */
  async listen() {
    if (this.working || this.outdated) return;
    const known = this.info;
    try {
      const newest = await this.client.newest();
      if (this.info !== known || !this.complete) return;
      this.told.heals();
      const differs = Object.keys(known).some((name) => JSON.stringify(known[name]) !== JSON.stringify(newest[name]));
      if (newest.version > known.version && newest.history === known.history) this.told.hears(newest.version);
      else if (differs) this.goTo(newest.version, newest.history, true);
    } catch (error) {
      if (!this.follows(error)) this.fail(error);
    }
  }

  /** An answer, if the client still shows the version and the history that it was asked for: an edit may have come between. */
  async of(seen, asked) {
    const answer = await asked;
    this.client.keepTo(seen);
    return answer;
  }
}
