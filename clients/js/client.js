// The requests of a page to one map. The server keeps a pin for each connection, and a front server may use several or a new one each time; so each answer
// is held against the version that is shown. Where it is of an older one, the connection is asked to pin that version or a newer one, and the request is made
// again; where it is of a newer one, OtherVersion is thrown, and nothing of two versions is ever mixed.
//
// Versions are counted from 0 again when the server is started anew. A front server that knows of this names the history that its versions belong to, by a token in
// each answer. It is kept with the version; where an answer bears another one, or none, OtherHistory is thrown.

import { OtherHistory, OtherVersion, Refused, Told } from "./errors.js";
import { FARTHEST, edgesOfFace, lowestAbove, within } from "./places.js";
import { Refined, RefinedWindow } from "./replay.js";
import { Gate, Requests, joined } from "./requests.js";
import { readInfo, readPacket, readSlice, readWindow, readWindowPacket } from "./wire.js";

export { OtherHistory, OtherVersion, Refused, Unreachable } from "./errors.js";
export { FARTHEST } from "./places.js";
export { Refined, RefinedWindow, Unfit } from "./replay.js";
export { BadText } from "./wire.js";

const TRIES = 6;

/** Throws where an answer is no success, or names no version. */
function mustSucceed({ status, version, said }) {
  if (status !== 200) throw new Refused(status, said);
  if (Number.isNaN(version)) throw new Refused(status, "the answer names no version");
}

export class Client extends EventTarget {
  #requests;
  // One edit after the other: so each is of the version that the one before it has made.
  #edits = new Gate(1);

  /**
   * `root` is the address of the map. Beside it may be given: `fetch`, which stands in place of the global one; `headers` and `credentials` of each request, and
   * `editing` with those of edits alone; `signal`, which gives up all calls.
   */
  constructor(root, options) {
    super();
    this.#requests = new Requests(root, options);
    this.root = this.#requests.root;
    /** The version that is shown: that of the first answer, until `show`, `pin` or `edit`. */
    this.version = null;
    /** The token of its history; null where the front server names none, and undefined before the first answer. */
    this.history = undefined;
  }

  /** Does the work of a call, which belongs to the history that is shown when it is made, and tells who listens what came of it. */
  async #call({ signal } = {}, work) {
    try {
      return await work({ history: this.history, signal });
    } catch (error) {
      const event = Told.of(error);
      if (event) this.dispatchEvent(event);
      throw error;
    }
  }

  /** An answer of the history that is shown, or one that names neither version nor history. */
  async #ask(call, method, path, body) {
    const isEdit = path === "edit";
    const mustBeSent = () => this.#keepToHistory(call);
    mustBeSent();
    const answer = await this.#requests.ask(method, path, { body, signal: call.signal, mustBeSent, ...(isEdit && { history: this.history ?? null }) });
    const { status, version, history } = answer;
    const published = isEdit && status === 200 ? version : null;
    this.#keepToHistory(call, published);
    const namesNeither = history === null && Number.isNaN(version);
    if (this.history !== undefined && history !== this.history && !namesNeither) throw new OtherHistory(version, history, published);
    return answer;
  }

  /** Throws where `show` has gone on to another history since the call was made. */
  #keepToHistory(call, published) {
    if (call.history === undefined) call.history = this.history;
    if (call.history !== this.history) throw new OtherHistory(this.version ?? NaN, this.history, published);
  }

  /** An answer of the version that is shown; the first one of all decides which that is. */
  async #read(call, path) {
    for (let tries = 1; tries <= TRIES; tries++) {
      const answer = await this.#ask(call, "GET", path);
      const { version } = answer;
      if (Number.isNaN(version) || version === this.version || this.version === null) return this.#kept(answer);
      if (version > this.version) throw new OtherVersion(version);
      await this.#pinShown(call, tries);
    }
    throw new Refused(503, "the connections do not agree on a version");
  }

  /** A success, whose version and history are kept where none are. */
  #kept(answer) {
    mustSucceed(answer);
    this.version ??= answer.version;
    this.history ??= answer.history;
    return answer;
  }

  /** Has connections pin what is shown. They may take turns, so this asks several times at once: with one more each time, all of them are met. */
  async #pinShown(call, times) {
    const answers = await Promise.all(Array.from({ length: times }, () => this.#ask(call, "POST", `pin/${this.version}`)));
    // The server was started anew and has no such version any more, and no front server tells of it.
    const behind = answers.find(({ status }) => status === 409);
    if (behind) throw new OtherVersion(behind.version);
  }

  /** What `reader` makes of the text of an answer. */
  #give(path, reader, options) {
    return this.#call(options, async (call) => reader((await this.#read(call, path)).text));
  }

  /** The numbers of the version that is shown, and its history. */
  info(options) {
    return this.#call(options, async (call) => numbersIn(await this.#read(call, "info")));
  }

  /** What a front server has beside the map (docs/formats.md, "The metadata"); null where it has none. */
  metadata(options) {
    return this.#call(options, async ({ signal }) => {
      const { status, text, said } = await this.#requests.ask("GET", "meta.json", { signal });
      if (status === 404) return null;
      if (status !== 200) throw new Refused(status, said);
      return JSON.parse(text);
    });
  }

  slice(step, options) {
    return this.#give(`slice/${step}`, readSlice, options);
  }

  /** The slice as TopoJSON, for d3 and others that draw from rings: the object `map` has a polygon for each part of a face, with `face` and `class`. */
  topology(step, options) {
    return this.#give(`topo/${step}`, JSON.parse, options);
  }

  packet(from, to, options) {
    return this.#give(`packet/${from}/${to}`, readPacket, options);
  }

  window(step, { x0, y0, x1, y1 }, options) {
    return this.#give(`window/${step}/${x0}/${y0}/${x1}/${y1}`, readWindow, options);
  }

  /** What leads from the window of a slice to that of a finer one. */
  windowPacket(from, to, { x0, y0, x1, y1 }, options) {
    return this.#give(`window-packet/${from}/${to}/${x0}/${y0}/${x1}/${y1}`, readWindowPacket, options);
  }

  /** The window of a slice, which packets can refine. */
  async refinedWindow(step, area, options) {
    return new RefinedWindow(await this.window(step, area, options));
  }

  /** Asks for the packet from a window to a finer step, and follows it. The window must be of the version that is shown. */
  async refineWindow(window, step, options) {
    const { version, history } = this;
    const packet = await this.windowPacket(window.step, step, window.area, options);
    this.keepTo({ version, history });
    window.replay(packet);
  }

  /** A slice that packets can refine. */
  async refined(step, options) {
    return new Refined(await this.slice(step, options));
  }

  /** Asks for the packet from a slice to a finer step, and follows it. The slice must be of the version that is shown. */
  async refine(refined, step, options) {
    const { version, history } = this;
    const packet = await this.packet(refined.step, step, options);
    this.keepTo({ version, history });
    refined.replay(packet);
  }

  /** Throws where another version or history is shown than the given one, which may be none: an edit, `pin` or `show` has come between. */
  keepTo({ version, history }) {
    if (history !== undefined && history !== this.history) throw new OtherHistory(this.version ?? NaN, this.history);
    if (version !== null && version !== this.version) throw new OtherVersion(this.version ?? NaN);
  }

  /**
   * The face that (x, y) lies in, and its class: 0 and null outside. These are any finite numbers in grid units, of points of the grid or between them. What is asked
   * for is a window that is one unit wide at most, from the point up to the top of the map, and the lowest edge in it that crosses the line upwards knows the face
   * below. On a border it is a face beside the border.
   */
  async faceAt(x, y, step, options) {
    if (!Number.isFinite(x) || !Number.isFinite(y)) throw new RangeError(`a place is two finite numbers, and not ${x} and ${y}`);
    const column = { x0: within(Math.floor(x)), y0: within(Math.floor(y)), x1: within(Math.ceil(x)), y1: FARTHEST };
    const { edges, faces } = await this.window(step, column, options);
    const face = lowestAbove(edges.values(), x, y)?.below ?? 0;
    return { face, ofClass: faces.get(face) ?? null };
  }

  /** All edges of a face, of which `edges` are known and at least one is: asked for by windows that grow until its outer ring is whole. */
  edgesOf(face, step, edges, options) {
    return edgesOfFace(this, face, step, edges, options);
  }

  /** The numbers of the version that a new connection sees, which is the newest one; what is shown stays. A kept connection tells of the version that it has pinned. */
  newest(options) {
    return this.#call(options, async (call) => {
      const answer = await this.#ask(call, "GET", "info");
      mustSucceed(answer);
      if (this.version !== null && answer.version > this.version) this.dispatchEvent(new Told("version", { version: answer.version }));
      return numbersIn(answer);
    });
  }

  /**
   * From now on a version, or none older, of a history: those of an OtherHistory, or of an OtherVersion, which has no history and so leaves the one that is shown. A
   * version that is NaN is not known: it is that of the next answer, unless one of this history is shown already.
   */
  show(version, history = this.history) {
    if (!Number.isNaN(version)) this.version = version;
    else if (history !== this.history) this.version = null;
    this.history = history;
  }

  /** Pins the newest version, and forgets the one that was shown. Gives its number. */
  pin(options) {
    return this.#call(options, async (call) => {
      const answer = await this.#ask(call, "POST", "pin");
      mustSucceed(answer);
      this.version = answer.version;
      this.history ??= answer.history;
      return this.version;
    });
  }

  /**
   * Publishes the map with these edits. Gives the number of the new version, which is then the one that is shown, and whether it was `foreseen`: made from the
   * version that was shown, with nobody's edits between. Where the answer does not come, the edits may be published all the same. The front server is told the
   * history, so that it refuses edits of another one. Edits are made one after the other; one that is given up by its signal may be published as well.
   */
  edit(batch, options) {
    return this.#call(options, async (call) => {
      const { signal, letGo } = joined(this.#requests.signal, call.signal);
      try {
        signal?.throwIfAborted();
        await this.#edits.enter(signal);
      } finally {
        letGo();
      }
      try {
        return await this.#edited(call, batch);
      } finally {
        this.#edits.leave();
      }
    });
  }

  async #edited(call, batch) {
    await this.#read(call, "info");
    const seen = this.version;
    const { status, version, said } = await this.#ask(call, "POST", "edit", batch);
    const stale = /^stale ([0-9]+)$/.exec(said);
    if (status === 409 && stale) throw new OtherVersion(Number(stale[1]));
    if (status !== 200) throw new Refused(status, said);
    this.version = version;
    return { version, foreseen: version === seen + 1 };
  }
}

function numbersIn({ text, history }) {
  return { ...readInfo(text), history };
}
