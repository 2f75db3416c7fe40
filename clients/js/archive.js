// A map without a server of maps: an archive of it, a file that any web server gives, read by ranges of bytes (docs/formats.md, "An archive"). What it gives is what
// `Client` gives of a version, and the same calls read it.

import { ArchiveFile, BadArchive, DiskBytes, FORMAT, LocalBytes, RemoteBytes, fromDisk, read, reached, readInPieces } from "./archive_file.js";
import { Cells, View } from "./cells.js";
import { OtherHistory, OtherVersion, Refused, Told, Unreachable, sentenceOf } from "./errors.js";
import { geojsonOf } from "./geojson.js";
import { metadataOf } from "./metadata.js";
import { pictureOfWindow } from "./pictures.js";
import { edgesOfFace, holdsPlace, lowestAbove, within } from "./places.js";
import { joined } from "./requests.js";
import { cellInPieces, readSlice } from "./wire.js";

export { BadArchive } from "./archive_file.js";
export { View } from "./cells.js";

const NAME = /^[\w-]+\.archive$/;

/** The address of an archive's `map.json`, or of the file itself where it is named. */
function addressOf(url) {
  const address = new URL(url, globalThis.document?.baseURI ?? globalThis.location?.href);
  if (!/^(https?|file):$/.test(address.protocol)) throw new TypeError(`an archive is read by http, https or file, and not by ${address.protocol}`);
  const isNamed = /\.(json|archive)$/.test(address.pathname);
  if (!isNamed && !address.pathname.endsWith("/")) address.pathname += "/";
  return isNamed ? address : new URL("map.json", address);
}

const isCount = (it) => Number.isInteger(it) && it >= 0;
const arePair = (it) => Array.isArray(it) && it.length === 2 && it.every(Number.isFinite);

/** Throws where `map.json` is not of its form. */
function mustBeTold(told) {
  const wrong = (what) => new BadArchive(`map.json ${what}`);
  if (typeof told !== "object" || told === null) throw wrong("is no object of JSON");
  if (told.format !== FORMAT) throw wrong(`is of the format ${told.format}, and this client knows the format ${FORMAT}`);
  if (typeof told.archive !== "string" || !NAME.test(told.archive)) throw wrong("names no archive beside it");
  if (![told.bytes, told.version, told.steps, told.faces].every(isCount)) throw wrong("does not tell length, version, steps and faces");
  if (told.history !== null && typeof told.history !== "string") throw wrong("has a history that is no text");
  if (!Array.isArray(told.bounds) || told.bounds.length !== 4 || !told.bounds.every(Number.isInteger)) throw wrong("does not tell the bounds of the map");
  if (!arePair(told.transform?.scale) || !arePair(told.transform?.translate)) throw wrong("does not tell how grid units become coordinates");
  return told;
}

/** What a text of JSON has; where it is none, it belongs to no archive. */
function parsed(text, what) {
  try {
    return JSON.parse(text);
  } catch {
    throw new BadArchive(`${what} is no JSON`);
  }
}

/** Throws where the coarsest slice is not that of the index, or has an edge at a face without a class. */
function mustFit({ step, faces, edges }, { steps }) {
  const hasRow = (face) => face === 0 || faces.has(face);
  const isWhole = step === steps && [...edges.values()].every(({ left, right }) => hasRow(left) && hasRow(right));
  if (!isWhole) throw new BadArchive("the coarsest slice of the archive is not that of its index");
}

/** The history that a version belongs to: where none is named, the archive alone is one. */
const historyOf = ({ history, archive }) => history ?? archive;

const boxFrom = ([x0, y0, x1, y1]) => ({ x0, y0, x1, y1 });

/** The numbers of what `map.json`, or the archive itself, tells. */
function numbersOf(told) {
  const { version, steps, faces, archive, bytes } = told;
  return { version, steps, faces, history: historyOf(told), archive, bytes, bounds: boxFrom(told.bounds) };
}

/** A box in whole grid units round another one, within the limits of a map. */
function gridBox({ x0, y0, x1, y1 }) {
  const ends = [Math.floor(x0), Math.floor(y0), Math.ceil(x1), Math.ceil(y1)];
  if (!(x0 <= x1 && y0 <= y1)) throw new RangeError("the ends of a box are four numbers, x0 not above x1 and y0 not above y1");
  return boxFrom(ends.map(within));
}

/** A box with a unit more at each side, so that no border of the map lies at its frame. */
const grown = ({ x0, y0, x1, y1 }) => ({ x0: x0 - 1, y0: y0 - 1, x1: x1 + 1, y1: y1 + 1 });

const sorted = (map) => new Map([...map].sort(([a], [b]) => a - b));

/** What a promise gives; where the signal is given before, its reason is thrown, and the work goes on for others. */
async function untilGivenUp(promise, signal) {
  if (!signal) return promise;
  signal.throwIfAborted();
  let giveUp;
  const givenUp = new Promise((_, reject) => {
    giveUp = () => reject(signal.reason);
    signal.addEventListener("abort", giveUp, { once: true });
  });
  try {
    return await Promise.race([promise, givenUp]);
  } finally {
    signal.removeEventListener("abort", giveUp);
  }
}

export class Archive extends EventTarget {
  #options;
  #address;
  // What is open: a promise of it, so that calls side by side open it once.
  #opened = null;
  // What was read last. Where `map.json` names it still when it is opened again, it is not read anew, and its views go on.
  #last = null;

  /**
   * `url` is the address of the folder that `./tgap publish` wrote, or of its `map.json`, or of the archive alone; or it is a file that the reader has chosen. Beside it
   * may be given: `fetch`, which stands in place of the global one; `headers` and `credentials` of each request; `signal`, which gives up all calls.
   */
  constructor(url, { fetch = (...words) => globalThis.fetch(...words), headers, credentials, signal } = {}) {
    super();
    this.#options = { fetch, headers, credentials, signal };
    this.#address = url instanceof Blob ? url : addressOf(url);
    /** The version that is shown, and its history; null and undefined before the first answer. */
    this.version = null;
    this.history = undefined;
    /** Whether the server gives parts of the file; null before that is known. Where it is false, the whole file was taken. */
    this.ranged = null;
  }

  /** What `map.json` tells now. */
  async #told(signal) {
    const address = this.#address;
    if (address.protocol === "file:") return mustBeTold(parsed(await fromDisk(address.href, "text"), "map.json"));
    const { fetch, headers, credentials } = this.#options;
    const both = joined(this.#options.signal, signal);
    try {
      // What was kept is asked for again, so that a newer archive is seen.
      const options = { headers, cache: "no-cache", ...(credentials && { credentials }), ...(both.signal && { signal: both.signal }) };
      const { status, text } = await reached(async () => {
        const response = await fetch(address.href, options);
        return { status: response.status, text: await response.text() };
      }, both.signal);
      if (Unreachable.isTold(status)) throw Unreachable.told(status, sentenceOf(text));
      if (status !== 200) throw new Refused(status, status === 404 ? "there is no map.json at this address" : sentenceOf(text));
      return mustBeTold(parsed(text, "map.json"));
    } finally {
      both.letGo();
    }
  }

  /** What is read from: the bytes of a file, its name, and what `map.json` tells of it, null where the file alone is named. */
  async #source(signal) {
    const address = this.#address;
    if (address instanceof Blob) return { told: null, archive: address.name ?? "a file", bytes: new LocalBytes(address) };
    const isAlone = address.pathname.endsWith(".archive");
    const told = isAlone ? null : await this.#told(signal);
    const archive = told?.archive ?? address.pathname.split("/").at(-1);
    const file = new URL(archive, address);
    const bytes = file.protocol === "file:" ? new DiskBytes(file.href) : new RemoteBytes(file.href, this.#options, (length) => this.#tellWhole(length));
    return { told, archive, bytes };
  }

  #tellWhole(length) {
    this.ranged = false;
    this.dispatchEvent(new Told("whole", { bytes: length }));
  }

  /** Opens the archive that `map.json` names now. */
  async #open() {
    const source = await this.#source(this.#options.signal);
    const found = this.#isLast(source) ? this.#last : await this.#readFrom(source);
    this.#last = found;
    return { ...found, told: source.told ?? found.told };
  }

  /** Whether `map.json` names what was read last: a name never stands for two contents. */
  #isLast({ told }) {
    if (told === null || this.#last === null) return false;
    const last = this.#last.told;
    return ["archive", "bytes", "steps", "faces"].every((name) => told[name] === last[name]);
  }

  /** Reads of an archive what all views of it begin with. */
  async #readFrom({ told, archive, bytes }) {
    const { signal } = this.#options;
    const file = new ArchiveFile(bytes);
    const index = await file.open(told?.bytes ?? null, signal);
    this.ranged ??= true;
    if (told && (told.steps !== index.steps || told.faces !== index.faces)) throw new BadArchive("map.json tells of another archive than the one that it names");
    const { x0, y0, x1, y1 } = index.bounds;
    const own = { archive, bytes: file.length, version: 0, history: null, steps: index.steps, faces: index.faces, bounds: [x0, y0, x1, y1], transform: null };
    const [text] = await file.texts([index.slice], () => "the coarsest slice", signal);
    const slice = read("the coarsest slice", readSlice, text);
    mustFit(slice, index);
    return { told: told ?? own, index, file, cells: new Cells(index, slice, (...words) => readCells(file, ...words)) };
  }

  /** What is open, of the version and history that are shown. It is opened where nothing is; where that fails, the next call tries it anew. */
  async #archive(signal) {
    if (this.#opened === null) {
      const opened = this.#open();
      this.#opened = opened;
      opened.catch(() => this.#opened === opened && this.#close());
    }
    const found = await untilGivenUp(this.#opened, signal);
    const [version, history] = [found.told.version, historyOf(found.told)];
    this.version ??= version;
    this.history ??= history;
    if (history !== this.history) throw new OtherHistory(version, history);
    if (version !== this.version) throw new OtherVersion(version);
    return found;
  }

  #close() {
    this.#opened = null;
  }

  /** Does the work of a call on what is open, and tells who listens what came of it. */
  async #call({ signal } = {}, work) {
    try {
      this.#options.signal?.throwIfAborted();
      return await work(await this.#archive(signal), signal);
    } catch (error) {
      // What was damaged on its way is read anew when it is opened again.
      if (error instanceof BadArchive) this.#last = null;
      const cause = (await this.#anotherIn(error)) ?? error;
      const event = Told.of(cause);
      if (event) this.dispatchEvent(event);
      throw cause;
    }
  }

  /** What tells of another archive, where the one that is open has gone and `map.json` names another one; else null. */
  async #anotherIn(error) {
    if (!(error instanceof Refused) || error.status !== 404 || this.#opened === null || !this.#namesItself) return null;
    const [shown, told] = await Promise.all([this.#opened, this.#told()].map((it) => it.catch(() => null)));
    if (shown === null || told === null || told.archive === shown.told.archive) return null;
    const history = historyOf(told);
    return history === this.history ? new OtherVersion(told.version) : new OtherHistory(told.version, history);
  }

  /** The numbers of what is shown. */
  info(options) {
    return this.#call(options, ({ told }) => numbersOf(told));
  }

  /** All that is known of the map beside itself (docs/formats.md, "The metadata"); null where nothing is. */
  metadata(options) {
    return this.#call(options, ({ index, file }, signal) => metadataIn(index, file, signal));
  }

  /** The metadata without what they tell of each face and area, which comes with the first answer; null where nothing is known. */
  outline(options) {
    return this.#call(options, async ({ told, index, file }, signal) => told.metadata ?? (this.#namesItself ? null : metadataIn(index, file, signal)));
  }

  /** How grid units become coordinates of the map: `scale` and `translate`. */
  async transform(options) {
    const { told } = await this.#call(options, (found) => found);
    return told.transform ?? (await this.metadata(options))?.transform ?? { scale: [1, 1], translate: [0, 0] };
  }

  /**
   * What is seen in `bounds`, a box in grid units, or null for all of the map, after so many steps: the edges whose boxes meet it, each once, and the faces beside them. It can be refined. In
   * place of a step there may be `{ scale: N }`, of a map that is shown at 1 : N.
   */
  view(bounds, step, options) {
    return this.#call(options, async ({ cells, index, file }, signal) => {
      const area = gridBox(bounds ?? grown(cells.bounds));
      const at = typeof step === "number" ? step : stepAt(step?.scale, await metadataIn(index, file, signal));
      if (!Number.isInteger(at) || at < 0) throw new RangeError(`a step is a whole number from 0 on, and not ${at}`);
      if (at > cells.steps) throw new RangeError(`step ${at} is too high: the map has ${cells.steps}`);
      return View.of(cells, area, at, await cells.load(area, at, signal));
    });
  }

  /** Loads what leads a view to a finer step: after that its `goTo` goes there, or to a step on the way, without a request. */
  load(view, step, options) {
    return this.#call(options, async ({ cells }, signal) => {
      if (!view.isOf(cells)) throw new OtherVersion(this.version);
      view.add(await cells.load(view.area, step, signal), step);
    });
  }

  /** Takes a view to a finer step. */
  async refine(view, step, options) {
    await this.load(view, step, options);
    view.goTo(step);
  }

  /** The view of the whole map, which can be refined. */
  refined(step, options) {
    return this.view(null, step, options);
  }

  refinedWindow(step, area, options) {
    return this.view(area, step, options);
  }

  refineWindow(view, step, options) {
    return this.refine(view, step, options);
  }

  /** The window of a slice, as a server of maps gives it. */
  async window(step, bounds, options) {
    const { area, faces, edges } = await this.view(bounds, step, options);
    return { step, area, faces: sorted(faces), edges: sorted(edges) };
  }

  async slice(step, options) {
    const { faces, edges } = await this.window(step, null, options);
    return { step, faces, edges };
  }

  /** The face that (x, y) lies in, any finite numbers in grid units, and its class: 0 and null outside. On a border it is a face beside the border. */
  async faceAt(x, y, step, options) {
    if (!Number.isFinite(x) || !Number.isFinite(y)) throw new RangeError(`a place is two finite numbers, and not ${x} and ${y}`);
    const { bounds } = await this.info(options);
    const view = await this.view(gridBox({ x0: x, y0: y, x1: x, y1: y }), step, options);
    if (!holdsPlace(bounds, x, y)) return { face: 0, ofClass: null };
    return view.faceAt(x, y) ?? this.#faceBelow(x, y, step, bounds, options);
  }

  /** The same of a place at the frame of a cell: the face below the lowest border above it. */
  async #faceBelow(x, y, step, bounds, options) {
    const { edges, faces } = await this.view({ x0: x, y0: y, x1: x, y1: Math.max(y, bounds.y1) }, step, options);
    const face = lowestAbove(edges.values(), x, y)?.below ?? 0;
    return { face, ofClass: faces.get(face) ?? null };
  }

  /** All edges of a face, of which `edges` are known and at least one is. */
  edgesOf(face, step, edges, options) {
    return edgesOfFace(this, face, step, edges, options);
  }

  /** What is drawn of a view (pictures.js). It must be two units wide and high at least. */
  picture(view, options) {
    return pictureOfWindow(view, this, (x, y) => this.faceAt(x, y, view.step, options));
  }

  /**
   * A view as GeoJSON, which MapLibre, OpenLayers and Leaflet draw: the faces as far as they are seen in it, with their names and attributes where `metadata` has
   * them. `project` makes longitude and latitude of the coordinates of the map, which are given where there is none. With `borders` there is a line for each border too.
   */
  async geojson(view, metadata, { project, borders, ...options } = {}) {
    const known = metadata === undefined ? await this.metadata(options) : metadata;
    const transform = await this.transform(options);
    return geojsonOf(await this.picture(view, options), known, { transform, project, borders });
  }

  /** What `map.json` tells now; what is shown stays. */
  newest({ signal } = {}) {
    return this.#call({ signal }, async ({ told: shown }) => {
      const told = this.#namesItself ? await this.#told(signal) : shown;
      if (told.archive !== shown.archive) this.dispatchEvent(new Told("version", { version: told.version }));
      return numbersOf(told);
    });
  }

  /** Whether there is a `map.json`, which may name another archive later. */
  get #namesItself() {
    return !(this.#address instanceof Blob) && this.#address.pathname.endsWith(".json");
  }

  /** From now on a version of a history, as `newest` told them: the archive that `map.json` names then is opened by the next call. */
  show(version, history = this.history) {
    this.version = Number.isNaN(version) ? null : version;
    this.history = history;
    this.#close();
  }

  /** Shows the newest archive, and gives its version. */
  async pin(options) {
    this.show(NaN, undefined);
    return (await this.info(options)).version;
  }

  /** Throws where another version or history is shown than the given one, which may be none. */
  keepTo({ version, history }) {
    if (history !== undefined && history !== this.history) throw new OtherHistory(this.version ?? NaN, this.history);
    if (version !== null && version !== this.version) throw new OtherVersion(this.version ?? NaN);
  }
}

/** Reads cells one after the other, so that frames can be drawn meanwhile, and gives each on to `take`. */
async function readCells(file, cells, signal, take) {
  const nameOf = ({ number }) => `cell ${number}`;
  const texts = await file.texts(cells, nameOf, signal);
  for (const [i, text] of texts.entries()) take(cells[i], await readInPieces(nameOf(cells[i]), cellInPieces(text)));
}

/** The metadata of an archive. */
async function metadataIn({ metadata }, file, signal) {
  // Where there are none, there are no bytes of them.
  if (metadata.length === 0) return null;
  const [text] = await file.texts([metadata], () => "the metadata", signal);
  return metadataOf(parsed(text, "the metadata of the archive"));
}

/** The finest step whose faces, but for those that no step merges, have four square millimetres at 1 : N, by the table of the metadata. */
function stepAt(scale, metadata) {
  if (!(scale > 0)) throw new RangeError("a view wants a step, or a scale: N of 1 : N, above 0");
  const rows = (metadata?.steps ?? []).filter((row) => row.scale !== null);
  if (rows.length === 0) throw new RangeError("the map does not tell which step suits a scale");
  return (rows.find((row) => row.scale >= scale) ?? rows.at(-1)).step;
}
