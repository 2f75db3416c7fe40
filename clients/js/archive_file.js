// The file of an archive (docs/formats.md, "An archive"), read by ranges of bytes: its head, its index and its chunks, each held against its sum. A server that gives
// no ranges gives the whole file, which is kept then.

import { BadText, Lines } from "./lines.js";
import { Refused, Unreachable, sentenceOf } from "./errors.js";
import { inPieces } from "./pieces.js";
import { joined } from "./requests.js";

/** The version of the format that is read here. */
export const FORMAT = 2;
// The first request takes so much: head, index and slice of most maps, and their first cells.
const FIRST_BYTES = 16384;
const LONGEST_HEAD = 64;
// Chunks between which so little lies are asked for as one range.
const NEAR = 32768;
// So many bytes of chunks are kept at most.
const KEPT_BYTES = 8 * 2 ** 20;

/** An archive that is none, or that is not whole: nothing of it is given. */
export class BadArchive extends Error {
  constructor(reason) {
    super(reason);
    this.name = "BadArchive";
  }
}

const TABLE = Uint32Array.from({ length: 256 }, (_, n) => {
  let rest = n;
  for (let i = 0; i < 8; i++) rest = rest & 1 ? (rest >>> 1) ^ 0xedb88320 : rest >>> 1;
  return rest;
});

/** The CRC-32 of gzip and zip, as eight hexadecimal digits. */
export function sumOf(bytes) {
  let sum = 0xffffffff;
  for (const byte of bytes) sum = TABLE[(sum ^ byte) & 255] ^ (sum >>> 8);
  return ((sum ^ 0xffffffff) >>> 0).toString(16).padStart(8, "0");
}

/** The text of a chunk. */
async function unpacked(bytes, what) {
  try {
    const stream = new Blob([bytes]).stream().pipeThrough(new DecompressionStream("gzip"));
    return new TextDecoder("utf-8", { fatal: true }).decode(await new Response(stream).arrayBuffer());
  } catch (error) {
    throw new BadArchive(`${what} of the archive cannot be unpacked: ${error.message}`);
  }
}

/** What `reader` makes of a text of the archive. */
export function read(what, reader, text) {
  try {
    return reader(text);
  } catch (error) {
    throw ofArchive(what, error);
  }
}

/** What is read of the archive piece by piece. */
export async function readInPieces(what, work) {
  try {
    return await inPieces(work);
  } catch (error) {
    throw ofArchive(what, error);
  }
}

/** A text that is none of its kind makes no archive. */
function ofArchive(what, error) {
  return error instanceof BadText ? new BadArchive(`${what} of the archive is not of its form: ${error.message}`) : error;
}

/** The length and the sum of the index, as the first line of the file tells them. */
function readHead(bytes) {
  const line = new TextDecoder("latin1").decode(bytes.subarray(0, LONGEST_HEAD)).split("\n", 1)[0];
  const kind = /^tgap-archive ([0-9]+) /.exec(line);
  if (!kind) throw new BadArchive("this is no archive of a map: it does not begin as one");
  if (kind[1] !== String(FORMAT)) throw new BadArchive(`the archive has the format ${kind[1]}, and this client knows the format ${FORMAT}`);
  const words = /^(tgap-archive [0-9]+ (0|[1-9][0-9]{0,9}) ([0-9a-f]{8})) ([0-9a-f]{8})$/.exec(line);
  if (!words || words[4] !== sumOf(bytes.subarray(0, words[1].length))) throw new BadArchive("the head of the archive is damaged");
  return { at: line.length + 1, length: Number(words[2]), sum: words[3] };
}

function readPlace(lines, first) {
  const [length, sum] = lines.next(first, 2);
  if (!/^[0-9a-f]{8}$/.test(sum)) lines.fail();
  return { length: lines.count(length), sum };
}

function readIndex(text) {
  const lines = new Lines(text);
  const words = lines.next("archive", 7);
  const [x0, y0, x1, y1] = words.slice(2, 6).map((word) => lines.coordinate(word));
  const index = { steps: lines.count(words[0]), faces: lines.count(words[1]), bounds: { x0, y0, x1, y1 }, depth: lines.count(words[6]) };
  Object.assign(index, { slice: readPlace(lines, "slice"), metadata: readPlace(lines, "metadata") });
  const count = lines.count(lines.next("cells", 1)[0]);
  index.cells = [];
  for (let number = 0; number < count; number++) {
    const [to, child, length, sum] = lines.next("cell", 4);
    if (!/^[0-9a-f]{8}$/.test(sum)) lines.fail();
    index.cells.push({ number, to: lines.count(to), child: lines.count(child), length: lines.count(length), sum });
  }
  lines.end();
  return index;
}

/** The places of all chunks behind the index, in the order of the file. */
const chunksOf = ({ slice, cells, metadata }) => [slice, ...cells, metadata];

/** Ranges from places that are sorted, joined where little lies between them. */
function rangesOf(places) {
  const ranges = [];
  for (const { at, length } of [...places].sort((a, b) => a.at - b.at)) {
    const last = ranges.at(-1);
    if (last && at - last.end <= NEAR) last.end = Math.max(last.end, at + length);
    else ranges.push({ at, end: at + length });
  }
  return ranges;
}

export class ArchiveFile {
  #asks;
  // The chunks that are kept, by their places: the one that was used last stands at the end.
  #kept = new Map();
  #keptBytes = 0;
  #whole = null;

  /** `asks` gives the bytes from one place up to another one, and what it knows of the whole (`RemoteBytes`, `LocalBytes`). */
  constructor(asks) {
    this.#asks = asks;
  }

  /** Reads head and index: after that the places of all chunks are known. `length` is that of the file, as `map.json` has it, null where it is not known. */
  async open(length, signal) {
    let front = await this.#bytes(0, FIRST_BYTES, signal);
    const head = readHead(front);
    const end = head.at + head.length;
    if (front.length < end) front = await this.#bytes(0, end, signal);
    if (front.length < end) throw new BadArchive("the archive is cut: it ends within its index");
    const packed = front.subarray(head.at, end);
    if (sumOf(packed) !== head.sum) throw new BadArchive("the index of the archive is damaged");
    const index = read("the index", readIndex, await unpacked(packed, "the index"));
    this.#place(index, end);
    this.#mustHaveLength(length);
    this.#keepFrom(front, index);
    return index;
  }

  #place(index, end) {
    let at = end;
    for (const place of chunksOf(index)) {
      place.at = at;
      at += place.length;
    }
    this.length = at;
  }

  /** The file has to be as long as its index says, as far as anybody tells how long it is. */
  #mustHaveLength(length) {
    for (const told of [length, this.#asks.length]) {
      if (told !== null && told < this.length) throw new BadArchive(`the archive is cut: it has ${told} bytes in place of ${this.length}`);
      if (told !== null && told > this.length) throw new BadArchive(`the archive is too long: it has ${told} bytes in place of ${this.length}`);
    }
  }

  /** Keeps the chunks that came with the first bytes. */
  #keepFrom(front, index) {
    for (const place of chunksOf(index)) {
      if (place.at + place.length <= front.length) this.#keep(place, front.slice(place.at, place.at + place.length));
    }
  }

  #keep({ at }, bytes) {
    if (this.#whole !== null || bytes.length === 0 || this.#kept.has(at)) return;
    this.#kept.set(at, bytes);
    this.#keptBytes += bytes.length;
    for (const [oldest, { length }] of this.#kept) {
      if (this.#keptBytes <= KEPT_BYTES) break;
      this.#kept.delete(oldest);
      this.#keptBytes -= length;
    }
  }

  #keptAt(place) {
    if (this.#whole !== null) return this.#whole.subarray(place.at, place.at + place.length);
    const bytes = this.#kept.get(place.at);
    if (bytes === undefined) return null;
    this.#kept.delete(place.at);
    this.#kept.set(place.at, bytes);
    return bytes;
  }

  /** The bytes from one place up to another one: fewer where the file ends before. */
  async #bytes(from, to, signal) {
    if (this.#whole === null) {
      const { bytes, isWhole } = await this.#asks.bytes(from, to, signal);
      if (!isWhole) return bytes;
      this.#whole = bytes;
      this.#kept.clear();
    }
    return this.#whole.subarray(from, to);
  }

  /** The bytes of chunks, by their places: of those that are not kept, ranges are asked for side by side. */
  async chunks(places, signal) {
    const found = new Map();
    const wanted = places.filter((place) => {
      const bytes = this.#keptAt(place);
      if (bytes !== null) found.set(place, bytes);
      return bytes === null;
    });
    await Promise.all(rangesOf(wanted).map(async ({ at, end }) => {
      const bytes = await this.#bytes(at, end, signal);
      for (const place of wanted.filter((it) => it.at >= at && it.at + it.length <= end)) {
        const own = bytes.slice(place.at - at, place.at - at + place.length);
        this.#mustBeSound(place, own);
        found.set(place, own);
        this.#keep(place, own);
      }
    }));
    return found;
  }

  #mustBeSound({ at, length }, bytes) {
    if (bytes.length < length) throw new BadArchive(`the archive is cut: it ends within the ${length} bytes that begin at byte ${at}`);
  }

  /** The texts of chunks, in the order of their places; `what` names one. */
  async texts(places, what, signal) {
    const bytes = await this.chunks(places, signal);
    return Promise.all(places.map((place) => {
      const name = what(place);
      if (sumOf(bytes.get(place)) !== place.sum) throw new BadArchive(`${name} of the archive is damaged`);
      return unpacked(bytes.get(place), name);
    }));
  }
}

/** The bytes of a file that a server gives. */
export class RemoteBytes {
  /** The length of the file, as the server tells it; null before that. */
  length = null;

  /** `tellWhole` is called where the server gives no ranges. */
  constructor(address, { fetch, headers, credentials, signal }, tellWhole) {
    Object.assign(this, { address, fetch, headers, credentials, signal, tellWhole });
  }

  async bytes(from, to, own) {
    const { signal, letGo } = joined(this.signal, own);
    try {
      const response = await this.#response({ ...this.headers, Range: `bytes=${from}-${to - 1}` }, signal);
      const bytes = await bytesOf(response, signal);
      if (response.status === 206) return this.#part(response, bytes, from, to);
      this.length = bytes.length;
      this.tellWhole(bytes.length);
      return { bytes, isWhole: true };
    } finally {
      letGo();
    }
  }

  async #response(headers, signal) {
    const { fetch, address, credentials } = this;
    const response = await reached(() => fetch(address, { headers, ...(credentials && { credentials }), ...(signal && { signal }) }), signal);
    const { status } = response;
    if (status === 416) throw new BadArchive("the archive is cut: it ends before what its index tells");
    if (Unreachable.isTold(status)) throw Unreachable.told(status, "");
    if (status !== 200 && status !== 206) throw new Refused(status, sentenceOf(await response.text()));
    return response;
  }

  /** A part has to begin where it was asked for. Pages of other origins may not see where it does. */
  #part(response, bytes, from, to) {
    const told = /^bytes ([0-9]+)-([0-9]+)\/([0-9]+|\*)$/.exec(response.headers.get("Content-Range") ?? "");
    if (told && Number(told[1]) !== from) throw new BadArchive(`the server gives bytes from ${told[1]} on in place of ${from}`);
    if (told && told[3] !== "*") this.length = Number(told[3]);
    return { bytes: bytes.subarray(0, to - from), isWhole: false };
  }
}

/** What a request of the archive gives; where it gives nothing, Unreachable is thrown, or the reason for which the call was given up. */
export async function reached(work, signal) {
  try {
    return await work();
  } catch (error) {
    signal?.throwIfAborted();
    throw new Unreachable(error.message);
  }
}

const bytesOf = (response, signal) => reached(async () => new Uint8Array(await response.arrayBuffer()), signal);

/** The bytes of a file that the reader has chosen from a disk. */
export class LocalBytes {
  constructor(blob) {
    this.blob = blob;
    this.length = blob.size;
  }

  async bytes(from, to) {
    return { bytes: new Uint8Array(await this.blob.slice(from, to).arrayBuffer()), isWhole: false };
  }
}

/** The bytes of a file beside a page that was itself opened from a disk. `fetch` does not read such files, and `XMLHttpRequest` does where the browser allows it. */
export class DiskBytes {
  length = null;

  constructor(address) {
    this.address = address;
  }

  async bytes() {
    const bytes = new Uint8Array(await fromDisk(this.address, "arraybuffer"));
    this.length = bytes.length;
    return { bytes, isWhole: true };
  }
}

/** What a file of a disk has, where the browser lets the page read it. */
export function fromDisk(address, responseType) {
  return new Promise((resolve, reject) => {
    const refuse = () => reject(new Unreachable("the browser does not let this page read files of the disk"));
    if (!globalThis.XMLHttpRequest) return refuse();
    const request = new XMLHttpRequest();
    request.onload = () => (request.response === null ? refuse() : resolve(request.response));
    request.onerror = refuse;
    try {
      request.open("GET", address);
      request.responseType = responseType;
      request.send();
    } catch {
      refuse();
    }
  });
}
