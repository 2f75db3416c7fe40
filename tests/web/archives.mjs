// Holds the archives of maps against windows of the served program: what is seen at any place and step, by edges; what is refused; and when a newer one is seen.
// usage: node tests/web/archives.mjs EXECUTABLE. Last line: 'N passed, N failed, N skipped'.
import { mkdtempSync, readFileSync, rmSync, writeFileSync } from "node:fs";
import { tmpdir } from "node:os";
import path from "node:path";
import { Archive, BadArchive } from "../../clients/js/archive.js";
import { Client, OtherHistory, OtherVersion, Refused, Unreachable } from "../../clients/js/client.js";
import { metadataOf } from "../../clients/js/metadata.js";
import { twiceAreaOf } from "../../clients/js/rings.js";
import { cellInPieces, readCell, sliceText, windowText } from "../../clients/js/wire.js";
import { Tally, dice, endServing, examples, fetchAlone, gridListing, serve, thrown } from "./lib.mjs";
import { PlainServer, publish } from "./published.mjs";

const executable = path.resolve(process.argv[2]);
const room = mkdtempSync(path.join(tmpdir(), "web-archives-"));
const tally = new Tally();
const VIEWS = 100;
// Where the time is up, nothing of it goes on.
process.on("SIGTERM", () => {
  endServing();
  process.exit(1);
});

/** Whom a cell of a grid belongs to: rings round a middle, middles of two parts, and cells alone. */
function owner(i, j) {
  const [a, b] = [Math.floor(i / 3), Math.floor(j / 3)];
  if ((a + b) % 3 === 0) return `cell ${i} ${j}`;
  return i % 3 === 1 && j % 3 === 1 ? `middle ${a} ${b >> 1}` : `ring ${a} ${b}`;
}

function written(name, text) {
  const file = path.join(room, name);
  writeFileSync(file, text);
  return file;
}

/** The maps: with removals, with faces of several parts, with faces in holes, and up to the corners of the plane. */
function maps() {
  const most = 2 ** 31;
  return [
    ["columbus.json", "areas", "columbus.rules.json"],
    ["notch_with_island.tgap"],
    [written("rooms.tgap", gridListing(33, { owner, ratio: 64 }))],
    [written("grid.tgap", gridListing(28))],
    [written("wide.tgap", gridListing(16, { side: (2 * most) / 16, first: -most, most, version: 2 }))],
  ];
}

/** A box about the map, of any size. */
function anywhere(random, { x0, y0, x1, y1 }) {
  const span = Math.max(1, Math.floor(1.2 * (x1 - x0) * random() ** 3));
  const [x, y] = [x0 + random() * (x1 - x0) - span * random(), y0 + random() * (y1 - y0) - span * random()].map(Math.floor);
  const within = (z) => Math.max(-(2 ** 31), Math.min(2 ** 31, z));
  return { x0: within(x), y0: within(y), x1: within(x + span), y1: within(y + span) };
}

const textOf = ({ step, area, faces, edges }) => windowText({ step, area, faces, edges });

/** What is seen at random places and steps, and after going to finer steps, is what the served program gives. */
async function seesTheSame(name, archive, client, random) {
  const { steps, bounds } = await archive.info();
  tally.equal(`${name}: as many steps as are served`, steps, (await client.info()).steps);
  for (const step of [steps, Math.floor(steps / 2), 0]) tally.equal(`${name}: the slice at step ${step}`, sliceText(await archive.slice(step)), sliceText(await client.slice(step)));
  for (let i = 0; i < VIEWS; i++) {
    const area = anywhere(random, bounds);
    const [from, to] = [random(), random()].map((part) => Math.floor(part * (steps + 1))).sort((a, b) => b - a);
    const where = `${name}: ${JSON.stringify(area)} at step`;
    const [view, coarse, fine] = await Promise.all([archive.view(area, from), client.window(from, area), client.window(to, area)]);
    tally.equal(`${where} ${from}`, textOf(view), windowText(coarse));
    await archive.load(view, to);
    await goesToTheNextChange(where, view, client, Math.floor((from + to) / 2), i % 5 === 0);
    view.goTo(to);
    tally.equal(`${where} ${from} refined to ${to}`, textOf(view), windowText(fine));
  }
}

/** On the way to a finer step a view tells the next step at which something changes: before that it is what it was. */
async function goesToTheNextChange(where, view, client, middle, isAsked) {
  view.goTo(middle);
  const { next, area } = view;
  if (next === null || !isAsked) return;
  tally.holds(`${where} ${middle}: the next step is a finer one`, next < middle && next >= view.finest);
  const before = await client.window(next + 1, area);
  tally.equal(`${where} ${middle}, up to the next change`, textOf(view), windowText({ ...before, step: middle }));
}

async function findsFaces(name, archive, client, random) {
  const { steps, bounds } = await archive.info();
  for (let i = 0; i < 60; i++) {
    const [width, height] = [bounds.x1 - bounds.x0, bounds.y1 - bounds.y0];
    const between = i % 2 === 0 ? Math.floor : (z) => Math.floor(z) + 0.377;
    const [x, y] = [bounds.x0 + (1.1 * random() - 0.05) * width, bounds.y0 + (1.1 * random() - 0.05) * height].map(between);
    const step = Math.floor(random() * (steps + 1));
    const told = await archive.faceAt(x, y, step);
    tally.equal(`${name}: the face at (${x}, ${y}), step ${step}`, JSON.stringify(told), JSON.stringify(await client.faceAt(x, y, step)));
  }
}

/** The faces that a feature's polygons go round a place of, by their rings. */
function facesRound(features, x, y) {
  const partsOf = ({ geometry }) => (geometry.type === "Polygon" ? [geometry.coordinates] : geometry.coordinates);
  const isIn = (ring) => ring.reduce((odd, b, i) => {
    const a = ring[(i + ring.length - 1) % ring.length];
    return a[1] > y !== b[1] > y && a[0] + ((y - a[1]) * (b[0] - a[0])) / (b[1] - a[1]) > x ? !odd : odd;
  }, false);
  return features.filter((feature) => partsOf(feature).some(([outer, ...holes]) => isIn(outer) && !holes.some(isIn))).map(({ id }) => id);
}

/** Whether each ring is closed, meets no place twice, and runs as RFC 7946 wants it. */
function areRings({ features }) {
  const areRight = (rings) => rings.every((ring, at) => {
    const [first, last] = [ring[0], ring[ring.length - 1]].map(String);
    const places = new Set(ring.map(String));
    return ring.length >= 4 && first === last && places.size === ring.length - 1 && twiceAreaOf(ring) > 0 === (at === 0);
  });
  return features.every(({ geometry: { type, coordinates } }) => (type === "Polygon" ? areRight(coordinates) : coordinates.length > 1 && coordinates.every(areRight)));
}

/** What is seen as GeoJSON: at each place of it the polygons of one face, which is that of the place. */
async function isDrawn(name, archive, random) {
  const { steps, bounds } = await archive.info();
  const { scale, translate } = await archive.transform();
  let holes = 0;
  let parts = 0;
  for (let i = 0; i < 12; i++) {
    const area = i < 3 ? null : anywhere(random, bounds);
    if (area && (area.x1 - area.x0 < 2 || area.y1 - area.y0 < 2)) continue;
    const step = Math.floor(random() ** 2 * (steps + 1));
    const view = await archive.view(area, step);
    const collection = await archive.geojson(view, null);
    const turned = await archive.geojson(view, null, { project: ([x, y]) => [-x, y / 2] });
    tally.holds(`${name}: rings at step ${step} are closed, simple and turned as they should`, areRings(collection) && areRings(turned));
    holes += collection.features.filter(({ geometry }) => geometry.type === "Polygon" && geometry.coordinates.length > 1).length;
    parts += collection.features.filter(({ geometry }) => geometry.type === "MultiPolygon").length;
    const { x0, y0, x1, y1 } = view.area;
    for (let j = 0; j < 12; j++) {
      const [x, y] = [x0 + 1 + random() * (x1 - x0 - 2), y0 + 1 + random() * (y1 - y0 - 2)];
      const { face } = await archive.faceAt(x, y, step);
      tally.equal(`${name}: the polygons at (${x}, ${y}), step ${step}`, facesRound(collection.features, scale[0] * x + translate[0], scale[1] * y + translate[1]).join(), face === 0 ? "" : String(face));
    }
  }
  return { holes, parts };
}

async function followsTheProgram(words, number) {
  const folder = path.join(room, `map${number}`);
  await publish(executable, folder, ...words);
  const served = await serve(executable, ...words);
  const plain = await PlainServer.start(folder);
  try {
    const name = path.basename(words[0]);
    const archive = new Archive(plain.root);
    const client = new Client(served.root, { fetch: fetchAlone });
    await seesTheSame(name, archive, client, dice(number + 1));
    await findsFaces(name, archive, client, dice(number + 11));
    const { holes, parts } = await isDrawn(name, archive, dice(number + 21));
    tally.holds(`${name}: some faces have holes and several parts: ${holes}, ${parts}`, name !== "rooms.tgap" || (holes > 3 && parts > 3));
    tally.holds(`${name}: it is read by ranges`, archive.ranged === true && plain.heard.filter((it) => it.name.endsWith(".archive")).every((it) => it.status === 206));
  } finally {
    plain.stop();
    served.stop();
  }
}

/** All that an archive has, as one text: the finest step, the coarsest, and the metadata. */
async function allOf(archive) {
  const { steps } = await archive.info();
  const slices = [await archive.slice(0), await archive.slice(steps)].map(sliceText);
  return [...slices, JSON.stringify(await archive.metadata())].join("\n");
}

/** What a server gives of a folder, without a server: `change` may put other bytes in the place of a file's. */
function fetchFrom(folder, ranges, change) {
  return async (address, { headers } = {}) => {
    const name = new URL(address).pathname.slice(1);
    const bytes = change(name, readFileSync(path.join(folder, name)));
    const range = ranges && /^bytes=([0-9]+)-([0-9]+)$/.exec(new Headers(headers).get("range") ?? "");
    if (!range) return new Response(bytes);
    const [from, last] = [Number(range[1]), Math.min(Number(range[2]), bytes.length - 1)];
    if (from > last) return new Response("", { status: 416 });
    return new Response(bytes.subarray(from, last + 1), { status: 206, headers: { "Content-Range": `bytes ${from}-${last}/${bytes.length}` } });
  };
}

/** A small archive that is cut anywhere, or of which any byte is turned, is refused in a sentence, and so is one that is too long. */
async function refusesWhatIsNotWhole() {
  const folder = path.join(room, "small");
  const { archive: name, bytes: length } = await publish(executable, folder, "two_squares.json", "land", "two_squares.rules.json");
  const [root, alone] = ["http://127.0.0.1/", `http://127.0.0.1/${name}`];
  for (const ranges of [true, false]) {
    const faults = new Map();
    let turn = 0;
    const given = (address, change) => allOf(new Archive(address, { fetch: fetchFrom(folder, ranges, (asked, bytes) => (asked === name ? change(bytes) : bytes)) }));
    const tried = async (kind, change) => {
      // In turns by map.json, which tells the length, and without it.
      turn += 1;
      const error = await thrown(given([root, alone][turn % 2], change));
      const isRefused = error instanceof BadArchive && /^[a-z].*[^.\n]$/.test(error.message);
      if (!isRefused) faults.set(kind, String(error));
    };
    const same = (bytes) => bytes;
    tally.equal("an archive alone is read as the one that map.json names", await given(alone, same), await given(root, same));
    for (let at = 0; at < length; at++) await tried(`byte ${at} turned`, (bytes) => bytes.fill(bytes[at] ^ (1 + ((at * 37) % 255)), at, at + 1));
    for (let at = 0; at < length; at++) await tried(`cut at ${at}`, (bytes) => bytes.subarray(0, at));
    await tried("too long", (bytes) => Buffer.concat([bytes, Buffer.from("x")]));
    tally.equal(`${ranges ? "by ranges" : "as a whole"}: ${length} bytes, each turned and each cut`, JSON.stringify([...faults].slice(0, 3)), "[]");
  }
}

const MAP_JSON = [
  ["", "map.json is no JSON"],
  ["[]", "map.json is of the format undefined, and this client knows the format 2"],
  ["null", "map.json is no object of JSON"],
  [{ format: 1 }, "map.json is of the format 1, and this client knows the format 2"],
  [{ archive: "../map.archive" }, "map.json names no archive beside it"],
  [{ archive: "http://evil.example/map.archive" }, "map.json names no archive beside it"],
  [{ bytes: -1 }, "map.json does not tell length, version, steps and faces"],
  [{ steps: "1" }, "map.json does not tell length, version, steps and faces"],
  [{ history: 7 }, "map.json has a history that is no text"],
  [{ bounds: [0, 0, 1] }, "map.json does not tell the bounds of the map"],
  [{ transform: {} }, "map.json does not tell how grid units become coordinates"],
  [{ bytes: 9 }, /^the archive is (cut|too long): it has [0-9]+ bytes in place of [0-9]+$/],
  [{ steps: 9 }, "map.json tells of another archive than the one that it names"],
];

async function refusesOtherFiles() {
  const folder = path.join(room, "small");
  const plain = await PlainServer.start(folder);
  const told = JSON.parse(readFileSync(path.join(folder, "map.json")));
  try {
    for (const [members, message] of MAP_JSON) {
      const text = typeof members === "string" ? members : JSON.stringify({ ...told, ...members });
      plain.change = (name, bytes) => (name === "map.json" ? Buffer.from(text) : bytes);
      const error = await thrown(new Archive(plain.root).info());
      tally.holds(`map.json with ${text.slice(0, 60)}: ${error}`, error instanceof BadArchive && (message instanceof RegExp ? message.test(error.message) : error.message === message));
    }
    plain.change = (name, bytes) => (name.endsWith(".archive") ? Buffer.from("<html>nothing here</html>") : bytes);
    tally.equal("a page in place of an archive", (await thrown(new Archive(`${plain.root}${told.archive}`).info())).message, "this is no archive of a map: it does not begin as one");
    plain.change = (name, bytes) => (name.endsWith(".archive") ? Buffer.from("tgap-archive 1 1 00000000 00000000\n") : bytes);
    tally.equal("an archive of another format", (await thrown(new Archive(`${plain.root}${told.archive}`).info())).message, "the archive has the format 1, and this client knows the format 2");
    plain.change = (_name, bytes) => bytes;
    const none = await thrown(new Archive(`${plain.root}nowhere/`).info());
    tally.holds(`where nothing is: ${none}`, none instanceof Refused && none.status === 404 && none.message === "there is no map.json at this address");
    const archive = new Archive(plain.root);
    for (const [step, words] of [[-1, /whole number/], [0.5, /whole number/], [2, /too high: the map has 1/], [{ scale: 0 }, /above 0/], [{ scale: 9 }, /does not tell/], [undefined, /a step, or a scale/]]) {
      const error = await thrown(archive.view(null, step));
      tally.holds(`no view at step ${JSON.stringify(step)}: ${error}`, error instanceof RangeError && words.test(error.message));
    }
    tally.holds("no view of a box that is none", (await thrown(archive.view({ x0: 1, y0: 0, x1: 0, y1: 1 }, 0))) instanceof RangeError);
    tally.holds("no face at a place that is none", (await thrown(archive.faceAt(NaN, 0, 0))) instanceof RangeError);
    for (const url of ["ftp://127.0.0.1/", "data:,x"]) tally.holds(`no archive at ${url}`, (() => { try { return !new Archive(url); } catch (error) { return error instanceof TypeError; } })());
  } finally {
    plain.stop();
  }
  const gone = await thrown(new Archive(plain.root).info());
  tally.holds(`a server that is gone: ${gone}`, gone instanceof Unreachable);
}

// Columns of areas that are none.
const NO_COLUMNS = [
  {}, { id: [1] }, { attributes: {} }, { id: [1], attributes: [] }, { id: [1], name: [1, 2], attributes: {} }, { id: 7, attributes: {} }, { id: [1], attributes: { a: [] } },
  { id: { first: 1, by: ["1"] }, attributes: {} }, { id: { first: 0.5, by: [] }, attributes: {} }, { id: { of: [0, 1], values: [1] }, attributes: {} },
  ...[[], [0], [0, 2], [2, 1], [-1, 1], [1, 1, 0, 1], [0, -1], [0, "1"], 7].map((of) => ({ id: [1, 2], attributes: { a: { of, values: [1] } } })),
];

/** A scale stands for the finest step that the table of the metadata has for it. */
async function findsStepsOfScales() {
  const folder = path.join(room, "scales");
  const known = JSON.parse(readFileSync(path.join(examples, "columbus.meta.json"), "utf8"));
  const steps = [[0, 1000], [20, 5000], [40, 20000]].map(([step, scale]) => ({ step, faces: 49 - step, least: 1, scale }));
  await publish(executable, folder, "columbus.json", "areas", "columbus.rules.json", "--meta", written("scales.meta.json", JSON.stringify({ ...known, steps })));
  const plain = await PlainServer.start(folder);
  try {
    const archive = new Archive(plain.root);
    for (const [scale, step] of [[1, 0], [1000, 0], [1001, 20], [5000, 20], [6000, 40], [20000, 40], [1e9, 40]]) {
      const view = await archive.view(null, { scale });
      tally.equal(`at 1 : ${scale}`, `${view.step} ${sliceText({ step, faces: view.faces, edges: view.edges }) === sliceText(await archive.slice(step))}`, `${step} true`);
    }
  } finally {
    plain.stop();
  }
}

/** A cell is read, and a view put together, in pieces of a record, between which a page draws its frames. */
async function worksInPieces() {
  const plain = await PlainServer.start(path.join(room, "map3"));
  try {
    const archive = new Archive(plain.root);
    const { steps } = await archive.info();
    const text = `window-packet 3 0 0 0 1 1\n${[3, 2, 1].map((step) => `step ${step} ${2 * step} ${2 * step + 1} ${9 * step} 1 0 0\nface ${2 * step} 0\n`).join("")}end\ninside 0\nend\n`;
    const work = cellInPieces(text);
    const seen = [work.next(), work.next(), work.next()].map(({ done }) => done);
    tally.equal("a piece of a cell is a record", `${seen} ${JSON.stringify(work.next().value) === JSON.stringify(readCell(text))}`, "false,false,false true");
    // A clock by which each piece takes as long as a frame.
    const { now } = performance;
    let [ticks, frames] = [performance.now(), 0];
    let isOver = false;
    const frame = () => isOver || (frames += 1, setTimeout(frame));
    performance.now = () => (ticks += 5);
    try {
      frame();
      await archive.view(null, 0);
    } finally {
      isOver = true;
      performance.now = now;
    }
    tally.holds(`frames are drawn on the way to ${steps} steps: ${frames}`, frames > steps);
  } finally {
    plain.stop();
  }
}

/** The metadata of an archive are those of its map, for one request at most, and a feature has the name and the attributes of its area; columns that are none are refused. */
async function readsMetadata() {
  const plain = await PlainServer.start(path.join(room, "map0"));
  try {
    const whole = JSON.parse(readFileSync(path.join(examples, "columbus.meta.json"), "utf8"));
    const archive = new Archive(plain.root);
    const view = await archive.view(null, 0);
    const before = plain.heard.length;
    tally.equal("the metadata of a map", JSON.stringify(await archive.metadata()), JSON.stringify(whole));
    const { features } = await archive.geojson(view);
    tally.holds("one request brings them", plain.heard.length - before <= 1);
    const wrong = features.filter(({ id, properties }) => {
      const { id: ofArea, name, attributes } = whole.areas[whole.faces[id - 1]];
      return properties.id !== ofArea || properties.name !== name || Object.entries(attributes).some(([key, value]) => properties[key] !== value);
    });
    tally.equal("each feature has what is known of its area", `${features.length} ${wrong.map(({ id }) => id)}`, "49 ");
  } finally {
    plain.stop();
  }
  await findsStepsOfScales();
  const example = { id: [7, 8, "sea"], name: ["Wood", null, null], made: { of: [2, 1], values: ["sea"] }, sources: { of: [2, 1], values: [[]] }, attributes: { height: { of: [0, 2], values: [12, 30] } } };
  const rows = [{ id: 7, name: "Wood", attributes: { height: 12 } }, { id: 8, name: null, attributes: { height: 30 } }, { id: "sea", name: null, made: "sea", sources: [], attributes: {} }];
  tally.equal("areas by columns", JSON.stringify(metadataOf({ faces: { first: 5, by: [1, -2] }, areas: example })), JSON.stringify({ faces: [5, 6, 4], areas: rows }));
  const odd = metadataOf(JSON.parse('{"areas":{"id":[1],"attributes":{"__proto__":[{"a":1}]}}}')).areas[0];
  tally.equal("a name is nothing but a name", `${Object.getPrototypeOf(odd.attributes) === Object.prototype} ${JSON.stringify(odd)}`, 'true {"id":1,"attributes":{"__proto__":{"a":1}}}');
  tally.equal("what is no list of areas stays", JSON.stringify(metadataOf({ areas: [7] })), '{"areas":[7]}');
  for (const areas of NO_COLUMNS) {
    const error = await thrown((async () => metadataOf({ areas }))());
    tally.holds(`columns that are none: ${JSON.stringify(areas)}: ${error}`, error instanceof BadArchive && error.message === "the metadata of the archive are not of their form");
  }
}

/** A server without ranges, and a file that was chosen from a disk. */
async function takesWholeFiles() {
  const folder = path.join(room, "map3");
  const { archive: name } = await publish(executable, folder, path.join(room, "grid.tgap"));
  const [parts, whole] = [await PlainServer.start(folder), await PlainServer.start(folder, { ranges: false })];
  try {
    const [one, other] = [parts, whole].map(({ root }) => new Archive(root));
    const told = [];
    for (const archive of [one, other]) archive.addEventListener("whole", ({ bytes }) => told.push(bytes));
    const texts = [await allOf(one), await allOf(other), await allOf(new Archive(new Blob([readFileSync(path.join(folder, name))])))];
    tally.holds("all three give the same", texts.every((it) => it === texts[0]));
    tally.equal("a server without ranges is told once", told.join(), String((await other.info()).bytes));
    tally.equal("and the file is taken once", whole.heard.filter((it) => it.name === name).length, 1);
    tally.equal("which the archive says", `${one.ranged} ${other.ranged}`, "true false");
  } finally {
    parts.stop();
    whole.stop();
  }
}

/** Where nothing newer is there, to ask for it changes nothing: views go on, and nothing of the archive is read anew but what was damaged on its way. */
async function goesOnFromTheNewest() {
  const plain = await PlainServer.start(path.join(room, "map3"));
  try {
    const archive = new Archive(plain.root);
    const { steps, version, history, archive: name } = await archive.info();
    const view = await archive.view(null, steps);
    const before = plain.heard.length;
    tally.equal("the newest is the one that is shown", await archive.pin(), version);
    archive.show(version, history);
    await archive.info();
    tally.equal("only map.json was asked for", plain.heard.slice(before).map((it) => it.name).join(), "map.json,map.json");
    tally.equal("a view of it goes on", String(await thrown(archive.refine(view, 0))), "null");
    const finest = sliceText(await new Archive(plain.root).slice(0));
    tally.equal("as the archive has it", sliceText({ step: view.step, faces: view.faces, edges: view.edges }), finest);
    const other = new Archive(plain.root);
    const coarse = await other.view(null, steps);
    plain.change = (asked, bytes) => (asked === name ? Buffer.from(bytes.map((it, at) => (at > bytes.length >> 1 ? it ^ 1 : it))) : bytes);
    const damaged = await thrown(other.refine(coarse, 0));
    tally.holds(`what is damaged on its way is refused: ${damaged}`, damaged instanceof BadArchive);
    plain.change = (_name, bytes) => bytes;
    await other.pin();
    tally.equal("and read anew after that", sliceText(await other.slice(0)), finest);
    tally.holds("a view of before is refused then", (await thrown(other.refine(coarse, 0))) instanceof OtherVersion);
  } finally {
    plain.stop();
  }
}

/** An edit is published behind the reader's back: he goes on with the file that he has, until he asks anew. */
async function keepsToOneArchive() {
  const folder = path.join(room, "edited");
  const file = written("edited.tgap", gridListing(24));
  const served = await serve(executable, file);
  const plain = await PlainServer.start(folder);
  try {
    const edit = async (body, version) => tally.equal("an edit behind the back", await (await fetchAlone(`${served.root}edit`, { method: "POST", body })).text(), `published ${version}\n`);
    const first = await publish(executable, folder, "--from", served.root);
    const archive = new Archive(plain.root);
    const heard = [];
    for (const kind of ["version", "history"]) archive.addEventListener(kind, ({ version }) => heard.push(`${kind} ${version}`));
    const view = await archive.view(null, 100);
    const before = await new Client(served.root, { fetch: fetchAlone }).slice(0);
    const [[x, y]] = before.edges.get(20).points.slice(1);
    await edit(`move ${x} ${y} ${x + 3} ${y + 2}\n`, 1);
    const second = await publish(executable, folder, "--from", served.root);
    tally.holds("another archive is named", second.archive !== first.archive && second.version === first.version + 1);
    await archive.refine(view, 0);
    tally.equal("the reader goes on with the old one", sliceText({ ...before, step: 0 }), sliceText({ step: 0, faces: view.faces, edges: view.edges }));
    tally.equal("which he is told of", heard.join(), "");
    const newest = await archive.newest();
    tally.equal("when he asks, the newer one is told", `${newest.version} ${newest.archive} ${heard.join()}`, `${second.version} ${second.archive} version ${second.version}`);
    tally.equal("what is shown stays", (await archive.info()).archive, first.archive);
    archive.show(newest.version, newest.history);
    const after = await archive.slice(0);
    tally.equal("he shows it when he wants", after.edges.get(20).points[1].join(), `${x + 3},${y + 2}`);
    const mixed = await thrown(archive.load(view, 0));
    tally.holds(`a view of the old one is not refined by the new one: ${mixed}`, mixed instanceof OtherVersion);
    tally.equal("a reader who comes then sees the newest", (await new Archive(plain.root).info()).archive, second.archive);
    const [late, missed] = [new Archive(plain.root), []];
    await late.info();
    late.addEventListener("history", ({ version }) => missed.push(version));
    await edit(`move ${x + 3} ${y + 2} ${x} ${y}\n`, 2);
    const third = await publish(executable, folder, "--from", served.root);
    rmSync(path.join(folder, second.archive));
    const passed = await thrown(late.slice(0));
    // A server without a front server names no history, and so each archive is one by itself.
    const isTold = passed instanceof OtherHistory && passed.version === third.version && passed.history === third.archive;
    tally.holds(`a reader whose archive has gone is told of the newer one: ${passed}`, isTold && missed.join() === String(third.version));
    late.show(passed.version, passed.history);
    tally.equal("and can show it", (await late.slice(0)).edges.get(20).points[1].join(), `${x},${y}`);
    rmSync(path.join(folder, third.archive));
    const gone = await thrown(new Archive(plain.root).info());
    tally.holds(`an archive that is not there: ${gone}`, gone instanceof Refused && gone.status === 404);
  } finally {
    plain.stop();
    served.stop();
  }
}

/** Calls that are given up end at once, and other calls side by side with them go on. */
async function givesUp() {
  const plain = await PlainServer.start(path.join(room, "small"));
  let hold;
  const held = new Promise((resolve) => (hold = resolve));
  plain.before = () => held;
  try {
    const archive = new Archive(plain.root);
    const controller = new AbortController();
    const [one, other] = [archive.info({ signal: controller.signal }), archive.info()];
    controller.abort(new Error("enough"));
    tally.equal("a call is given up with the reason of its signal", (await thrown(one))?.message, "enough");
    hold();
    tally.equal("and the other one is answered", (await other).faces, 2);
    const all = new AbortController();
    const ended = new Archive(plain.root, { signal: all.signal });
    all.abort(new Error("no more"));
    tally.equal("all calls are given up by the signal of all", (await thrown(ended.info()))?.message, "no more");
  } finally {
    plain.stop();
  }
}

try {
  for (const [number, words] of maps().entries()) await followsTheProgram(words, number);
  await readsMetadata();
  await refusesWhatIsNotWhole();
  await refusesOtherFiles();
  await takesWholeFiles();
  await worksInPieces();
  await goesOnFromTheNewest();
  await keepsToOneArchive();
  await givesUp();
} finally {
  endServing();
  rmSync(room, { recursive: true });
}
tally.end();
