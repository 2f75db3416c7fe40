// Holds clients/js against the served program: refinement, the face of a point, what windows are painted with, versions and histories, and refusals.
// usage: node tests/web/client.mjs EXECUTABLE. Last line: 'N passed, N failed, N skipped'.
import { execFile } from "node:child_process";
import { mkdtempSync, rmSync, writeFileSync } from "node:fs";
import { tmpdir } from "node:os";
import path from "node:path";
import { fileURLToPath } from "node:url";
import { promisify } from "node:util";
import { Client, OtherVersion, Refused, Unfit, Unreachable } from "../../clients/js/client.js";
import { pictureOfSlice, pictureOfWindow } from "../../clients/js/pictures.js";
import { areaOf, boxOf } from "../../clients/js/places.js";
import { readWindowPacket, sliceText, windowPacketText, windowText } from "../../clients/js/wire.js";
import { Tally, dice, gridListing, serve, tgap, thrown } from "./lib.mjs";
import { calls } from "./calls.mjs";
import { lives } from "./lives.mjs";
import { refusals } from "./refusals.mjs";

const executable = path.resolve(process.argv[2]);
const room = mkdtempSync(path.join(tmpdir(), "web-client-"));
const tally = new Tally();
const COLUMBUS = ["columbus.json", "areas", "columbus.rules.json"];

/** The faces whose borders cross the line from a point to the right an odd number of times: the one that the point lies in, found without pictures. */
function truth(slice, x, y) {
  const odd = new Set();
  const toggle = (face) => odd.delete(face) || odd.add(face);
  for (const { points, left, right } of slice.edges.values()) {
    for (let i = 1; i < points.length; i++) {
      const [a, b] = [points[i - 1], points[i]];
      if (a[1] > y === b[1] > y) continue;
      if (a[0] + ((y - a[1]) * (b[0] - a[0])) / (b[1] - a[1]) > x) [left, right].forEach(toggle);
    }
  }
  odd.delete(0);
  return [...odd].join(" ") || "0";
}

/** Whether a ring goes round a point an odd number of times. */
function goesRound(ring, x, y) {
  return ring.reduce((odd, b, i) => {
    const a = ring[(i + ring.length - 1) % ring.length];
    return a[1] > y !== b[1] > y && a[0] + ((y - a[1]) * (b[0] - a[0])) / (b[1] - a[1]) > x ? !odd : odd;
  }, false);
}

/** The class whose rings go round a point an odd number of times. */
function painted(picture, x, y) {
  const classes = [...picture.fills].filter(([, rings]) => rings.filter((ring) => goesRound(ring, x, y)).length % 2 === 1).map(([ofClass]) => ofClass);
  return classes.join(" ") || "none";
}

/** The parts of the faces of a topology: the face, its class, and its rings as rows of points. */
function partsOf(topology) {
  const lines = topology.arcs.map((arc) => {
    let [x, y] = [0, 0];
    return arc.map(([dx, dy]) => [(x += dx), (y += dy)]);
  });
  const line = (index) => (index >= 0 ? lines[index] : [...lines[~index]].reverse());
  return topology.objects.map.geometries.map(({ properties, arcs }) => ({ ...properties, rings: arcs.map((ring) => ring.flatMap((index) => line(index).slice(1))) }));
}

/** The faces of a topology, with their classes, whose rings go round a point an odd number of times. */
function ringed(parts, x, y) {
  const found = parts.filter(({ rings }) => rings.filter((ring) => goesRound(ring, x, y)).length % 2 === 1);
  return found.map((part) => `${part.face} ${part.class}`).join(", ") || "0 none";
}

const classOf = (slice, face) => String(slice.faces.get(Number(face)) ?? "none");

/** A point between those of the grid, so that it is on no border. */
const between = (random, { x0, y0, x1, y1 }) => [Math.floor(x0 + random() * (x1 - x0)) + 0.377, Math.floor(y0 + random() * (y1 - y0)) + 0.613];

async function refines(words, client) {
  const { steps } = await client.info();
  const map = await client.refined(steps);
  const chosen = [steps, steps - 1, Math.floor(steps / 2), 1, 0].filter((step, i, all) => step >= 0 && (i === 0 || step < all[i - 1]));
  for (const step of chosen) {
    await client.refine(map, step);
    tally.equal(`${words[0]}: refined to step ${step}`, sliceText(map), tgap(executable, "slice", words[0], String(step), ...words.slice(1)).text);
  }
}

/** Windows that packets refine are those that are served; a packet of another window, or a record that breaks a rule, changes nothing. */
async function refinesWindows(name, client, random) {
  const { steps } = await client.info();
  const all = boxOf((await client.refined(0)).edges.values());
  for (let i = 0; i < 40; i++) {
    const span = Math.max(1, Math.floor((all.x1 - all.x0) * random() ** 2));
    const [x0, y0] = [all.x0 + random() * (all.x1 - all.x0), all.y0 + random() * (all.y1 - all.y0)].map(Math.floor);
    const area = { x0, y0, x1: x0 + span, y1: y0 + span };
    const [from, to] = [random(), random()].map((part) => Math.floor(part * (steps + 1))).sort((a, b) => b - a);
    const map = await client.refinedWindow(from, area);
    const packet = await client.windowPacket(from, to, area);
    tally.equal(`${name}: a packet is read and written`, windowPacketText(packet), windowPacketText(readWindowPacket(windowPacketText(packet))));
    const before = windowText(map);
    const other = { ...packet, area: { ...area, x1: area.x1 + 1 } };
    tally.equal(`${name}: a packet of another window`, [ruleOf(() => map.replay(other)), windowText(map)].join("\n"), ["1", before].join("\n"));
    await client.refineWindow(map, to);
    tally.equal(`${name}: window ${JSON.stringify(area)} from step ${from} to ${to}`, windowText(map), windowText(await client.window(to, area)));
  }
  await breaksRules(name, client, steps, all);
}

/** The rule that a call says is broken, or none. */
function ruleOf(call) {
  try {
    call();
    return "none";
  } catch (error) {
    if (!(error instanceof Unfit)) throw error;
    return String(error.rule);
  }
}

/** Records of the whole plane that break one rule alone. */
async function breaksRules(name, client, steps, area) {
  const { records } = await client.windowPacket(steps, 0, area);
  const map = await client.refinedWindow(steps, area);
  const [record] = records;
  const [mend] = record.mends;
  const broken = [
    [1, { step: record.step + 1 }],
    [2, { loser: record.winner }],
    [3, { mends: [...record.mends, mend] }],
    [4, { mends: [{ ...mend, puts: [{ at: 0, point: [0, 0] }, ...mend.puts] }, ...record.mends.slice(1)] }],
    [5, { mends: [{ ...mend, pieces: [] }, ...record.mends.slice(1)] }],
    [6, { faces: [...record.faces, [0, 0]] }],
    [7, { comes: [...record.comes, { ...record.comes[0], key: record.mends[0].pieces[0].key }].sort((a, b) => a.key - b.key) }],
    [8, { faces: record.faces.slice(1) }],
  ];
  tally.holds(`${name}: there is an edge to mend, and one that comes`, mend !== undefined && record.comes.length > 0);
  for (const [rule, twisted] of broken) {
    const before = windowText(map);
    tally.equal(`${name}: rule ${rule}`, [ruleOf(() => map.undo({ ...record, ...twisted })), windowText(map)].join("\n"), [String(rule), before].join("\n"));
  }
  map.undo(record);
  tally.equal(`${name}: a step back`, windowText(map), windowText(await client.window(steps - 1, area)));
}

async function findsFaces(name, client, random) {
  const { steps } = await client.info();
  for (const step of [0, Math.floor(steps / 2), steps - 2]) {
    const slice = await client.refined(step);
    const picture = pictureOfSlice(slice, client);
    const parts = partsOf(await client.topology(step));
    const box = boxOf(slice.edges.values());
    for (let i = 0; i < 30; i++) {
      const [x, y] = [box.x0 + random() * (box.x1 - box.x0), box.y0 + random() * (box.y1 - box.y0)].map(Math.floor);
      const found = await client.faceAt(x, y, step);
      const near = [truth(slice, x + 1e-6, y - 1e-6), truth(slice, x + 1e-6, y + 1e-6)];
      tally.holds(`${name}: the face at (${x}, ${y}), step ${step}`, near.includes(String(found.face)));
      tally.equal(`${name}: its class`, String(found.ofClass ?? "none"), classOf(slice, found.face));
      const [u, v] = between(random, box);
      tally.equal(`${name}: a slice tells the face at (${u}, ${v})`, String(picture.faceAt(u, v)), truth(slice, u, v));
      tally.equal(`${name}: a slice is painted at (${u}, ${v})`, painted(picture, u, v), classOf(slice, truth(slice, u, v)));
      tally.equal(`${name}: the rings of the topology go round (${u}, ${v})`, ringed(parts, u, v), `${truth(slice, u, v)} ${classOf(slice, truth(slice, u, v))}`);
    }
    // On a border either face will do.
    for (const { points, left, right } of [...slice.edges.values()].slice(0, 10)) {
      const { face } = await client.faceAt(...points[0], step);
      const beside = [...slice.edges.values()].filter((edge) => edge.points.some((p) => String(p) === String(points[0])));
      tally.holds(`${name}: a face beside the vertex ${points[0]}`, beside.some((edge) => [edge.left, edge.right].includes(face)));
      const known = [...slice.edges.values()];
      for (const side of [left, right].filter((it) => it !== 0)) {
        const all = await client.edgesOf(side, step, known.filter((edge) => edge.left === side || edge.right === side).slice(0, 1));
        tally.equal(`${name}: the area of face ${side}`, areaOf(side, all), areaOf(side, known));
      }
    }
  }
}

/** Windows of all sizes: at each point they tell the face, and are painted with its class. Some lie within one face and so have no border. */
async function paintsWindows(name, client, random) {
  const { steps } = await client.info();
  let bare = 0;
  for (const step of [0, Math.floor(steps / 2), steps - 4]) {
    const slice = await client.refined(step);
    const all = boxOf(slice.edges.values());
    for (let i = 0; i < 60; i++) {
      const span = Math.max(2, Math.floor((all.x1 - all.x0) * random() ** 4));
      const [x0, y0] = [all.x0 + random() * (all.x1 - all.x0) - span / 2, all.y0 + random() * (all.y1 - all.y0) - span / 2].map(Math.floor);
      const area = { x0, y0, x1: x0 + span, y1: y0 + span };
      const picture = await pictureOfWindow(await client.window(step, area), client, (x, y) => client.faceAt(x, y, step));
      if (picture.lines.length === 0) bare += 1;
      for (let j = 0; j < 8; j++) {
        const [x, y] = between(random, picture.box);
        if (x < picture.box.x0 || y < picture.box.y0 || x > picture.box.x1 || y > picture.box.y1) continue;
        const face = truth(slice, x, y);
        tally.equal(`${name}: window ${JSON.stringify(area)} of step ${step} tells the face at (${x}, ${y})`, String(picture.faceAt(x, y)), face);
        tally.equal(`${name}: window ${JSON.stringify(area)} of step ${step} is painted at (${x}, ${y})`, painted(picture, x, y), classOf(slice, face));
      }
    }
  }
  tally.holds(`${name}: some windows lie within one face`, bare > 20);
}

async function maps() {
  const grid = path.join(room, "grid.tgap");
  writeFileSync(grid, gridListing(12));
  for (const words of [["hole_with_face.tgap"], ["notch_with_island.tgap"], COLUMBUS, [grid]]) {
    const { root, stop } = await serve(executable, ...words);
    try {
      const client = new Client(root);
      await refines(words, client);
      if (words.length === 1 && words[0] !== grid) continue;
      await refinesWindows(words[0], client, dice(3));
      await findsFaces(words[0], client, dice(1));
      await paintsWindows(words[0], client, dice(2));
    } finally {
      stop();
    }
  }
}

/** Publishes an edit behind the back of a client that is just about to send his own. */
async function withAnEditBetween(root, batch, work) {
  const plain = globalThis.fetch;
  globalThis.fetch = async (address, options) => {
    if (address.endsWith("/edit")) {
      globalThis.fetch = plain;
      await plain(`${root}edit`, { method: "POST", body: batch });
    }
    return plain(address, options);
  };
  try {
    return await work();
  } finally {
    globalThis.fetch = plain;
  }
}

/** Has each request come on a connection of its own, as through the front server of the example. */
async function withoutKeptConnections(work) {
  const plain = globalThis.fetch;
  globalThis.fetch = (address, options) => plain(address, { ...options, headers: { ...options.headers, connection: "close" } });
  try {
    await work();
  } finally {
    globalThis.fetch = plain;
  }
}

/** Two kept connections with different pins: a client goes on with the version that he shows, and is told where he must not. */
async function keptConnections() {
  const { root, stop } = await serve(executable, "two_squares.tgap");
  const client = new Client(root);
  await Promise.all([fetch(`${root}info`), fetch(`${root}info`)].map(async (it) => (await it).text()));
  await client.edit("move 20 10 24 10\n");
  const slices = [];
  for (let i = 0; i < 6; i++) slices.push(sliceText(await client.slice(0)));
  tally.holds("kept connections: each answer is of the version that is shown", slices.every((text) => text.includes("24 10")));
  tally.equal("kept connections: the next edit is foreseen", JSON.stringify(await client.edit("move 24 10 26 10\n")), '{"version":2,"foreseen":true}');
  stop();
}

async function versions() {
  const served = await serve(executable, "two_squares.tgap");
  const { root } = served;
  const [one, other] = [new Client(root), new Client(root)];
  tally.equal("the first version is 0", (await one.info()).version, 0);
  await other.info();
  const first = await other.edit("move 20 10 24 10\n");
  tally.equal("an edit gives the next version", JSON.stringify(first), '{"version":1,"foreseen":true}');
  const error = await thrown(one.slice(0));
  tally.holds("nothing of a newer version is given", error instanceof OtherVersion && error.version === 1);
  tally.equal("the newest version is told", (await one.newest()).version, 1);
  tally.equal("and what is shown stays", one.version, 0);
  tally.holds("an edit of an old map is not sent", (await thrown(one.edit("class 1 0\n"))) instanceof OtherVersion && (await other.newest()).version === 1);
  one.show(1);
  tally.equal("after that the new version is there", (await one.info()).version, 1);
  const unseen = await withAnEditBetween(root, "move 24 10 25 10\n", () => one.edit("move 0 10 0 12\n"));
  tally.equal("an edit on a version that was not seen is told", JSON.stringify(unseen), '{"version":3,"foreseen":false}');
  const refused = await thrown(one.edit("move 1 1 2 2\n"));
  tally.holds("a refusal is told in the server's words", refused instanceof Refused && refused.status === 422 && refused.message === "edit line 1 cause 3");
  tally.holds("a step that is too high is refused", (await thrown(one.slice(9))).message === "step too high 1");
  served.stop();
  tally.holds("a server that is gone is told", (await thrown(one.info())) instanceof Unreachable);
}

/** The server loses its versions when it ends: a client of an old one is told. */
async function startedAnew() {
  const { root, stop } = await serve(executable, "two_squares.tgap");
  const client = new Client(root);
  client.version = 4;
  const error = await thrown(client.info());
  tally.holds("a server that was started anew is told", error instanceof OtherVersion && error.version === 0);
  stop();
}

async function example() {
  const { root, stop } = await serve(executable, "two_squares.tgap");
  const file = fileURLToPath(new URL("../../clients/js/example.mjs", import.meta.url));
  const { stdout } = await promisify(execFile)(process.execPath, [file, root]);
  const lines = ["step 1: 1 faces", "step 0: 2 faces, 3 edges", "at (12, 3): face 2 of class 0", "version 1, made from what was read", ""];
  tally.equal("the example", stdout, lines.join("\n"));
  stop();
}

try {
  await example();
  await calls(executable, tally);
  await withoutKeptConnections(versions);
  await keptConnections();
  await startedAnew();
  await lives(executable, tally);
  await refusals(tally);
  await maps();
} finally {
  rmSync(room, { recursive: true });
}
tally.end();
