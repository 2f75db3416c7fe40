// Holds the drafts of clients/js against a plain program, over random edits of small maps, and against the built program.
// usage: node tests/web/drafts.mjs EXECUTABLE. Last line: 'N passed, N failed, N skipped'.
import { mkdtempSync, readFileSync, rmSync, writeFileSync } from "node:fs";
import { tmpdir } from "node:os";
import path from "node:path";
import { Client } from "../../clients/js/client.js";
import { Draft, knowsCuts } from "../../clients/js/draft.js";
import { editOf, lineOf } from "../../clients/js/edit_lines.js";
import { OtherVersion, Refused, faultIn } from "../../clients/js/errors.js";
import { isRound } from "../../clients/js/sides.js";
import { Tally, dice, endServing, examples, fetchAlone, gridListing, serve, thrown } from "./lib.mjs";
import { edited, mapOf } from "./plain_edits.mjs";

const executable = process.argv[2];
const tally = new Tally();
const room = mkdtempSync(path.join(tmpdir(), "web-drafts-"));
const LINES = 1500;
const BATCHES = 150;
// A server that is tried has 64, the map itself among them.
const MOST_VERSIONS = 60;
const NEWER = /^(node|cut|fuse) /;
const MOST_POINTS = 524288;
const MOST_ARCS = 65536;

const listing = (name) => readFileSync(path.join(examples, `${name}.tgap`), "utf8");

/** A square with two islands in it, one of two faces, and an island that touches the border of the square at a corner. */
const ISLANDS = [
  "tgap 1", "transform 1 1 0 0", "ratio 4", "classes 4", ...[0, 1, 2, 3].map((it) => `class ${it} 1 1 1 1 1`),
  "faces 5", ...[1, 2, 3, 4, 5].map((it) => `face ${it} ${it % 4}`), "arcs 6",
  "arc 1 0 5 0 0 60 0 60 60 0 60 0 0", "arc 2 1 5 10 10 20 10 20 20 10 20 10 10", "arc 3 1 4 40 10 50 10 50 20 40 20", "arc 4 1 4 40 20 30 20 30 10 40 10",
  "arc 3 4 2 40 20 40 10", "arc 5 1 4 0 0 8 3 3 8 0 0", "end", "",
].join("\n");

const MAPS = [
  ["squares", gridListing(3)],
  ["areas of several parts", gridListing(4, { owner: (i, j) => (i + 2 * j) % 5 })],
  ["islands", ISLANDS],
  ["a hole with a face", listing("hole_with_face")],
  ["a notch with an island", listing("notch_with_island")],
  ["far corners", gridListing(2, { side: 2 ** 31, first: -(2 ** 31), most: 2 ** 31, version: 2 })],
];

const sliceOf = ({ arcs, classes }) => ({ step: 0, faces: new Map(classes.map((it, i) => [i + 1, it])), edges: new Map(arcs.map((arc, key) => [key, { key, ...arc }])) });
const draftOf = (map) => new Draft(sliceOf(map), { classes: map.count });
const stateOf = ({ arcs, classes }) => JSON.stringify([classes, arcs.map(({ left, right, points }) => [left, right, points])]);
const stateOfDraft = ({ edges, faces }) => {
  const arcs = [...edges.values()].sort((a, b) => a.key - b.key);
  return stateOf({ arcs, classes: [...faces].sort((a, b) => a[0] - b[0]).map(([, ofClass]) => ofClass) });
};

/** Lines that are near to what applies: most name points and faces that are there. */
class Lines {
  constructor(seed) {
    this.random = dice(seed);
  }

  below(count) {
    return Math.floor(this.random() * count);
  }

  pick(row) {
    return row[this.below(row.length)];
  }

  face({ classes }) {
    return this.below(classes.length + 1) + (this.below(8) === 0 ? 1 : 0);
  }

  point({ arcs }) {
    return this.pick(this.pick(arcs).points);
  }

  /** A point between some of the map's, which is mostly new. */
  place(map) {
    const [p, q] = [this.point(map), this.point(map)];
    const share = this.random();
    return p.map((z, axis) => Math.round(z + (q[axis] - z) * share) + (this.below(3) === 0 ? 1 : 0)).map((z) => Math.max(-(2 ** 31), Math.min(2 ** 31, z)));
  }

  /** A cut from one point to another one, in a face beside the first one, mostly. */
  cut(map) {
    const [p, q] = [this.point(map), this.point(map)];
    const beside = map.arcs.filter(({ points }) => points.some((it) => String(it) === String(p))).flatMap(({ left, right }) => [left, right]);
    const between = Array.from({ length: this.pick([0, 0, 0, 1, 2]) }, () => this.place(map));
    const points = [p, ...between, q];
    const nodes = this.below(4) === 0 ? [] : [p, q].filter((it) => typeof edited(map, `node ${it.join(" ")}`) !== "number").map((it) => `node ${it.join(" ")}`);
    const face = this.below(8) === 0 ? this.face(map) : this.pick(beside);
    return [...new Set(nodes), `cut ${face} ${this.below(map.count)} ${points.length} ${points.flat().join(" ")}`];
  }

  fuse(map) {
    const { left, right } = this.pick(map.arcs);
    const pair = this.below(4) === 0 ? [this.face(map), this.face(map)] : [left, right];
    return [`fuse ${pair.join(" ")}`];
  }

  add(map) {
    const { points } = this.pick(map.arcs);
    const at = 1 + this.below(points.length - 1);
    const ends = this.below(6) === 0 ? [this.point(map), this.point(map)] : [points[at], points[at - 1]];
    return [`add ${[...ends, this.place(map)].flat().join(" ")}`];
  }

  next(map) {
    const kinds = {
      class: () => [`class ${this.face(map)} ${this.below(map.count + 1)}`],
      move: () => [`move ${[this.below(6) === 0 ? this.place(map) : this.point(map), this.place(map)].flat().join(" ")}`],
      add: () => this.add(map),
      drop: () => [`drop ${this.point(map).join(" ")}`],
      node: () => [`node ${this.point(map).join(" ")}`],
      cut: () => this.cut(map),
      fuse: () => this.fuse(map),
    };
    return kinds[this.pick(["class", "move", "add", "add", "drop", "node", "cut", "cut", "cut", "fuse"])]();
  }
}

/** Each line is applied or refused as the plain program has it, and what was done can be undone and done again. */
function followsThePlainProgram() {
  const causes = new Map();
  for (const [name, text] of MAPS) {
    const first = mapOf(text);
    const lines = new Lines(name.length);
    let [map, draft, wrong] = [first, draftOf(first), []];
    let told = "";
    for (let i = 0; i < LINES && wrong.length === 0; i++) {
      for (const line of lines.next(map)) {
        const next = edited(map, line);
        const cause = typeof next === "number" ? next : 0;
        const found = causeOf(() => draft.apply([editOf(line)]));
        if (cause === 0) [map, told] = [next, `${told}${line}\n`];
        causes.set(`${line.split(" ")[0]} ${cause}`, (causes.get(`${line.split(" ")[0]} ${cause}`) ?? 0) + 1);
        if (found !== cause || stateOfDraft(draft) !== stateOf(map)) wrong = [line, cause, found];
        if (wrong.length > 0) break;
      }
      // Begins anew before the map is a mere tangle.
      if (map.arcs.length > 3 * first.arcs.length + 20 || map.arcs.length < 3 || i % 60 === 59) {
        holdsItsHistory(name, draft, first, map, told);
        [map, draft, told] = [first, draftOf(first), ""];
      }
    }
    tally.equal(`${name}: each line does what it should`, JSON.stringify(wrong), "[]");
  }
  const reached = [...causes.keys()].sort().join();
  const meant = "add 0,add 4,add 5,class 0,class 2,cut 0,cut 10,cut 12,cut 2,cut 9,drop 0,drop 6,fuse 0,fuse 13,fuse 2,move 0,move 3,move 4,node 0,node 6";
  tally.holds(`all that can come has come: ${reached}`, meant.split(",").every((it) => causes.get(it) > 5));
}

/** The cause of an edit that is refused; 0 where it is not. */
function causeOf(work) {
  try {
    work();
    return 0;
  } catch (error) {
    if (error.name !== "EditFault") throw error;
    return error.cause;
  }
}

function holdsItsHistory(name, draft, first, map, told) {
  const steps = draft.steps.length;
  const right = [draft.batch() === told];
  while (draft.undo());
  right.push(stateOfDraft(draft) === stateOf(first), draft.batch() === "", !draft.canUndo);
  for (let i = 0; i < steps; i++) draft.redo();
  right.push(stateOfDraft(draft) === stateOf(map), !draft.canRedo, draft.batch() === told);
  const again = draftOf(first);
  again.applyLines(told);
  right.push(stateOfDraft(again) === stateOf(map), again.steps.length === (steps > 0 ? 1 : 0));
  tally.holds(`${name}: undone, done again, and by its lines: ${right}`, right.every(Boolean));
}

/** Two squares side by side, (0,0) to (20,10), with (10,0) and (10,10) between them. */
const squares = () => draftOf(mapOf(listing("two_squares")));

/** Each cause by a line, worked out by hand. */
function tellsEachCause() {
  const rows = [
    ["class 3 0", 2], ["class 1 9", 2], ["move 5 5 6 6", 3], ["move 0 0 0 0", 4], ["add 0 0 20 0 5 5", 5], ["add 0 0 10 0 20 0", 4], ["drop 10 0", 6], ["drop 5 5", 3],
    ["node 5 5", 3], ["node 10 0", 6], ["cut 3 0 2 10 0 10 10", 2], ["cut 1 9 2 10 0 10 10", 2], ["cut 1 0 2 10 0 10 0", 10], ["cut 1 0 3 10 0 0 0 10 10", 10],
    ["cut 1 0 2 0 0 10 10", 9], ["cut 1 0 2 10 0 10 10", 9], ["cut 2 0 3 10 0 5 5 10 10", 9], ["fuse 1 1", 13], ["fuse 1 3", 2], ["fuse 0 1", 2],
    [`class ${"9".repeat(80)} 0`, 2],
  ];
  for (const [line, cause] of rows) tally.equal(`two squares, ${line}`, causeOf(() => squares().apply([editOf(line)])), cause);
  for (const line of ["", "clas 1 0", "class 1", "class 01 0", "class -1 0", "class 1 0 ", "move 1 1 2", "move 1 1 2 2147483649", "cut 1 0 1 0 0", "cut 1 0 2 0 0 10",
    "cut 1 0 02 0 0 10 10", "cut 1 0 65536 0 0", "node 1", "fuse 1", "add 0 0 10 0 5", "drop 1 1 1", "constructor 1"]) {
    tally.equal(`${JSON.stringify(line)} is no line`, editOf(line), null);
  }
  const batch = ["class 1 0\n", "class 1 0\nclass 9 0\n", "class 1 0\n\n", "class 1 0\nclass 2 0"];
  tally.equal("a batch is applied, or none of it", batch.map((it) => foundIn(squares(), it)).join("; "), "class 1 0\n; 2 in line 2, ; 1 in line 2, ; 1 in line 2, ");
  tally.equal("a batch whose first line is none leaves what was done", foundIn(done(squares(), "class 1 0\n"), "x\n"), "1 in line 1, class 1 0\n");
  const seven = done(squares(), "class 1 0\nmove 20 10 24 10\nadd 0 0 10 0 5 0\ndrop 20 0\nnode 5 0\ncut 1 0 2 5 0 10 10\nfuse 1 2\n");
  tally.equal("lines are written as they are read", seven.batch(), seven.steps[0].edits.map((edit) => `${lineOf(edit)}\n`).join(""));
  holdsTheLimits();
}

function done(draft, batch) {
  draft.applyLines(batch);
  return draft;
}

function foundIn(draft, batch) {
  try {
    return done(draft, batch).batch();
  } catch (error) {
    return `${error.cause} in line ${error.line}, ${draft.batch()}`;
  }
}

function holdsTheLimits() {
  const slice = sliceOf(mapOf(listing("two_squares")));
  const full = (more) => new Draft(slice, { classes: 4, ...more });
  const add = "add 0 0 10 0 5 0";
  tally.equal("a map is full of points", causeOf(() => full({ points: MOST_POINTS }).applyLines(`${add}\n`)), 8);
  tally.equal("and not before", causeOf(() => full({ points: MOST_POINTS - 1 }).applyLines(`${add}\n`)), 0);
  tally.equal("or of arcs", causeOf(() => full({ arcs: MOST_ARCS }).applyLines("node 0 0\n")), 11);
  tally.equal("and not before that", causeOf(() => full({ arcs: MOST_ARCS - 1 }).applyLines("node 0 0\n")), 0);
  tally.equal("a cut of points that are not all different is too large first", causeOf(() => full({ points: MOST_POINTS - 1 }).applyLines("cut 1 0 2 0 0 0 0\n")), 11);
  const island = sliceOf({ arcs: [{ left: 1, right: 2, points: [[0, 0], [9, 0], [0, 9], [0, 0]] }], classes: [0, 0] });
  tally.equal("two faces with no other border", causeOf(() => new Draft(island).fuse(1, 2)), 14);
  const back = sliceOf({ arcs: [{ left: 1, right: 0, points: [[0, 0], [9, 0], [0, 9], [9, 0], [0, 0]] }], classes: [0] });
  tally.equal("a vertex between one point and itself", causeOf(() => new Draft(back).drop([0, 9])), 7);
  tally.equal("the ends of a cut at two borders", causeOf(() => draftOf(mapOf(ISLANDS)).applyLines("cut 1 0 3 0 0 40 5 40 10\n")), 12);
}

/** Directions and heights that floating point takes for one. */
function isExact() {
  const most = 2 ** 31;
  const [corner, p, q] = [[-most, -most], [most - 1, most - 3], [most - 3, most - 5]];
  const arcs = [
    { left: 1, right: 0, points: [corner, [most, -most], p] },
    { left: 1, right: 2, points: [p, corner] },
    { left: 2, right: 0, points: [p, [-most, most], corner] },
  ];
  const map = { arcs, classes: [0, 0], count: 1 };
  const line = `cut 1 0 3 ${[corner, q, p].flat().join(" ")}`;
  const draft = draftOf(map);
  tally.equal("a direction next to another one", causeOf(() => draft.applyLines(`${line}\n`)), 0);
  tally.equal("lies in the sector that it lies in", stateOfDraft(draft), stateOf(edited(map, line)));
  tally.equal("and not in the other", causeOf(() => draftOf(map).applyLines(`${line.replace("cut 1", "cut 2")}\n`)), 9);
  // A segment that is a little flatter than the diagonal is above it at the left of the middle.
  const flat = [[-most, 1 - most], [most, most - 1]];
  const wrong = Array.from({ length: 4000 }, (_, i) => i - 2000).filter((k) => isRound([flat], [[k, k], [k + 9, k + 9]]) !== k < 0);
  tally.equal("heights are compared as they are", wrong.length, 0);
}

/** What a cut and a fusion make of a map, as a user calls them. */
function cutsAndFuses() {
  const draft = squares();
  draft.cut(1, 0, [[0, 0], [10, 10]]);
  tally.equal("a cut has its end made a node", draft.batch(), "node 0 0\ncut 1 0 2 0 0 10 10\n");
  tally.equal("and is one step", draft.steps.length, 1);
  const faces = [[9, 1], [1, 9], [15, 5], [-1, 5]].map(([x, y]) => draft.faceAt(x + 0.25, y + 0.25));
  tally.equal("at its left is the new face", faces.join(), "1,3,2,0");
  draft.fuse(1, 3);
  tally.equal("they are one again", `${draft.faceAt(1.25, 9.25)} ${draft.faces.size}`, "1 2");
  draft.cut(2, 0, [[10, 5], [20, 5]], [{ ends: [[10, 0], [10, 10]], point: [10, 5] }, { ends: [[20, 0], [20, 10]], point: [20, 5] }]);
  const lines = "add 10 0 10 10 10 5\nadd 20 0 20 10 20 5\nnode 10 5\nnode 20 5\ncut 2 0 2 10 5 20 5\n";
  tally.equal("a cut may begin between two points", draft.batch(), `node 0 0\ncut 1 0 2 0 0 10 10\nfuse 1 3\n${lines}`);
  const error = (() => { try { draft.cut(2, 0, [[10, 5], [10, 0]]); } catch (it) { return it; } return null; })();
  tally.equal("an edit that does not apply is told in words", error?.message, "the line does not begin and end at the border of the face, or does not leave it into the face");
  tally.equal("and leaves what was done", draft.steps.length, 3);
}

/** Edits on a newer version: those that still apply are made again, and the others are told. */
function carriesEdits() {
  const map = mapOf(gridListing(3));
  const mine = draftOf(map);
  const [corner] = map.arcs.filter(({ left, right }) => left > 0 && right > 0).map(({ points }) => points[1]);
  const other = map.arcs.at(-1).points[1];
  mine.setClass(9, 0);
  mine.move(corner, corner.map((z) => z + 5));
  mine.move(other, other.map((z) => z + 5));
  const through = cutThrough(mine, 9);
  mine.cut(9, 2, through);
  mine.setClass(10, 3);
  const newer = draftOf(map);
  newer.move(corner, corner.map((z) => z - 5));
  // The last face gets the number 1.
  newer.fuse(2, 1);
  const before = mine.batch();
  const { draft, left } = mine.carryTo(new Draft({ step: 0, faces: newer.faces, edges: newer.edges }, { classes: 4, version: 1 }));
  tally.equal("what was done is as it was", mine.batch(), before);
  const move = lineOf({ kind: "move", from: corner, to: corner.map((z) => z + 5) });
  tally.equal("an edit of what another editor has changed is left", left.map(({ edits, reason }) => `${lineOf(edits[0])}: ${reason.cause}`).join(), `${move}: 3`);
  tally.equal("all others are made again, with the numbers that faces have now", draft.batch(),
    ["class 1 0", lineOf({ kind: "move", from: other, to: other.map((z) => z + 5) }), ...through.map((point) => lineOf({ kind: "node", point })),
      lineOf({ kind: "cut", face: 1, ofClass: 2, points: through }), "class 9 3", ""].join("\n"));
  tally.equal("and are of the newer version", draft.version, 1);
  leavesWhatHangsOnWhatIsLeft(map);
  const parted = draftOf(map);
  parted.cut(9, 0, cutThrough(parted, 9));
  const second = draftOf(map);
  second.setClass(9, 0);
  const carried = second.carryTo(parted);
  tally.equal("which of the two parts of a face was meant is not guessed", carried.left.length, 1);
}

function leavesWhatHangsOnWhatIsLeft(map) {
  // Of the eight segments of the middle face, six go to the new one.
  const mine = draftOf(map);
  const [first, second] = mine.edgesBeside(5).map(({ points }) => points[1]);
  const large = [[first, second], [second, first]].find((points) => {
    mine.cut(5, 1, points);
    const count = mine.edgesBeside(10).length;
    mine.undo();
    return count > 4;
  });
  mine.cut(5, 1, large);
  mine.setClass(10, 3);
  const newer = draftOf(map);
  newer.drop(first);
  const { draft, left } = mine.carryTo(newer);
  tally.equal("with a cut that is left, what was done to its new face is", `${left.map(({ reason }) => reason.cause)} ${draft.steps.length}`, "3,2 1");
  const other = draftOf(map);
  other.setClass(5, 1);
  const moved = draftOf(map);
  const [kept] = moved.edgesBeside(5);
  for (const point of new Map(moved.edgesBeside(5).flatMap(({ points }) => points).map((it) => [String(it), it])).values()) {
    if (!kept.points.some((it) => String(it) === String(point))) moved.move(point, point.map((z) => z + 7));
  }
  tally.equal("a face of which little is as it was is another one", other.carryTo(moved).left.length, 1);
}

/** A refusal that tells that a point is a node already: the line is left out, and the rest is published. */
async function learnsOfNodes() {
  const draft = squares();
  draft.setClass(1, 0);
  draft.cut(1, 0, [[0, 0], [10, 10]]);
  const asked = [];
  const client = {
    keepTo: () => {},
    async edit(batch) {
      asked.push(batch);
      if (batch.includes("node 0 0")) throw new Refused(422, "edit line 2 cause 6");
      return { version: 1, foreseen: true };
    },
  };
  const { version } = await draft.publish(client);
  const lines = ["class 1 0\n", "node 0 0\n", "cut 1 0 2 0 0 10 10\n"];
  tally.equal("a node that no slice shows is learned of", JSON.stringify([version, asked]), JSON.stringify([1, [lines.join(""), lines[0] + lines[2]]]));
  const refusing = { keepTo: () => {}, edit: async () => { throw new Refused(422, "edit line 1 cause 6"); } };
  draft.drop([0, 10]);
  const refused = await thrown(draft.publish(refusing));
  tally.equal("and one that is to be dropped is told", `${refused.name} ${refused.step} ${refused.place} ${refused.message}`, "RefusedBatch 0 0,10 a border begins or ends there");
  const busy = await thrown(draft.publish({ ...refusing, edit: async () => { throw new Refused(503, "busy, try again"); } }));
  tally.equal("other refusals are as they are", `${busy.name} ${busy.status}`, "Refused 503");
  const unsound = await thrown(draft.publish({ ...refusing, edit: async () => { throw new Refused(422, "refused 17 stack 12 1 2 0"); } }));
  tally.equal("the place of a line along which faces disagree", `${unsound.place} ${unsound.step}`, "12.5,0 null");
}

/** Two inner vertices of the border of a face, across from each other. */
function cutThrough(draft, face) {
  const inner = draft.edgesBeside(face).map(({ points }) => points[1]);
  return [inner[0], inner.find((it) => it.every((z, axis) => Math.abs(z - inner[0][axis]) > 200)) ?? inner.at(-1)];
}

function readsFaults() {
  const rows = [
    ["edit line 3 cause 12", { kind: "line", line: 3, cause: 12 }],
    ["refused 15 meets 0 1 125 -125 50", { kind: "meets", place: [2.5, -2.5] }],
    ["refused 16 node 10 -4 0 1 2 1", { kind: "node", place: [10, -4] }],
    ["refused 17 stack -10 1 1 0", { kind: "stack", x: -9.5, above: 1 }],
    ["refused 9 limit points 9", null],
    ["", null],
  ];
  for (const [said, fault] of rows) tally.equal(`a fault is read: ${said}`, JSON.stringify(faultIn(said)), JSON.stringify(fault));
}

const segments = ({ edges, faces }) => {
  const rows = [...edges.values()].flatMap(({ left, right, points }) => points.slice(1).map((q, i) => {
    const p = points[i];
    const isForward = p[0] < q[0] || (p[0] === q[0] && p[1] < q[1]);
    return JSON.stringify(isForward ? [p, q, left, right] : [q, p, right, left]);
  }));
  return `${rows.sort().join()} ${JSON.stringify([...faces].sort((a, b) => a[0] - b[0]))}`;
};

async function over(name, map, work) {
  const { root, stop } = await serve(executable, ...map);
  try {
    const client = new Client(root, { fetch: fetchAlone });
    await work({ name, client, another: new Client(root, { fetch: fetchAlone }), draft: await Draft.of(client, { classes: 4 }) });
  } finally {
    stop();
  }
}

/** What the server makes of a draft is what the draft shows. */
async function isPublished({ name, client, draft }) {
  const shown = segments(draft);
  const { foreseen, version } = await draft.publish(client);
  tally.equal(`${name}: the map is that of the draft`, segments(await client.slice(0)), shown);
  tally.equal(`${name}: it goes on from there`, `${foreseen} ${draft.version === version} ${draft.batch()}`, "true true ");
}

async function publishesOldLines({ name, client, another, draft }) {
  const edge = [...draft.edges.values()].find(({ points }) => points.length > 5);
  const [a, b, c, d, e] = edge.points;
  const beside = (p, q) => p.map((z, axis) => Math.round(z + (q[axis] - z) / 50));
  draft.move(b, beside(b, c));
  draft.add([c, d], beside(c, d));
  draft.drop(beside(c, d));
  draft.add([d, e], beside(d, e));
  draft.setClass(edge.left || edge.right, 0);
  await isPublished({ name, client, draft });
  draft.move(a, [...draft.edges.values()].at(-1).points[1].map((z) => z + 1));
  const refused = await thrown(draft.publish(client));
  const isUnsound = refused?.name === "RefusedBatch" && refused.place?.length === 2 && refused.step === null && refused.said.startsWith("refused 1");
  tally.holds(`${name}: what makes the map unsound is refused: ${refused}`, isUnsound);
  tally.equal(`${name}: and stays in the draft`, draft.steps.length, 1);
  draft.undo();
  draft.move(c, beside(c, d));
  await another.edit("class 1 1\n");
  const late = await thrown(draft.publish(client));
  tally.holds(`${name}: another editor was first: ${late}`, late instanceof OtherVersion);
  client.show(late.version);
  const { draft: carried, left } = draft.carryTo(await Draft.of(client, { classes: 4 }));
  tally.equal(`${name}: nothing is left behind`, left.length, 0);
  await isPublished({ name: `${name}, carried over`, client, draft: carried });
}

async function tellsThatLinesAreUnknown({ name, draft, client }) {
  const face = draft.faces.keys().next().value;
  const edge = draft.edgesBeside(face).find(({ points }) => points.length > 2);
  draft.setClass(face, 0);
  draft.apply([{ kind: "node", point: edge.points[1] }]);
  const error = await thrown(draft.publish(client));
  tally.holds(`${name}: an older server knows no cut: ${error}`, error?.isUnknown && error.step === 1 && String(error.place) === String(edge.points[1]));
}

/** Cuts and fusions; the second ones meet nodes that no slice shows. */
async function publishesNewLines({ name, client, draft }) {
  let [tried, cut, unsound] = [0, 0, 0];
  const lines = new Lines(7);
  while (cut < 12 && tried < 300) {
    tried += 1;
    const face = lines.pick([...draft.faces.keys()]);
    const inner = draft.edgesBeside(face).flatMap(({ points }) => points);
    const points = [lines.pick(inner), lines.pick(inner)];
    // Some have a corner anywhere in the map.
    if (tried % 3 === 0) points.splice(1, 0, lines.place({ arcs: [...draft.edges.values()] }));
    if (causeOf(() => draft.cut(face, lines.below(4), points)) !== 0) continue;
    if (causeOf(() => lines.below(3) === 0 && draft.fuse(draft.faces.size, face)) !== 0) throw new Error("the parts of a face cannot be fused");
    const shown = segments(draft);
    const refused = await thrown(draft.publish(client));
    if (refused === null) {
      cut += 1;
      const slice = await client.slice(0);
      tally.equal(`${name}: cut ${cut} makes the map of the draft`, segments(slice), shown);
      // What a reader knows that begins here.
      draft = await Draft.of(client, { classes: 4 });
    } else {
      unsound += 1;
      tally.holds(`${name}: a cut across borders is refused: ${refused}`, refused.name === "RefusedBatch" && refused.fault.kind === "meets" && refused.place.length === 2);
      draft.undo();
      if (draft.canUndo) draft.undo();
    }
  }
  tally.holds(`${name}: ${cut} cuts, and ${unsound} that are unsound`, cut === 12 && unsound > 0);
  await findsHiddenNodes({ name, client, draft });
}

async function findsHiddenNodes({ name, client, draft }) {
  const face = draft.faces.keys().next().value;
  const points = [...new Set(draft.edgesBeside(face).flatMap((it) => it.points).filter((it) => !draft.isNode(it)).map(String))].map((it) => it.split(",").map(Number));
  draft.apply([{ kind: "node", point: points[0] }]);
  await isPublished({ name: `${name}, with a node`, client, draft });
  const next = await Draft.of(client, { classes: 4 });
  tally.holds(`${name}: no slice shows the node`, !next.isNode(points[0]));
  next.apply([{ kind: "node", point: points[0] }]);
  next.setClass(face, 0);
  await isPublished({ name: `${name}, with the node again`, client, draft: next });
  const last = await Draft.of(client, { classes: 4 });
  last.drop(points[0]);
  const refused = await thrown(last.publish(client));
  tally.holds(`${name}: such a vertex cannot be dropped, and is told: ${refused}`, refused?.fault?.cause === 6 && refused.step === 0 && String(refused.place) === String(points[0]));
}

/** Lines of all kinds: the server finds the same one at fault, with the same cause, or makes the same map of them. */
async function agreesWithTheServer(name, text, knows) {
  const file = path.join(room, `${name.replaceAll(" ", "_")}.tgap`);
  writeFileSync(file, text);
  const { root, stop } = await serve(executable, file);
  const client = new Client(root, { fetch: fetchAlone });
  const lines = new Lines(name.length + 1);
  const told = { published: 0, unsound: 0, line: 0, wrong: [] };
  let map = mapOf(text);
  const draft = draftOf(map);
  for (let i = 0; i < BATCHES && told.published < MOST_VERSIONS; i++) {
    const batch = lines.next(map);
    if (!knows && batch.some((line) => NEWER.test(line))) continue;
    let next = map;
    for (const line of batch) next = typeof next === "number" ? next : edited(next, line);
    const found = foundFor(draft, batch);
    const said = await client.edit(batch.map((line) => `${line}\n`).join("")).then(() => "", (error) => error.said);
    const outcome = said === "" ? "published" : found === "" ? "unsound" : "line";
    told[outcome] += 1;
    if (outcome === "published") map = next;
    if (outcome === "unsound") draft.undo();
    const isSame = {
      published: async () => found === "" && segments(await client.slice(0)) === segments(draft),
      unsound: () => /^refused 1[567] /.test(said),
      line: () => said === found,
    };
    if (!(await isSame[outcome]())) told.wrong.push([batch, found, said]);
  }
  stop();
  tally.holds(`${name}: the server agrees: ${JSON.stringify(told)}`, told.wrong.length === 0 && told.published > 5 && told.line > 5);
}

/** What a server would say of the lines that a draft takes; the empty text where it takes them all. */
function foundFor(draft, batch) {
  try {
    draft.applyLines(batch.map((line) => `${line}\n`).join(""));
    return "";
  } catch (error) {
    return `edit line ${error.line} cause ${error.cause}`;
  }
}

process.on("SIGTERM", () => {
  endServing();
  process.exit(1);
});
tellsEachCause();
isExact();
cutsAndFuses();
followsThePlainProgram();
carriesEdits();
readsFaults();
await learnsOfNodes();
await over("Columbus", ["columbus.json", "areas", "columbus.rules.json"], publishesOldLines);
let knows = false;
await over("Columbus", ["columbus.json", "areas", "columbus.rules.json"], async (on) => {
  knows = await knowsCuts(on.client);
  tally.equal("asking for cuts publishes nothing", (await on.client.newest()).version, 0);
  if (knows) return publishesNewLines(on);
  await tellsThatLinesAreUnknown(on);
  tally.skip("cuts and fusions that are published", "the program does not know these lines");
});
try {
  for (const [name, text] of MAPS.filter((it) => it[0] !== "far corners")) await agreesWithTheServer(name, text, knows);
} finally {
  rmSync(room, { recursive: true });
}
tally.end();
