// The texts of slices, windows and packets, read and written (docs/formats.md). A reader throws BadText with the first line that is not of its form.

import { BadText, Lines } from "./lines.js";
import { atOnce } from "./pieces.js";

export { BadText };

function readFaces(lines) {
  const count = lines.count(lines.next("faces", 1)[0]);
  const faces = new Map();
  let last = 0;
  for (let i = 0; i < count; i++) {
    const words = lines.next("face", 2);
    const face = lines.count(words[0]);
    if (face <= last) lines.fail();
    faces.set(face, lines.count(words[1]));
    last = face;
  }
  return faces;
}

function readEdge(lines) {
  const words = lines.next("edge");
  if (words.length < 4) lines.fail();
  const [key, left, right, count] = words.slice(0, 4).map((word) => lines.count(word));
  if (count < 2 || words.length !== 4 + 2 * count) lines.fail();
  const points = [];
  for (let i = 0; i < count; i++) {
    const point = lines.point(words, 4 + 2 * i);
    if (i > 0 && samePoint(points[i - 1], point)) lines.fail();
    points.push(point);
  }
  return { key, left, right, points };
}

function readEdges(lines) {
  const count = lines.count(lines.next("edges", 1)[0]);
  const edges = new Map();
  let last = -1;
  for (let i = 0; i < count; i++) {
    const edge = readEdge(lines);
    if (edge.key <= last) lines.fail();
    edges.set(edge.key, edge);
    last = edge.key;
  }
  return edges;
}

export function samePoint(p, q) {
  return p[0] === q[0] && p[1] === q[1];
}

/** A slice: `step`, `faces` (class by number) and `edges` (by key: key, left, right, points). */
export function readSlice(text) {
  const lines = new Lines(text);
  const step = lines.count(lines.next("slice", 1)[0]);
  const slice = { step, faces: readFaces(lines), edges: readEdges(lines) };
  lines.end();
  return slice;
}

/** A window of a slice: as a slice, with its `area` beside it. */
export function readWindow(text) {
  const lines = new Lines(text);
  const words = lines.next("window", 5);
  const step = lines.count(words[0]);
  const [x0, y0, x1, y1] = words.slice(1).map((word) => lines.coordinate(word));
  const slice = { step, area: { x0, y0, x1, y1 }, faces: readFaces(lines), edges: readEdges(lines) };
  lines.end();
  return slice;
}

function readMend(lines) {
  const [key, putCount, pieceCount] = lines.next("mend", 3).map((word) => lines.count(word));
  const puts = [];
  for (let i = 0; i < putCount; i++) {
    const words = lines.next("put", 3);
    puts.push({ at: lines.count(words[0]), point: lines.point(words, 1) });
  }
  const pieces = [];
  for (let i = 0; i < pieceCount; i++) {
    const words = lines.next("piece", 4);
    const [pieceKey, last, side] = words.slice(0, 3).map((word) => lines.count(word));
    pieces.push({ key: pieceKey, last, side, turned: lines.bounded(words[3], 0, 1) === 1 });
  }
  return { key, puts, pieces };
}

function readRecord(lines, expected) {
  const numbers = lines.next("step", 8).map((word) => lines.count(word));
  const [step, loser, loserClass, winner, winnerClass, made, mendCount, endedCount] = numbers;
  if (step !== expected) lines.fail();
  const mends = [];
  for (let i = 0; i < mendCount; i++) mends.push(readMend(lines));
  const ended = [];
  for (let i = 0; i < endedCount; i++) ended.push(readEdge(lines));
  return { step, loser, loserClass, winner, winnerClass, made, mends, ended };
}

/** A packet: `from`, `to`, and a record for each step from the first down to the one above the second. */
export function readPacket(text) {
  const lines = new Lines(text);
  const [from, to] = lines.next("packet", 2).map((word) => lines.count(word));
  if (from < to) lines.fail();
  const records = [];
  for (let step = from; step > to; step--) records.push(readRecord(lines, step));
  lines.end();
  return { from, to, records };
}

function readWindowRecord(lines, expected) {
  const [step, loser, winner, made, faceCount, mendCount, comeCount] = lines.next("step", 7).map((word) => lines.count(word));
  if (expected !== undefined && step !== expected) lines.fail();
  const record = { step, loser, winner, made, faces: [], mends: [], comes: [] };
  for (let i = 0; i < faceCount; i++) record.faces.push(lines.next("face", 2).map((word) => lines.count(word)));
  for (let i = 0; i < mendCount; i++) record.mends.push(readMend(lines));
  for (let i = 0; i < comeCount; i++) record.comes.push(readEdge(lines));
  return record;
}

/** The first line of a packet of a window. */
function readPacketOfWindow(lines) {
  const words = lines.next("window-packet", 6);
  const [from, to] = words.slice(0, 2).map((word) => lines.count(word));
  const [x0, y0, x1, y1] = words.slice(2).map((word) => lines.coordinate(word));
  if (from < to) lines.fail();
  return { from, to, area: { x0, y0, x1, y1 } };
}

/** A packet of a window: as a packet, with its `area`, and in its records the rows of `faces` and the edges (`comes`) that come into the window. */
export function readWindowPacket(text) {
  const lines = new Lines(text);
  const { from, to, area } = readPacketOfWindow(lines);
  const records = [];
  for (let step = from; step > to; step--) records.push(readWindowRecord(lines, step));
  lines.end();
  return { from, to, area, records };
}

/** The records of a packet from which those that change nothing may be left out; a record is a piece. */
function* sparseRecords(lines, from, to) {
  const records = [];
  while (lines.begins("step")) {
    const record = readWindowRecord(lines);
    const last = records.length === 0 ? from + 1 : records.at(-1).step;
    if (record.step >= last || record.step <= to) lines.fail();
    records.push(record);
    yield;
  }
  lines.next("end", 0);
  return records;
}

/** Rows that tell in which face the inside of a cell lies from a step on, by descending step. */
function readInside(lines, from, to) {
  const count = lines.count(lines.next("inside", 1)[0]);
  const rows = [];
  for (let i = 0; i < count; i++) {
    const [step, face, ofClass] = lines.next("at", 3).map((word) => lines.count(word));
    if (step > (rows.length === 0 ? from : rows.at(-1).step - 1) || step < to) lines.fail();
    rows.push({ step, face, ofClass: face === 0 ? null : ofClass });
  }
  return rows;
}

/** A cell of an archive: a packet of a window without the records that change nothing, and the faces of its `inside`. */
export const readCell = (text) => atOnce(cellInPieces(text));

/** The same in pieces, between which something else may be done. */
export function* cellInPieces(text) {
  const lines = new Lines(text);
  const { from, to, area } = readPacketOfWindow(lines);
  const records = yield* sparseRecords(lines, from, to);
  const inside = readInside(lines, from, to);
  lines.end();
  return { from, to, area, records, inside };
}

/** The numbers in the answer to `/info`. */
export function readInfo(text) {
  const words = text.trimEnd().split(" ");
  return Object.fromEntries(["version", "steps", "faces", "arcs", "points"].map((name, i) => [name, Number(words[2 * i + 1])]));
}

function edgeLine(edge) {
  return `edge ${edge.key} ${edge.left} ${edge.right} ${edge.points.length} ${edge.points.map((p) => `${p[0]} ${p[1]}`).join(" ")}`;
}

function sliceLines(first, slice) {
  const faces = [...slice.faces].sort((a, b) => a[0] - b[0]);
  const edges = [...slice.edges.values()].sort((a, b) => a.key - b.key);
  return [
    first,
    `faces ${faces.length}`,
    ...faces.map(([face, ofClass]) => `face ${face} ${ofClass}`),
    `edges ${edges.length}`,
    ...edges.map(edgeLine),
    "end",
    "",
  ].join("\n");
}

export function sliceText(slice) {
  return sliceLines(`slice ${slice.step}`, slice);
}

export function windowText(slice) {
  const { x0, y0, x1, y1 } = slice.area;
  return sliceLines(`window ${slice.step} ${x0} ${y0} ${x1} ${y1}`, slice);
}

function mendLines(mend) {
  return [
    `mend ${mend.key} ${mend.puts.length} ${mend.pieces.length}`,
    ...mend.puts.map((put) => `put ${put.at} ${put.point[0]} ${put.point[1]}`),
    ...mend.pieces.map((piece) => `piece ${piece.key} ${piece.last} ${piece.side} ${piece.turned ? 1 : 0}`),
  ];
}

function recordLines(r) {
  return [
    `step ${r.step} ${r.loser} ${r.loserClass} ${r.winner} ${r.winnerClass} ${r.made} ${r.mends.length} ${r.ended.length}`,
    ...r.mends.flatMap(mendLines),
    ...r.ended.map(edgeLine),
  ];
}

function windowRecordLines(r) {
  return [
    `step ${r.step} ${r.loser} ${r.winner} ${r.made} ${r.faces.length} ${r.mends.length} ${r.comes.length}`,
    ...r.faces.map(([face, ofClass]) => `face ${face} ${ofClass}`),
    ...r.mends.flatMap(mendLines),
    ...r.comes.map(edgeLine),
  ];
}

export function packetText(packet) {
  return [`packet ${packet.from} ${packet.to}`, ...packet.records.flatMap(recordLines), "end", ""].join("\n");
}

export function windowPacketText(packet) {
  const { x0, y0, x1, y1 } = packet.area;
  return [`window-packet ${packet.from} ${packet.to} ${x0} ${y0} ${x1} ${y1}`, ...packet.records.flatMap(windowRecordLines), "end", ""].join("\n");
}
