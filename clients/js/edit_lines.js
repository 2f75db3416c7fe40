// The lines of a batch of edits (docs/formats.md, "Edit batches"): what each says, as a value, and as it is written.

import { MAX_COORDINATE, numberOf } from "./lines.js";

const LEAST_POINTS = 2;
const MOST_POINTS_OF_A_CUT = 65535;

const words = (...points) => points.map(([x, y]) => `${x} ${y}`).join(" ");

/** The line of an edit, without its line feed. */
export function lineOf(edit) {
  const lines = {
    class: ({ face, ofClass }) => `class ${face} ${ofClass}`,
    move: ({ from, to }) => `move ${words(from, to)}`,
    add: ({ ends, point }) => `add ${words(...ends, point)}`,
    drop: ({ point }) => `drop ${words(point)}`,
    node: ({ point }) => `node ${words(point)}`,
    cut: ({ face, ofClass, points }) => `cut ${face} ${ofClass} ${points.length} ${words(...points)}`,
    fuse: ({ kept, gone }) => `fuse ${kept} ${gone}`,
  };
  return lines[edit.kind](edit);
}

/** The numbers of words, each within its limits: null where one is not. */
function numbersOf(some, least, most) {
  const numbers = some.map((word) => numberOf(word, least, most));
  return numbers.includes(null) ? null : numbers;
}

/** So many points out of words that are their coordinates and nothing else; null where they are not. */
function pointsOf(some, count) {
  const numbers = some.length === 2 * count ? numbersOf(some, -MAX_COORDINATE, MAX_COORDINATE) : null;
  return numbers && Array.from({ length: count }, (_, i) => [numbers[2 * i], numbers[2 * i + 1]]);
}

/** Numbers of faces and classes, which may have any number of digits. */
const namesOf = (some, count) => (some.length === count ? numbersOf(some, 0, Infinity) : null);

function cutOf([face, ofClass, count, ...rest]) {
  const names = namesOf([face, ofClass], 2);
  const number = numberOf(count, LEAST_POINTS, MOST_POINTS_OF_A_CUT);
  const points = number && pointsOf(rest, number);
  return names && points && { kind: "cut", face: names[0], ofClass: names[1], points };
}

const FORMS = {
  class: (rest) => ((names) => names && { kind: "class", face: names[0], ofClass: names[1] })(namesOf(rest, 2)),
  move: (rest) => ((points) => points && { kind: "move", from: points[0], to: points[1] })(pointsOf(rest, 2)),
  add: (rest) => ((points) => points && { kind: "add", ends: points.slice(0, 2), point: points[2] })(pointsOf(rest, 3)),
  drop: (rest) => ((points) => points && { kind: "drop", point: points[0] })(pointsOf(rest, 1)),
  node: (rest) => ((points) => points && { kind: "node", point: points[0] })(pointsOf(rest, 1)),
  cut: cutOf,
  fuse: (rest) => ((names) => names && { kind: "fuse", kept: names[0], gone: names[1] })(namesOf(rest, 2)),
};

/** What a line says; null where it is of no form. */
export function editOf(line) {
  const [kind, ...rest] = line.split(" ");
  return Object.hasOwn(FORMS, kind) ? FORMS[kind](rest) : null;
}

/** What the lines of a batch say: null in the place of a line that is of no form, and of a last one without a line feed. */
export function editsOf(batch) {
  const lines = batch.split("\n");
  const rest = lines.pop();
  return [...lines.map(editOf), ...(rest === "" ? [] : [null])];
}
