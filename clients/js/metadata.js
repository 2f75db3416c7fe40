// The metadata of an archive (docs/formats.md, "The metadata of an archive"): in it areas stand column by column; here they become rows, as the map has them.

import { BadArchive } from "./archive_file.js";

function mustHold(holds) {
  if (!holds) throw new BadArchive("the metadata of the archive are not of their form");
}

const isObject = (it) => typeof it === "object" && it !== null && !Array.isArray(it);
const has = (it, ...names) => isObject(it) && names.every((name) => Object.hasOwn(it, name));

/** The values of a list, or of one that is told by the differences of whole numbers. */
function valuesOf(column) {
  if (Array.isArray(column)) return column;
  mustHold(has(column, "first", "by") && Array.isArray(column.by));
  const numbers = [column.first, ...column.by];
  mustHold(numbers.every(Number.isSafeInteger));
  let sum = 0;
  return numbers.map((number) => (sum += number));
}

/** The places of runs: of each the first one, and how many follow one another from there on. */
function placesOf(runs, count) {
  mustHold(Array.isArray(runs) && runs.length % 2 === 0 && runs.every(Number.isSafeInteger));
  const places = [];
  let end = 0;
  for (let i = 0; i < runs.length; i += 2) {
    const [first, length] = [runs[i], runs[i + 1]];
    mustHold(end <= first && length >= 0 && length <= count - first);
    end = first + length;
    for (let place = first; place < end; place++) places.push(place);
  }
  return places;
}

/** Adds to rows, which are lists of members, the members that stand in columns. */
function addColumns(rows, columns) {
  mustHold(isObject(columns));
  for (const [name, column] of Object.entries(columns)) {
    const ofSome = has(column, "of", "values");
    const values = valuesOf(ofSome ? column.values : column);
    const places = ofSome ? placesOf(column.of, rows.length) : [...rows.keys()];
    mustHold(places.length === values.length);
    places.forEach((place, at) => rows[place].push([name, values[at]]));
  }
}

/** The areas of which each has an id. */
function areasOf({ attributes, ...members }) {
  mustHold(has(members, "id"));
  const rows = valuesOf(members.id).map(() => ({ own: [], more: [] }));
  addColumns(rows.map(({ own }) => own), members);
  addColumns(rows.map(({ more }) => more), attributes);
  // What is put together of its members may have any names.
  return rows.map(({ own, more }) => ({ ...Object.fromEntries(own), attributes: Object.fromEntries(more) }));
}

/** The metadata that an archive tells, as its map has them. */
export function metadataOf(found) {
  mustHold(isObject(found));
  const [faces, areas] = [isObject(found.faces) ? valuesOf(found.faces) : found.faces, isObject(found.areas) ? areasOf(found.areas) : found.areas];
  return { ...found, ...(faces !== undefined && { faces }), ...(areas !== undefined && { areas }) };
}
