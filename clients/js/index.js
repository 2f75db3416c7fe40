// All that the package gives.

export { Archive, BadArchive, View } from "./archive.js";
export { Client, FARTHEST } from "./client.js";
export { Draft, knowsCuts } from "./draft.js";
export { EditFault, OtherHistory, OtherVersion, Refused, RefusedBatch, Unreachable } from "./errors.js";
export { geojsonOf } from "./geojson.js";
export { pictureOfSlice, pictureOfWindow } from "./pictures.js";
export { areaOf, boxOf, holdsBox, joinBoxes } from "./places.js";
export { Refined, RefinedWindow, Unfit } from "./replay.js";
export { BadText } from "./wire.js";
