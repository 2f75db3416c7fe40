export * from "./archive.js";
export * from "./client.js";
export { Draft, EditFault, RefusedBatch, knowsCuts } from "./draft.js";
export type { Carried, Edit, Left, Step } from "./draft.js";
export { geojsonOf } from "./geojson.js";
export { pictureOfSlice, pictureOfWindow } from "./pictures.js";
export type { Found, Picture, Seen } from "./pictures.js";
export { areaOf, boxOf, holdsBox, joinBoxes } from "./places.js";
export type { Box, Edge, Info, Packet, Point, Slice, WindowPacket, WindowSlice } from "./wire.js";
