// The page over the neighbourhoods of Columbus: what a reader sees and does, edits, and what he is told when something fails.
import { readFileSync, writeFileSync } from "node:fs";
import path from "node:path";
import { setTimeout as pause } from "node:timers/promises";
import { areaOf, boxOf } from "../../clients/js/places.js";
import { sliceText } from "../../clients/js/wire.js";
import { pixelsOf } from "./browser.mjs";
import { examples } from "./lib.mjs";
import { tellsOfFailures } from "./failures.mjs";
import { IDLE, NOTICES, PICTURE_TEXT, beginsEditing, editsNear, endsEditing, loadsAnew, look, otherVertex, resizes, shown, sliceOf, text, turnsWheel, vertexToMove, wrongSamples } from "./served.mjs";

const MIDDLE = [420, 330];
const POPUP = "document.querySelector('.leaflet-popup-content')?.innerText ?? ''";
const transform = JSON.parse(readFileSync(path.join(examples, "columbus.json"))).transform;

export async function smallMap(on) {
  await on.tab.resize(1100, 613);
  await shows(on);
  await keepsProportions(on);
  await goesNearer(on);
  await tellsWhatIsThere(on);
  await keepsLabelsBesideBoxes(on);
  await makesAPictureOnce(on);
  await edits(on);
  await tellsOfFailures(on);
}

async function picture({ tab, folder }, name) {
  if (folder) writeFileSync(path.join(folder, name), await tab.screenshot());
}

/** The screen shows the slice of the program at the step that the page tells. */
async function isRight({ tab, tally, executable, map }, name) {
  await tab.until(IDLE);
  const view = await look(tab);
  const slice = sliceOf(executable, view.step, ...map);
  const { count, wrong } = wrongSamples(view, slice);
  tally.holds(`${name}: each face has its colour (${count} samples): ${JSON.stringify(wrong.slice(0, 3))}`, count > 100 && wrong.length === 0);
  tally.holds(`${name}: the slice is the program's`, (await tab.value(PICTURE_TEXT)) === sliceText(slice));
  tally.equal(`${name}: what is shown is told`, await tab.value(text("state")), `Step ${view.step} of ${view.steps}: ${slice.faces.size} faces.`);
  return view.step;
}

async function shows(on) {
  const { tab, tally } = on;
  tally.holds("the page shows a map", await tab.until(IDLE));
  const step = await isRight(on, "at first");
  tally.holds("a coarse step comes first", step > 10);
  tally.equal("the title is that of the rules", await tab.value("document.title + '|' + document.querySelector('h1').textContent"), "Neighbourhoods of Columbus, Ohio|Neighbourhoods of Columbus, Ohio");
  tally.equal("the classes have names", await tab.value("[...document.querySelectorAll('#legend span')].map((it) => it.textContent).join()"), "field,town,water,wood");
  await picture(on, "map_coarse.png");
}

/** A grid of other units along y than along x is drawn as wide and high as the map is. */
async function keepsProportions({ tab, tally, executable, map }) {
  const { pixels, size, step } = await look(tab);
  const box = boxOf(sliceOf(executable, step, ...map).edges.values());
  const painted = [Infinity, Infinity, -Infinity, -Infinity];
  for (let x = 0; x < size[0]; x++) {
    for (let y = 0; y < size[1]; y++) {
      if (!["86,180,233", "0,158,115", "240,228,66", "230,159,0"].includes(String(pixels.at(x, y)))) continue;
      [painted[0], painted[1]] = [Math.min(painted[0], x), Math.min(painted[1], y)];
      [painted[2], painted[3]] = [Math.max(painted[2], x), Math.max(painted[3], y)];
    }
  }
  const drawn = (painted[2] - painted[0]) / (painted[3] - painted[1]);
  const [sx, sy] = transform.scale;
  const meant = ((box.x1 - box.x0) * sx) / ((box.y1 - box.y0) * sy);
  tally.holds(`width and height are in proportion: ${drawn} and ${meant}`, Math.abs(drawn / meant - 1) < 0.02);
}

async function goesNearer(on) {
  const { tab, tally } = on;
  const first = (await shown(tab)).step;
  await turnsWheel(tab, MIDDLE, -20);
  const second = await isRight(on, "nearer");
  tally.holds("nearer is finer", second < first && second > 0);
  await picture(on, "map_middle.png");
  await turnsWheel(tab, MIDDLE, -60);
  tally.equal("the finest step comes last", await isRight(on, "near"), 0);
  await picture(on, "map_fine.png");
  const address = await tab.value("location.hash");
  const { zoom, box } = await shown(tab);
  tally.holds(`the position is in the address: ${address}`, address.startsWith(`#${zoom}/`));
  await loadsAnew(tab);
  await tab.until(IDLE);
  const again = await shown(tab);
  tally.holds("the address leads to the position", again.zoom === zoom && Math.abs(again.box.x0 - box.x0) < (box.x1 - box.x0) / 200);
  await tab.value("document.getElementById('all').click()");
  const last = await isRight(on, "all of it");
  tally.holds("from afar it is coarse again", last > second);
  tally.equal("all of the map needs no position", await tab.value("location.hash"), "");
  await tab.click(MIDDLE, 2);
  await tab.until(IDLE);
  tally.holds("a double click comes nearer", (await shown(tab)).zoom > again.zoom - 10 && (await shown(tab)).step < last);
  await pause(400);
  tally.equal("and asks nothing", await tab.value(POPUP), "");
  await tab.value("document.getElementById('all').click()");
  await tab.until(IDLE);
}

async function tellsWhatIsThere({ tab, tally, executable, map }) {
  const { step, box, size } = await look(tab);
  const slice = sliceOf(executable, step, ...map);
  await tab.mouse("mouseMoved", MIDDLE);
  const [x, y] = [box.x0 + (MIDDLE[0] / size[0]) * (box.x1 - box.x0), box.y1 - (MIDDLE[1] / size[1]) * (box.y1 - box.y0)];
  const place = (await tab.value("document.querySelector('.coordinates').textContent")).split(", ").map(Number);
  const meant = [x, y].map((z, axis) => z * transform.scale[axis] + transform.translate[axis]);
  tally.holds(`the coordinates are those of the source: ${place} and ${meant}`, place.every((it, axis) => Math.abs(it - meant[axis]) < 0.02));
  const face = await tab.value(`window.tgap.sheet.picture.faceAt(${x}, ${y})`);
  await tab.click(MIDDLE);
  await tab.until(`(${POPUP}).includes('Area') && !(${POPUP}).includes('\u2026')`);
  const words = (await tab.value(POPUP)).split(/\n+/);
  const area = areaOf(face, [...slice.edges.values()]) * transform.scale[0] * transform.scale[1];
  const expected = { Face: String(face), Class: ["field", "town", "water", "wood"][slice.faces.get(face)], Area: area.toPrecision(6), Step: String(step), Version: "0" };
  for (const [name, value] of Object.entries(expected)) {
    const told = words[words.indexOf(name) + 1];
    tally.holds(`a click tells ${name}: ${told} and ${value}`, told === value || Math.abs(Number(told) / Number(value) - 1) < 1e-5);
  }
  await tab.ask("Input.dispatchKeyEvent", { type: "keyDown", key: "Escape", code: "Escape", windowsVirtualKeyCode: 27 });
  await tab.until(`(${POPUP}) === ''`);
}

/** A box and its label are on one line, at every width. */
async function keepsLabelsBesideBoxes({ tab, tally }) {
  const PAIRS = `[...document.querySelectorAll('label, #legend li')].map((it) => [...it.children].map((part) => { const b = part.getBoundingClientRect(); return [b.left, b.top, b.right, b.bottom]; }))`;
  for (const width of [320, 400, 600, 800, 959, 960, 1100, 1600]) {
    await tab.resize(width, 613);
    const pairs = await tab.value(PAIRS);
    const beside = pairs.every(([box, label]) => box[1] < label[3] && label[1] < box[3] && label[0] >= box[2] && label[0] - box[2] < 15 && label[2] <= width);
    tally.holds(`labels are beside their boxes at a width of ${width}: ${JSON.stringify(pairs)}`, pairs.length >= 2 && beside);
    const map = await tab.value("document.getElementById('map').clientHeight");
    tally.holds(`the map has room at a width of ${width}: ${map}`, map > 250);
  }
  await resizes(tab, 1100, 613);
  await tab.until(IDLE);
  // Leaflet would tell of such a move a moment later.
  await pause(400);
  tally.holds("whatever its size is, what was shown whole stays so", await tab.value("window.tgap.sheet.all"));
}

/** What is drawn is put together once for a picture, and not when the map is moved. */
async function makesAPictureOnce({ tab, tally }) {
  await tab.value("void (window.before = { picture: window.tgap.sheet.picture, layers: window.tgap.sheet.layers })");
  for (const [dx, dy] of [[60, 0], [0, 60], [-60, -60]]) await tab.drag(MIDDLE, [MIDDLE[0] + dx, MIDDLE[1] + dy]);
  await tab.until(IDLE);
  tally.holds("moving the map keeps its picture", await tab.value("window.before.picture === window.tgap.sheet.picture && window.before.layers === window.tgap.sheet.layers"));
  await tab.value("document.getElementById('all').click()");
  await tab.until(IDLE);
}

async function edits(on) {
  const { tab, tally, served } = on;
  await beginsEditing(tab);
  const [vertex] = vertexToMove(await served.slice(0));
  await editsNear(tab, vertex, [6, 1]);
  tally.holds("an edit is published", await tab.until(`${text("version")} === 'Version 1' && ${IDLE}`));
  await endsEditing(tab);
  tally.equal("and told as such", await tab.value(NOTICES), "edit: Your edit is published as version 1.");
  tally.equal("the step is that of the view", (await shown(tab)).step, (await shown(tab)).wanted);

  const [from, to] = vertexToMove(await served.slice(0));
  await served.edit(`move ${from.join(" ")} ${to.join(" ")}\n`);
  await tab.value("window.dispatchEvent(new Event('focus'))");
  tally.holds("a newer version is told of", await tab.until(`(${NOTICES}).includes('Version 2 of the map is there.')`));
  tally.equal("and not shown yet", await tab.value(text("version")), "Version 1");
  await tab.value("document.getElementById('newest').click()");
  tally.holds("it is shown when it is asked for", await tab.until(`${text("version")} === 'Version 2' && ${IDLE}`));

  await landsOnAnUnseenVersion(on);
  await isTooLate(on);
}

/** Somebody publishes between the page's question and its edit. */
async function landsOnAnUnseenVersion({ tab, tally, served }) {
  const [from, to] = vertexToMove(await served.slice(0));
  await beginsEditing(tab);
  const take = async ({ requestId }) => {
    await served.edit(`move ${from.join(" ")} ${to.join(" ")}\n`);
    await tab.ask("Fetch.continueRequest", { requestId });
  };
  await tab.intercepting("*/map/edit", take, async () => {
    await editsNear(tab, otherVertex(await served.slice(0)), [-6, 1]);
    tally.holds("an edit on a version that was not seen is told", await tab.until(`(${NOTICES}).includes('published as version 4, but on top of version 3, which you had not seen')`));
  });
  await endsEditing(tab);
  tally.equal("its version is shown", (await shown(tab)).version, 4);
}

async function isTooLate({ tab, tally, served }) {
  const slice = await served.slice(0);
  const [from, to] = vertexToMove(slice);
  await beginsEditing(tab);
  await served.edit(`move ${from.join(" ")} ${to.join(" ")}\n`);
  await editsNear(tab, otherVertex(slice), [6, 2]);
  tally.holds("an edit that comes too late is told", await tab.until(`(${NOTICES}).includes('edit: Your edits are not published: somebody else')`));
  await tab.until(`window.tgap.client.version === 5 && ${IDLE}`);
  await pause(1000);
  tally.holds("and stays told", (await tab.value(NOTICES)).includes("edit: Your edits are not published: somebody else"));
  await endsEditing(tab);
  tally.equal("the newer version is shown", (await shown(tab)).version, 5);
}
