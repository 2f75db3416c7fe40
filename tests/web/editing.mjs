// Edits on the page, as a reader makes them: by mouse, by the keys and by touch; what is undone, published, refused, and carried over to a newer version.
// usage: node --experimental-websocket tests/web/editing.mjs EXECUTABLE CHROMIUM [FOLDER]; into FOLDER go pictures. Last line: 'N passed, N failed, N skipped'.
import { writeFileSync } from "node:fs";
import path from "node:path";
import { Browser, pixelsOf } from "./browser.mjs";
import { Tally } from "./lib.mjs";
import { BATCH, EDITING, IDLE, NOTICES, Served, beginsEditing, endsEditing, goesNear, loadsAnew, placeOf, presses, resizes, shown, text } from "./served.mjs";

const [executable, chromium, folder] = process.argv.slice(2).map((it) => path.resolve(it));
const tally = new Tally();
const CTRL = 2;
const SHIFT = 8;
const FINGER = 44;
// The guide shows the face that is third by the box round it.
const PARCEL = 2;
const HINT = "document.getElementById('hint').textContent";
const STEPS = "[...document.querySelectorAll('#steps li')].map((it) => it.textContent + (it.classList.contains('error') ? '!' : '')).join('; ')";
/** What the page says where the server knows neither cuts nor fusions. */
const TOO_OLD = "tool: The server is older than this page: it neither splits areas nor joins them. All other edits can be made.";
let browser;
let knowsCuts;

const takes = (tab, tool) => tab.value(`document.querySelector('#tools [data-tool=${tool}]').click()`);
const batch = (tab) => tab.value(BATCH);
const halfway = (p, q) => p.map((z, axis) => (z + q[axis]) / 2);

/** A face of the map with its border, large and without a hole: by number, with its place and the vertices of the border in order of their place. */
function largeFace({ edges, faces }) {
  const rows = [...faces.keys()].map((face) => {
    const points = [...edges.values()].filter(({ left, right }) => left === face || right === face).flatMap((it) => it.points);
    const [xs, ys] = [0, 1].map((axis) => points.map((it) => it[axis]));
    return { face, points, box: [Math.min(...xs), Math.min(...ys), Math.max(...xs), Math.max(...ys)] };
  });
  const sizeOf = ({ box: [x0, y0, x1, y1] }) => (x1 - x0) * (y1 - y0);
  return rows.sort((a, b) => sizeOf(b) - sizeOf(a));
}

/** An inner vertex of a border with the vertices beside it, on a long border of which few pixels are near to others. */
function innerVertex({ edges }) {
  const length = (p, q) => Math.hypot(p[0] - q[0], p[1] - q[1]);
  const triples = [...edges.values()].flatMap(({ points }) => points.slice(1, -1).map((q, i) => [points[i], q, points[i + 2]]));
  return triples.sort((a, b) => Math.min(length(b[0], b[1]), length(b[1], b[2])) - Math.min(length(a[0], a[1]), length(a[1], a[2])))[0];
}

/** The point of the grid at a place of the screen. */
const gridAt = (tab, [x, y]) => tab.value(`(({ map }) => {
  const box = map.getContainer().getBoundingClientRect(), { lng, lat } = map.containerPointToLatLng([${x} - box.x, ${y} - box.y]);
  return [Math.round(lng), Math.round(lat)];
})(window.tgap.sheet)`);

/** Drags a vertex by so many pixels; gives where it is then. */
async function dragsVertex(tab, vertex, by) {
  await goesNear(tab, vertex);
  const at = await placeOf(tab, vertex);
  const to = at.map((z, axis) => z + by[axis]);
  const goal = await gridAt(tab, to);
  await tab.drag(at, to);
  return goal;
}

async function picture(tab, name) {
  if (folder) writeFileSync(path.join(folder, `${name}.png`), await tab.screenshot());
}

async function movesAddsAndDrops({ tab, served }) {
  const [before, vertex, after] = innerVertex(await served.slice(0));
  await beginsEditing(tab);
  tally.equal("editing begins", await tab.value(text("state")), "Editing at full detail, 49 faces: nothing is changed yet.");
  const to = await dragsVertex(tab, vertex, [20, 30]);
  const line = `move ${vertex.join(" ")} ${to.join(" ")}\n`;
  tally.equal("a vertex is moved", await batch(tab), line);
  tally.equal("which is told", await tab.value(STEPS), "A vertex is moved");
  tally.holds("and shown", await tab.value(`window.tgap.sheet.picture.edges.some(({ points }) => points.some((it) => String(it) === '${to}'))`));
  tally.holds("in a mark of its own", await tab.value("document.querySelector('.mark-changed') !== null"));
  tally.holds("and not published", (await served.info()).startsWith("version 0 "));
  await tab.key("z", CTRL);
  tally.equal("it is undone", await batch(tab), "");
  await tab.key("y", CTRL);
  tally.equal("and done again", await batch(tab), line);
  await presses(tab, "undo");
  await presses(tab, "redo");
  await tab.key("z", CTRL);
  await tab.key("Z", CTRL | SHIFT);
  tally.equal("by buttons and by other keys too", await batch(tab), line);
  tally.equal("there is nothing to do again", await tab.value("document.getElementById('redo').disabled"), true);

  const middle = halfway(to, after).map(Math.round);
  await goesNear(tab, middle);
  await tab.click(await placeOf(tab, middle));
  const added = (await batch(tab)).slice(line.length).trim().split(" ").map(Number);
  tally.holds(`a click on a border adds a vertex: ${await batch(tab)}`, Math.abs(added[5] - middle[0]) <= 1 && Math.abs(added[6] - middle[1]) <= 1);
  await tab.value("document.getElementById('map').focus()");
  await tab.key("Delete");
  tally.equal("which Delete removes", (await batch(tab)).split("\n")[2], `drop ${added.slice(5).join(" ")}`);
  await goesNear(tab, before);
  await presses(tab, "undo");
  await presses(tab, "undo");
  await tab.click(await placeOf(tab, before));
  await presses(tab, "remove");
  const told = await tab.value(NOTICES);
  const isNode = await tab.value(`window.tgap.editing.draft.isNode([${before}])`);
  const isRight = isNode ? told === "tool: Borders meet there: this vertex cannot be removed." : (await batch(tab)).endsWith(`drop ${before.join(" ")}\n`);
  tally.holds(`a vertex that is chosen is removed by the button, unless borders meet there: ${told}`, isRight);
  await picture(tab, "edit_points");
  await endsEditing(tab);
}

async function losesNothingByAccident({ tab, served }) {
  const [, vertex] = innerVertex(await served.slice(0));
  await beginsEditing(tab);
  await goesNear(tab, vertex);
  const at = await placeOf(tab, vertex);
  await tab.drag([at[0] - 200, at[1] - 100], [at[0] - 150, at[1] - 80]);
  tally.equal("dragging the map edits nothing", await batch(tab), "");
  await dragsVertex(tab, vertex, [9, 0]);
  await presses(tab, "close");
  tally.holds("who would lose edits is asked", (await tab.value(NOTICES)) === "close: One step is not published." && (await tab.value("window.tgap.editing.isOn")));
  await endsEditing(tab);
  tally.equal("what is discarded is gone", await tab.value(NOTICES), "");
  tally.holds("the page shows its map again", (await shown(tab)).step === (await shown(tab)).wanted);
  await beginsEditing(tab);
  tally.equal("and begins anew", await batch(tab), "");
  await endsEditing(tab);
}

/** Where the middle of a face is on the screen, when all of the map is shown: a place that is away from its borders. */
async function placeIn(tab, face) {
  return tab.value(`(() => {
    const { draft } = window.tgap.editing, { map } = window.tgap.sheet, size = map.getSize(), box = document.getElementById('map').getBoundingClientRect();
    const of = (x, y) => { const { lng, lat } = map.containerPointToLatLng([x, y]); return draft.faceAt(lng, lat); };
    for (let x = 20; x < size.x - 20; x += 4) for (let y = 20; y < size.y - 20; y += 4)
      if ([-12, 0, 12].every((dx) => [-12, 0, 12].every((dy) => of(x + dx, y + dy) === ${face}))) return [x + box.x, y + box.y];
    return null;
  })()`);
}

async function givesClasses({ tab, served }) {
  await presses(tab, "all");
  await tab.until(IDLE);
  await beginsEditing(tab);
  const [{ face }] = largeFace(await served.slice(0));
  const ofClass = await tab.value(`(window.tgap.editing.draft.faces.get(${face}) + 1) % 4`);
  await takes(tab, "classes");
  await tab.value(`(() => { const box = document.getElementById('class'); box.value = '${ofClass}'; box.dispatchEvent(new Event('change')); })()`);
  const place = await placeIn(tab, face);
  await tab.click(place);
  tally.equal("a face gets a class", await batch(tab), `class ${face} ${ofClass}\n`);
  tally.holds("which is told by its name", /^Area [0-9]+ becomes (field|town|water|wood)$/.test(await tab.value(STEPS)));
  const fill = ["230,159,0", "86,180,233", "0,158,115", "240,228,66"][ofClass];
  await tab.mouse("mouseMoved", [5, 5]);
  tally.equal("and shown", String(pixelsOf(await tab.screenshot()).at(...place.map(Math.round))), fill);
  await tab.click(place);
  tally.equal("that it has already changes nothing", await batch(tab), `class ${face} ${ofClass}\n`);
  await endsEditing(tab);
}

/** Splits and joins are asked of the server; where it does not know them, the page says so, and the rest is tried with an answer in its place. */
async function asksForCuts({ tab, served }) {
  await beginsEditing(tab);
  await takes(tab, "split");
  await tab.until("window.tgap.editing.knowsCuts !== null");
  knowsCuts = await tab.value("window.tgap.editing.knowsCuts");
  tally.holds("asking publishes nothing", (await served.info()).startsWith("version 0 "));
  if (!knowsCuts) {
    tally.equal("an older server is told of", await tab.value(NOTICES), TOO_OLD);
    tally.equal("and another tool taken", await tab.value("document.querySelector('#tools [aria-pressed=true]').dataset.tool"), "points");
    await tab.value("void (window.tgap.editing.knowsCuts = true)");
    await tab.value("document.querySelector('#notices li[data-cause=tool] button').click()");
  }
  await endsEditing(tab);
}

/** Two places on the screen at the border of a face, to the left and to the right of a place in it; between them no border is near to the line. */
function acrossOf(tab, face) {
  return tab.value(`(() => {
    const { draft } = window.tgap.editing, { map } = window.tgap.sheet, box = document.getElementById('map').getBoundingClientRect();
    const isIn = (x, y) => { const { lng, lat } = map.containerPointToLatLng([x, y]); return draft.faceAt(lng, lat) === ${face}; };
    const size = map.getSize();
    let best = null;
    for (let y = 30; y < size.y - 30; y += 6) {
      for (let x = 20, first = null; x < size.x - 60; x += 1) {
        if (isIn(x, y)) { first ??= x; continue; }
        if (first === null) continue;
        const inner = Array.from({ length: Math.floor((x - first) / 4) }, (_, i) => first + 4 * i).slice(5, -5);
        if (x - first > (best?.wide ?? 60) && inner.every((it) => isIn(it, y - 14) && isIn(it, y + 14))) best = { wide: x - first, ends: [[first, y], [x, y]] };
        first = null;
      }
    }
    return best?.ends.map(([x, y]) => [x + box.x, y + box.y]) ?? null;
  })()`);
}

const CUT = /^(add .*\n){0,2}(node .*\n){0,2}cut ([0-9]+) ([0-9]+) ([0-9]+) .*\n$/;

async function splitsAndJoins({ tab, served }) {
  await presses(tab, "all");
  await tab.until(IDLE);
  await beginsEditing(tab);
  const [{ face }] = largeFace(await served.slice(0));
  const [from, to] = await acrossOf(tab, face);
  await takes(tab, "split");
  await tab.drag(from, to);
  const dragged = CUT.exec(await batch(tab));
  tally.holds(`a line that is drawn from border to border splits an area: ${await batch(tab)}`, dragged?.[3] === String(face) && dragged[5] === "2");
  tally.equal("in one step", await tab.value(STEPS), `Area ${face} is split`);
  tally.equal("there is a face more", await tab.value("window.tgap.editing.draft.faces.size"), 50);
  await picture(tab, "edit_split");
  await tab.key("z", CTRL);
  tally.equal("it is undone at once", `${await batch(tab)}${await tab.value("window.tgap.editing.draft.faces.size")}`, "49");

  const middle = halfway(from, to);
  for (const place of [from, [middle[0], middle[1] + 5], to]) await tab.click(place);
  const tapped = CUT.exec(await batch(tab));
  tally.holds(`so does one that is tapped, with its corners: ${await batch(tab)}`, tapped?.[3] === String(face) && tapped[5] === "3");
  const beside = await Promise.all([-14, 20].map((by) => gridAt(tab, [middle[0], middle[1] + by])));
  const parts = await Promise.all(beside.map(([x, y]) => tab.value(`window.tgap.editing.draft.faceAt(${x} + 0.25, ${y} + 0.25)`)));
  tally.equal("on either side is another face", parts.sort((a, b) => a - b).join(), `${face},50`);
  await picture(tab, "edit_split_corner");

  await takes(tab, "join");
  await tab.click([middle[0], middle[1] - 14]);
  tally.holds("the face that stays is told", (await tab.value(HINT)).includes("stays. Tap the neighbour that becomes part of it"));
  await tab.click([middle[0], middle[1] + 20]);
  tally.holds(`two areas are joined: ${await batch(tab)}`, /fuse ([0-9]+ 50|50 [0-9]+)\n$/.test(await batch(tab)) && (await tab.value("window.tgap.editing.draft.faces.size")) === 49);
  const apart = await tab.value(`(() => {
    const { draft } = window.tgap.editing, near = new Set(draft.edgesBeside(${face}).flatMap(({ left, right }) => [left, right]));
    return [...draft.faces.keys()].filter((it) => !near.has(it));
  })()`);
  const far = await placeIn(tab, largeFace(await served.slice(0)).find((it) => apart.includes(it.face)).face);
  const lines = await batch(tab);
  await tab.click([middle[0], middle[1] - 14]);
  await tab.click(far);
  const told = await tab.value(NOTICES);
  tally.holds(`only neighbours are: ${told}`, told.includes("tool: The two areas have no border with each other.") && (await batch(tab)) === lines);
  await refusesLines({ tab, from, to });
  await endsEditing(tab);
}

async function refusesLines({ tab, from, to }) {
  await takes(tab, "split");
  const middle = halfway(from, to);
  const before = await batch(tab);
  await tab.click([middle[0], middle[1] - 14]);
  tally.equal("a line begins at a border", await tab.value(HINT), "A line begins on a border: tap one.");
  await tab.click(from);
  await tab.click(middle);
  await tab.value("document.getElementById('map').focus()");
  await tab.key("Escape");
  await tab.click(to);
  tally.equal("Escape gives it up", await tab.value("window.tgap.editing.tool.line.length"), 1);
  await tab.key("Escape");
  tally.equal("and nothing has come of it", await batch(tab), before);
  // By a corner far outside.
  const bottom = await tab.value("document.getElementById('map').getBoundingClientRect().bottom");
  for (const place of [from, [middle[0], bottom - 6], to]) await tab.click(place);
  const told = await tab.value(NOTICES);
  const isRefused = told.includes("tool: The line comes to one place twice, or meets a border on its way.") && (await batch(tab)) === before;
  tally.holds(`a line that crosses a border is refused at once: ${told}`, isRefused);
}

/** The keys alone: the cross goes to a place, in large steps and in small ones. */
async function goesTo(tab, [x, y]) {
  await tab.value("document.getElementById('map').focus()");
  const at = () => tab.value("(() => { const { at, map } = window.tgap.editing.pointing; const p = at ?? map.getSize().divideBy(2).round(); return [p.x, p.y]; })()");
  for (const [axis, back, on] of [[0, "ArrowLeft", "ArrowRight"], [1, "ArrowUp", "ArrowDown"]]) {
    const goal = Math.round([x, y][axis]);
    for (let gone = (await at())[axis]; gone !== goal; gone = (await at())[axis]) await tab.key(gone > goal ? back : on, Math.abs(goal - gone) < 16 ? SHIFT : 0);
  }
}

async function editsByKeys({ tab, served }) {
  const slice = await served.slice(0);
  const [, vertex] = innerVertex(slice);
  await beginsEditing(tab);
  await goesNear(tab, vertex);
  const corner = () => tab.value("(({ x, y }) => [x, y])(document.getElementById('map').getBoundingClientRect())");
  const [dx, dy] = await corner();
  await tab.value("document.getElementById('map').focus()");
  await tab.key("ArrowRight");
  await goesTo(tab, (await placeOf(tab, vertex)).map((z, axis) => z - [dx, dy][axis]));
  tally.equal("what the cross is on is told", await tab.value("document.getElementById('here').textContent"), "a vertex");
  tally.holds("the cross is seen", await tab.value("!document.querySelector('.cross').hidden"));
  await tab.key("Enter");
  for (let i = 0; i < 2; i++) await tab.key("ArrowRight");
  await tab.key("ArrowUp", SHIFT);
  const goal = await gridAt(tab, (await placeOf(tab, vertex)).map((z, axis) => z + [32, -1][axis]));
  await tab.key("Enter");
  tally.equal("a vertex is moved by the keys", await batch(tab), `move ${[vertex, goal].flat().join(" ")}\n`);
  await tab.key("Enter");
  await tab.key("ArrowRight");
  await tab.key("Escape");
  tally.equal("Escape leaves it where it was", (await batch(tab)).split("\n").length, 2);
  await tab.key("z", CTRL);
  await tab.key("Escape");
  await presses(tab, "all");
  await tab.until(IDLE);
  const [{ face }] = largeFace(slice);
  const [from, to] = await acrossOf(tab, face);
  const box = await corner();
  await takes(tab, "split");
  for (const place of [from, to]) {
    await goesTo(tab, place.map((z, axis) => z - box[axis]));
    await tab.key("Enter");
  }
  tally.holds(`an area is split by the keys: ${await batch(tab)}`, CUT.exec(await batch(tab))?.[3] === String(face));
  await takes(tab, "join");
  for (const by of [-10, 10]) {
    await goesTo(tab, halfway(from, to).map((z, axis) => z - box[axis] + (axis === 1 ? by : 0)));
    await tab.key(" ");
  }
  tally.holds(`and joined: ${await batch(tab)}`, /fuse ([0-9]+ 50|50 [0-9]+)\n$/.test(await batch(tab)));
  await endsEditing(tab);
}

/** The pictures of docs/guide.md. */
async function drawsForTheGuide({ tab, served }) {
  const picture = async (name) => {
    const box = await tab.value("(({ x, y, width, height }) => ({ x, y, width, height }))(document.getElementById('view').getBoundingClientRect())");
    writeFileSync(path.join(folder, `${name}.png`), await tab.screenshot(box));
  };
  await resizes(tab, 520, 600);
  await beginsEditing(tab);
  if (!knowsCuts) await tab.value("void (window.tgap.editing.knowsCuts = true)");
  const { face, box: [x0, y0, x1, y1] } = largeFace(await served.slice(0))[PARCEL];
  await tab.value(`void window.tgap.sheet.map.fitBounds([[${y0}, ${x0}], [${y1}, ${x1}]], { animate: false })`);
  await tab.until(IDLE);
  await takes(tab, "split");
  const [from, to] = await acrossOf(tab, face);
  await tab.mouse("mouseMoved", from);
  await tab.mouse("mousePressed", from, { button: "left", buttons: 1, clickCount: 1 });
  const near = halfway(halfway(from, to), to);
  await tab.mouse("mouseMoved", near, { button: "left", buttons: 1 });
  await picture("edit_line");
  await tab.mouse("mouseMoved", to, { button: "left", buttons: 1 });
  await tab.mouse("mouseReleased", to, { button: "left", clickCount: 1 });
  await takes(tab, "classes");
  const ofClass = await tab.value(`(window.tgap.editing.draft.faces.get(${face}) + 2) % 4`);
  await tab.value(`(() => { const box = document.getElementById('class'); box.value = '${ofClass}'; box.dispatchEvent(new Event('change')); })()`);
  const [middle, [, high]] = [halfway(from, to), from];
  await tab.click([middle[0], high - 30]);
  await tab.mouse("mouseMoved", [middle[0], high - 31]);
  await picture("edit_split");
  await takes(tab, "join");
  await tab.click([middle[0], high + 30]);
  await picture("edit_chosen");
  await tab.click([middle[0], high - 30]);
  await picture("edit_join");
  tally.holds(`the guide's split and join can be made: ${await tab.value(NOTICES)}`, (await tab.value("window.tgap.editing.draft.faces.size")) === (await served.slice(0)).faces.size);
  await endsEditing(tab);
  await resizes(tab, 1100, 613);
}

async function editsByTouch({ tab, served }) {
  await tab.ask("Emulation.setTouchEmulationEnabled", { enabled: true, maxTouchPoints: 2 });
  await tab.ask("Emulation.setDeviceMetricsOverride", { width: 390, height: 780, deviceScaleFactor: 1, mobile: true });
  await loadsAnew(tab);
  await tab.until(IDLE);
  await beginsEditing(tab);
  const small = await tab.value(`[...document.querySelectorAll('#tools button, #tools select, .leaflet-bar > *')].filter((it) => it.offsetParent)
    .map((it) => it.getBoundingClientRect()).filter(({ width, height }) => width < ${FINGER} || height < ${FINGER}).length`);
  tally.equal(`what a finger has to hit is ${FINGER} pixels wide and high`, small, 0);
  tally.equal("the page is not wider than the screen", await tab.value("document.documentElement.scrollWidth"), 390);
  tally.holds("the map has room", (await tab.value("document.getElementById('map').clientHeight")) > 250);
  const slice = await served.slice(0);
  const [, vertex, after] = innerVertex(slice);
  await goesNear(tab, vertex);
  const at = await placeOf(tab, vertex);
  const to = await gridAt(tab, [at[0] + 28, at[1] + 18]);
  await tab.touch([at[0] + 12, at[1] - 10], [at[0] + 30, at[1]], [at[0] + 40, at[1] + 8]);
  tally.equal("a finger moves a vertex", await batch(tab), `move ${vertex.join(" ")} ${to.join(" ")}\n`);
  const middle = halfway(to, after).map(Math.round);
  await goesNear(tab, middle);
  await tab.touch(await placeOf(tab, middle));
  tally.holds(`a tap on a border adds one: ${await batch(tab)}`, /\nadd .*\n$/.test(await batch(tab)));
  const before = await tab.value("window.tgap.sheet.map.getCenter().lng");
  const lines = await batch(tab);
  await tab.touch([60, 60], [90, 70], [130, 90]);
  tally.holds("a finger moves the map elsewhere", (await tab.value("window.tgap.sheet.map.getCenter().lng")) !== before && (await batch(tab)) === lines);
  await presses(tab, "undo");
  await presses(tab, "undo");
  const [{ face, box: [x0, y0, x1, y1] }] = largeFace(slice);
  await tab.value(`void window.tgap.sheet.map.fitBounds([[${y0}, ${x0}], [${y1}, ${x1}]], { animate: false })`);
  await tab.until(IDLE);
  const across = await acrossOf(tab, face);
  if (!knowsCuts) await tab.value("void (window.tgap.editing.knowsCuts = true)");
  await takes(tab, "split");
  await tab.touch(across[0], halfway(...across), across[1]);
  tally.holds(`a finger splits an area: ${await batch(tab)}${await tab.value(NOTICES)}`, CUT.exec(await batch(tab))?.[3] === String(face));
  await picture(tab, "edit_phone");
  await presses(tab, "undo");
  for (const place of across) await tab.touch(place);
  tally.holds(`and by two taps: ${await batch(tab)}`, CUT.exec(await batch(tab))?.[3] === String(face));
  await endsEditing(tab);
  await tab.ask("Emulation.setTouchEmulationEnabled", { enabled: false });
  await tab.resize(1100, 613);
  await loadsAnew(tab);
  await tab.until(IDLE);
}

/** What is refused is marked: the step of a line that is at fault, and the place where the map would be. */
async function marksWhatIsRefused({ tab, served }) {
  const [before, vertex, after] = innerVertex(await served.slice(0));
  await beginsEditing(tab);
  await dragsVertex(tab, vertex, [9, 4]);
  const answer = (body) => ({ status: 422, headers: {}, body });
  await tab.intercepting("*/map/edit", ({ requestId }) => tab.fulfill(requestId, answer("edit line 1 cause 3\n")), async () => {
    await presses(tab, "publish");
    const words = "edit: Your edits are not published. Step 1 does not fit the map that is there: no point of a border is there (edit line 1 cause 3).";
    tally.holds("the step at fault is told", await tab.until(`(${NOTICES}).includes(${JSON.stringify(words)})`));
    tally.equal("and marked in the list", await tab.value(STEPS), "A vertex is moved!");
    tally.equal("and on the map", await tab.value("document.querySelectorAll('.mark-wrong').length"), 1);
  });
  await tab.key("z", CTRL);
  tally.equal("until it is undone", `${await tab.value(STEPS)}${await tab.value(NOTICES)}${await tab.value("document.querySelectorAll('.mark-wrong').length")}`, "0");
  // Over the border behind the next vertex but one.
  const over = after.map((z, axis) => Math.round(z + (z - before[axis]) / 2));
  await presses(tab, "all");
  await tab.until(IDLE);
  await tab.value(`window.tgap.editing.makes(() => window.tgap.editing.draft.move([${vertex}], [${over}]))`);
  await tab.value(`window.tgap.editing.makes(() => window.tgap.editing.draft.move([${before}], [${over.map((z) => z + 40)}]))`);
  await presses(tab, "publish");
  const isTold = await tab.until(`(${NOTICES}).includes('edit: Your edits are not published. The map would not be sound:') && (${NOTICES}).includes('The place is marked')`);
  tally.holds(`an unsound map is told: ${await tab.value(NOTICES)}`, isTold);
  const named = /meets [0-9]+ [0-9]+ (-?[0-9]+) (-?[0-9]+) ([0-9]+)/.exec(await tab.value(NOTICES)).slice(1).map(Number);
  const place = await placeOf(tab, named.slice(0, 2).map((z) => z / named[2]));
  const mark = await tab.value("(({ x, y, width, height }) => [x + width / 2, y + height / 2])(document.querySelector('.mark-wrong').getBoundingClientRect())");
  tally.holds(`the place is marked: ${mark} and ${place}`, mark.every((z, axis) => Math.abs(z - place[axis]) < 2));
  tally.holds("nothing is published", (await served.info()).startsWith("version 0 "));
  await picture(tab, "edit_refused");
  await endsEditing(tab);
}

async function publishes({ tab, served }) {
  const [, vertex] = innerVertex(await served.slice(0));
  await beginsEditing(tab);
  const to = await dragsVertex(tab, vertex, [8, 4]);
  await tab.value("window.tgap.editing.makes(() => window.tgap.editing.draft.setClass(1, 0))");
  await presses(tab, "publish");
  tally.holds("two edits are published together", await tab.until(`(${NOTICES}) === 'edit: Your 2 edits are published as version 1.' && ${EDITING}`));
  tally.equal("nothing is left to publish", `${await batch(tab)}${await tab.value("document.getElementById('publish').disabled")}`, "true");
  const points = [...(await served.slice(0)).edges.values()].flatMap((it) => it.points.map(String));
  tally.holds("the server has them", points.includes(String(to)));
  tally.equal("and editing goes on", await tab.value(text("version")), "Version 1");
  await endsEditing(tab);
}

/** Another editor is first: what still applies is carried over, and the rest is told. */
async function carriesOver({ tab, served }) {
  const slice = await served.slice(0);
  const [, vertex] = innerVertex(slice);
  const [, other] = innerVertex({ edges: new Map([...slice.edges].filter(([, { points }]) => !points.some((it) => String(it) === String(vertex)))) });
  const moves = (p, by) => `move ${p.join(" ")} ${p.map((z, axis) => z + by[axis]).join(" ")}`;
  await beginsEditing(tab);
  for (const [p, by] of [[vertex, [5, 3]], [other, [4, 6]]]) {
    const to = p.map((z, axis) => z + by[axis]);
    await tab.value(`window.tgap.editing.makes(() => window.tgap.editing.draft.move([${p}], [${to}]))`);
  }
  await served.edit(`${moves(other, [-4, 2])}\n`);
  await tab.value("window.dispatchEvent(new Event('focus'))");
  tally.holds("who edits is told of a newer version", await tab.until(`(${NOTICES}).includes('news: Version 2 of the map is there. Your edits are on version 1.')`));
  await presses(tab, "publish");
  const words = "edit: Your edits are not published: somebody else has published another version.";
  tally.holds("edits of an older version are not published", await tab.until(`(${NOTICES}).includes('${words}')`));
  tally.holds("nothing was", (await served.info()).startsWith("version 2 "));
  await tab.value("document.querySelector('#notices li[data-cause=edit] .actions button').click()");
  const carried = "edit: 1 of 2 steps is made again on version 2. Look at the map, and publish. Left out: A vertex is moved (no point of a border is there).";
  const isCarried = await tab.until(`${EDITING} && (${NOTICES}).includes(${JSON.stringify(carried)})`);
  tally.holds(`what still applies is carried over: ${await tab.value(NOTICES)}`, isCarried);
  tally.equal("and no more", await batch(tab), `${moves(vertex, [5, 3])}\n`);
  await presses(tab, "publish");
  tally.holds("then it is published", await tab.until(`(${NOTICES}).includes('edit: Your edit is published as version 3.') && ${EDITING}`));
  await served.edit("class 1 1\n");
  await tab.value("window.dispatchEvent(new Event('focus'))");
  await tab.until(`(${NOTICES}).includes('news: Version 4 of the map is there.')`);
  await presses(tab, "newest");
  tally.holds("who has no edits goes on with the newest version", await tab.until(`${EDITING} && ${text("version")} === 'Version 4'`));
  await endsEditing(tab);
}

/** What is split and joined on the page is what the server makes of it. */
async function publishesCuts({ tab, served }) {
  if (!knowsCuts) return tally.skip("splits and joins that are published", "the server does not know their lines");
  await presses(tab, "all");
  await tab.until(IDLE);
  await beginsEditing(tab);
  const before = (await served.info()).split(" ")[5];
  const [{ face }] = largeFace(await served.slice(0));
  const [from, to] = await acrossOf(tab, face);
  await takes(tab, "split");
  await tab.drag(from, to);
  await presses(tab, "publish");
  tally.holds(`a split is published: ${await tab.value(NOTICES)}`, await tab.until(`(${NOTICES}).includes('edit: Your edit is published as version 5.') && ${EDITING}`));
  tally.equal("there is a face more", (await served.info()).split(" ")[5], String(Number(before) + 1));
  await takes(tab, "join");
  const middle = halfway(from, to);
  for (const by of [-10, 10]) await tab.click([middle[0], middle[1] + by]);
  await presses(tab, "publish");
  tally.holds(`and a join: ${await tab.value(NOTICES)}`, await tab.until(`(${NOTICES}).includes('edit: Your edit is published as version 6.') && ${EDITING}`));
  tally.equal("the face is one again", (await served.info()).split(" ")[5], before);
  // The ends of the line are nodes still, which no slice shows.
  await takes(tab, "split");
  await tab.drag(from, to);
  await presses(tab, "publish");
  tally.holds(`and split again: ${await tab.value(NOTICES)}`, await tab.until(`(${NOTICES}).includes('edit: Your edit is published as version 7.') && ${EDITING}`));
  return endsEditing(tab);
}

// Where the time is up, nothing of it goes on.
process.on("SIGTERM", () => {
  browser?.kill();
  Served.stopAll();
  process.exit(1);
});
const served = await Served.start(executable, "columbus.json", "areas", "columbus.rules.json");
try {
  browser = await Browser.start(chromium, "1100,700");
  const tab = await browser.open();
  await tab.resize(1100, 613);
  await tab.go(served.address);
  await tab.until(IDLE);
  await resizes(tab, 1100, 613);
  const on = { tab, served };
  const here = [movesAddsAndDrops, losesNothingByAccident, givesClasses, asksForCuts, splitsAndJoins, editsByKeys];
  const published = [marksWhatIsRefused, publishes, carriesOver, publishesCuts, editsByTouch];
  for (const work of [...here, ...published]) await work(on);
  if (folder) await drawsForTheGuide(on);
  const written = tab.written.filter(({ source }) => source !== "network");
  tally.holds(`nothing is written to the console: ${JSON.stringify(written)}`, written.length === 0);
} finally {
  served.stop();
  await browser?.stop();
}
tally.end();
