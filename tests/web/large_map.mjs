// The page over a map of 1,600 faces, where windows take the place of long rows of packets.
import { areaOf } from "../../clients/js/places.js";
import { dice } from "./lib.mjs";
import { BATCH, IDLE, beginsEditing, endsEditing, look, placeOf, presses, shown, turnsWheel, wrongSamples } from "./served.mjs";

const MIDDLE = [400, 330];
const MILLISECONDS_OF_DELAY = 150;
const POPUP = "document.querySelector('.leaflet-popup-content')?.innerText ?? ''";

export async function largeMap(on) {
  await on.tab.until(IDLE);
  await watch(on.tab);
  await neverShowsAStalePicture(on);
  await paintsWindowsWithinFaces(on);
  await movesAVertexOfAWindow(on);
  await editsFromNearAlone(on);
  await goesOnAfterAnothersEdit(on);
  const seen = await on.tab.value("({ ...window.seen, steps: null })");
  on.tally.holds(`at no moment a picture leaves a part of the view open: ${JSON.stringify(seen.open.slice(0, 3))}`, seen.open.length === 0 && seen.frames > 50);
  const steps = await on.tab.value("[...window.seen.steps].map((it) => it.split(' ')[0])");
  for (const kind of ["slice", "window"]) {
    const count = steps.filter((it) => it === kind).length;
    on.tally.holds(`on the way to a finer ${kind} steps between are seen: ${count}`, count > 20);
  }
  const asked = await on.tab.value("performance.getEntriesByType('resource').map(({ name }) => name.split('/map/')[1]?.split('/')[0]).filter(Boolean)");
  on.tally.holds("windows are refined by packets", asked.includes("window-packet"));
  on.tally.holds("there are as many layers as the picture has", seen.layers === 0);
  on.tally.holds("a bar is seen while something is on its way", seen.bar > 0);
  on.tally.holds("and none when all is there", await on.tab.value("document.getElementById('progress').hidden"));
}

/** Looks at each frame whether the picture covers the view. */
function watch(tab) {
  return tab.value(`(() => {
    const seen = (window.seen = { frames: 0, open: [], layers: 0, bar: 0, steps: new Set() });
    const { sheet } = window.tgap;
    const frame = () => {
      const { picture, box } = sheet;
      const a = picture.area;
      seen.frames += 1;
      seen.steps.add((a ? "window " : "slice ") + picture.step);
      if (a && !(a.x0 <= box.x0 && a.y0 <= box.y0 && a.x1 >= box.x1 && a.y1 >= box.y1)) seen.open.push([a, box]);
      let vectors = 0;
      // What marks an edit is drawn over it.
      sheet.map.eachLayer((it) => (vectors += it.setStyle && it.options.renderer === sheet.canvas ? 1 : 0));
      // The borders are one.
      if (vectors !== picture.fills.size + 1) seen.layers += 1;
      if (!document.getElementById("progress").hidden) seen.bar += 1;
      requestAnimationFrame(frame);
    };
    frame();
  })()`);
}

/** Each screenshot on the way is that of one slice or one window, of the step that the page tells. */
async function areRight({ tab, tally, served }, name, times) {
  const kinds = new Set();
  const slices = new Map();
  for (let i = 0; i < times; i++) {
    const view = await look(tab);
    if (!slices.has(view.step)) slices.set(view.step, await served.slice(view.step));
    const { count, wrong } = wrongSamples(view, slices.get(view.step));
    kinds.add(view.area ? "window" : "slice");
    tally.holds(`${name}: step ${view.step}, each face has its colour (${count} samples): ${JSON.stringify(wrong.slice(0, 3))}`, count > 20 && wrong.length === 0);
  }
  return [...kinds].join();
}

async function neverShowsAStalePicture(on) {
  const { tab, tally } = on;
  await tab.delay(MILLISECONDS_OF_DELAY);
  await areRight(on, "all of it", 1);
  await turnsWheel(tab, MIDDLE, -1000);
  await areRight(on, "on the way nearer", 4);
  await tab.until(IDLE);
  tally.equal("near, a window is shown", await areRight(on, "near", 1), "window");
  await turnsWheel(tab, MIDDLE, 1000);
  tally.equal("as soon as one goes back, a slice is shown", await areRight(on, "on the way back", 4), "slice");
  await tab.until(IDLE);
  const back = await shown(tab);
  tally.equal("and that of the view's step in the end", back.step, back.wanted);
  for (const turn of [-900, 300, -400, 1000]) {
    await tab.wheel(MIDDLE, turn);
    await areRight(on, "to and fro", 2);
  }
  await tab.delay(0);
  await tab.value("document.getElementById('all').click()");
  await tab.until(IDLE);
}

/** Places so near that no border is seen: all of the window lies in one face. */
async function paintsWindowsWithinFaces(on) {
  const { tab, tally, served } = on;
  const random = dice(5);
  let bare = 0;
  for (let i = 0; i < 12; i++) {
    const place = [0, 1].map(() => Math.round(40000 * (0.02 + 0.96 * random())));
    await tab.value(`location.hash = '#3/${place.join("/")}'`);
    await tab.until(`${IDLE} && Math.abs(window.tgap.sheet.map.getCenter().lng - ${place[0]}) < 1`);
    if (await tab.value("window.tgap.sheet.picture.area !== null && window.tgap.sheet.picture.lines.length === 0")) bare += 1;
    await areRight(on, `within a face at ${place}`, 1);
  }
  tally.holds(`some windows have no border: ${bare}`, bare >= 3);
  await identifiesInAWindow({ tab, tally, served });
}

/** The area of a face of which a window has a part alone. */
async function identifiesInAWindow({ tab, tally, served }) {
  await tab.value("location.hash = '#-1/20000/20000'");
  await tab.until(`${IDLE} && window.tgap.sheet.map.getZoom() === -1`);
  const { step, area } = await shown(tab);
  await tab.click(MIDDLE);
  await tab.until(`(${POPUP}).includes('Area') && !(${POPUP}).includes('\u2026')`);
  const words = (await tab.value(POPUP)).split(/\n+/);
  const [face, told] = ["Face", "Area"].map((name) => Number(words[words.indexOf(name) + 1].replaceAll(",", "")));
  const meant = areaOf(face, [...(await served.slice(step)).edges.values()]);
  tally.holds(`in a window a click tells the area of the whole face: ${told} and ${meant}`, area !== null && Math.abs(told / meant - 1) < 1e-5);
  await tab.value("document.querySelector('.leaflet-popup-close-button').click()");
  tally.holds("what a click told can be closed", await tab.until("document.querySelector('.leaflet-popup') === null"));
}

/** A vertex that one sees in a window, and that the slice at hand does not have. */
async function movesAVertexOfAWindow({ tab, tally, served }) {
  await tab.value("location.hash = '#-2/20000/20000'");
  await tab.until(`${IDLE} && window.tgap.sheet.map.getZoom() === -2`);
  const vertex = await tab.value(`(() => {
    const { detail, sheet } = window.tgap, held = new Set([...detail.slice.edges.values()].flatMap((it) => it.points.map(String)));
    const c = sheet.map.getCenter(), near = (p) => Math.hypot(p[0] - c.lng, p[1] - c.lat);
    const inner = sheet.picture.area ? sheet.picture.edges.flatMap((it) => it.points.slice(1, -1)) : [];
    return inner.filter((it) => !held.has(String(it))).sort((p, q) => near(p) - near(q))[0] ?? null;
  })()`);
  tally.holds("a window shows vertices that the slice at hand has not", vertex !== null);
  if (vertex === null) return;
  await beginsEditing(tab);
  const at = await placeOf(tab, vertex);
  await tab.drag(at, [at[0] + 6, at[1]]);
  await presses(tab, "publish");
  const isMoved = await tab.until(`document.getElementById('version').textContent === 'Version 1' && ${IDLE}`);
  tally.holds(`a vertex of a window can be moved: ${await tab.value("document.getElementById('notices').textContent")}`, isMoved);
  const points = [...(await served.slice(0)).edges.values()].flatMap((it) => it.points.map(String));
  tally.holds("and is elsewhere then", !points.includes(String(vertex)));
  await endsEditing(tab);
}

/** Where all of a large map is seen it is shown as coarse as ever, and cannot be edited. */
async function editsFromNearAlone({ tab, tally }) {
  const HINT = "document.getElementById('hint').textContent";
  await presses(tab, "all");
  await tab.until(IDLE);
  await beginsEditing(tab);
  tally.holds("from afar nothing can be edited", (await tab.value(HINT)).startsWith("Come nearer to edit"));
  await tab.click(MIDDLE);
  tally.equal("whatever is tapped", await tab.value(`${BATCH} + (window.tgap.sheet.picture === window.tgap.detail.picture)`), "true");
  await tab.value("location.hash = '#-2/20000/20000'");
  tally.holds("nearer it can", await tab.until(`${IDLE} && (${HINT}).startsWith('Drag a vertex') && window.tgap.sheet.picture.step === 0`));
  await endsEditing(tab);
}

async function goesOnAfterAnothersEdit({ tab, tally, served }) {
  await tab.value("document.getElementById('all').click()");
  await tab.until(IDLE);
  const [p] = [...(await served.slice(0)).edges.values()].map(({ points }) => points[1]);
  await served.edit(`move ${p.join(" ")} ${p[0] + 3} ${p[1] + 2}\n`);
  await turnsWheel(tab, MIDDLE, -100);
  tally.holds("after another's edit the new version is shown", await tab.until(`document.getElementById('version').textContent === 'Version 2' && ${IDLE}`));
  const after = await shown(tab);
  tally.holds(`at the step of the view: ${after.step} of ${after.wanted}`, after.step === after.wanted && after.wanted < after.steps - 1);
  tally.holds("and told", (await tab.value("document.getElementById('notices').textContent")).includes("Somebody else has published version 2. It is shown now."));
  await areRight({ tab, tally, served }, "after another's edit", 1);
}
