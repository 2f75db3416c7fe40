// The page of the example behind its front server, and what a test asks of it.
import { spawn, spawnSync } from "node:child_process";
import { randomBytes } from "node:crypto";
import { existsSync, readFileSync, readdirSync, readlinkSync, writeFileSync } from "node:fs";
import path from "node:path";
import { setTimeout as pause } from "node:timers/promises";
import { fileURLToPath } from "node:url";
import { crossingsAt } from "../../clients/js/places.js";
import { readSlice } from "../../clients/js/wire.js";
import { pixelsOf } from "./browser.mjs";
import { examples, firstMatch } from "./lib.mjs";

const run = fileURLToPath(new URL("../../examples/web/run", import.meta.url));
// Samples of a picture, this many pixels apart, and away from borders and from what stands at the edges of the map.
const APART = 23;
const CLEAR = 4;
const MARGIN = 70;
const MILLISECONDS = 20;
const BYTES_OF_A_TOKEN = 8;
const TOKEN = /(?<=Tgap-History )[0-9a-f]{16}/;

const childrenOf = (number) => readFileSync(`/proc/${number}/task/${number}/children`, "utf8").trim().split(" ").map(Number);

async function until(holds) {
  while (!(await holds())) await pause(MILLISECONDS);
}

/** What runs `examples/web/run` over a map, and can end its program alone and start it anew. */
export class Served {
  static #all = new Set();

  static stopAll() {
    for (const served of Served.#all) served.stop();
  }

  static async start(executable, ...map) {
    const served = new Served();
    Served.#all.add(served);
    served.child = spawn(run, map, { cwd: examples, stdio: ["ignore", "pipe", "inherit"], env: { ...process.env, TGAP_SERVER: executable } });
    served.address = await firstMatch(served.child, served.child.stdout, /http:\S+/);
    served.executable = executable;
    served.program = served.#process((exe) => exe === executable);
    served.front = served.#process((exe) => path.basename(exe) === "nginx").number;
    return served;
  }

  /** A process that was started with the page: its number and its words. */
  #process(isIts) {
    const number = childrenOf(this.child.pid).find((it) => isIts(readlinkSync(`/proc/${it}/exe`)));
    return { number, words: readFileSync(`/proc/${number}/cmdline`, "utf8").split("\0").slice(1, -1) };
  }

  endProgram() {
    if (this.second) this.second.kill("SIGKILL");
    else process.kill(this.program.number, "SIGKILL");
  }

  /** The program answers nothing from here on, though it is there. */
  async haltProgram() {
    const { number } = this.program;
    process.kill(number, "SIGSTOP");
    // Its threads stop one after the other.
    await until(() => readdirSync(`/proc/${number}/task`).every((it) => / T /.test(readFileSync(`/proc/${number}/task/${it}/stat`, "utf8"))));
  }

  /** The program is served anew, from the version that is in its file, and the front server names another history. */
  async startProgramAnew() {
    const token = randomBytes(BYTES_OF_A_TOKEN).toString("hex");
    await this.changeFront((text) => text.replaceAll(text.match(TOKEN)[0], token));
    await this.startProgram();
    return token;
  }

  /** The program is served anew, and the front server knows nothing of it. */
  async startProgram() {
    this.second = spawn(this.executable, this.program.words, { stdio: "ignore" });
    await until(async () => (await fetch(`${this.address}map/info`)).status === 200);
  }

  /** Changes the front server's configuration; when this is done, no process of it works by the old one. */
  async changeFront(change) {
    // nginx writes its words into its title, one blank apart.
    const [, file] = readFileSync(`/proc/${this.front}/cmdline`, "utf8").match(/ -c (\S+)/);
    const old = childrenOf(this.front);
    writeFileSync(file, change(readFileSync(file, "utf8")));
    process.kill(this.front, "SIGHUP");
    await until(() => old.every((it) => !existsSync(`/proc/${it}`)));
  }

  /** Publishes an edit as somebody else does. */
  async edit(batch) {
    const answer = await fetch(`${this.address}map/edit`, { method: "POST", body: batch });
    return answer.text();
  }

  async info() {
    return (await fetch(`${this.address}map/info`)).text();
  }

  async slice(step) {
    return readSlice(await (await fetch(`${this.address}map/slice/${step}`)).text());
  }

  stop() {
    this.second?.kill();
    this.child.kill();
  }
}

/** What the page shows, told by the page itself. */
export function shown(tab) {
  return tab.value(`(() => {
    const { sheet, detail } = window.tgap, { picture, map } = sheet, b = sheet.box, size = map.getSize();
    return picture && { step: picture.step, version: picture.version, area: picture.area, box: b, size: [size.x, size.y], wanted: detail.wanted, steps: detail.info.steps,
      zoom: map.getZoom() };
  })()`);
}

export const IDLE = "Boolean(window.tgap?.sheet.picture && window.tgap.detail.settled && !window.tgap.detail.working)";

export const text = (id) => `document.getElementById(${JSON.stringify(id)}).textContent`;
export const NOTICES = "[...document.querySelectorAll('#notices li')].map((it) => it.dataset.cause + ': ' + it.querySelector('span').textContent).join('\\n')";
export const PICTURE_TEXT = "import('/clients/js/wire.js').then((wire) => wire.sliceText({ ...window.tgap.sheet.picture, edges: new Map(window.tgap.sheet.picture.edges.map((it) => [it.key, it])) }))";

/** The screenshot with what is shown on it: nothing may change meanwhile. */
export async function look(tab) {
  for (;;) {
    const before = await shown(tab);
    const pixels = pixelsOf(await tab.screenshot());
    const after = await shown(tab);
    if (before && JSON.stringify(before) === JSON.stringify(after)) return { ...before, pixels };
  }
}

const FILLS = ["230,159,0", "86,180,233", "0,158,115", "240,228,66"];
const OUTSIDE = "244,244,241";

/** The face at each pixel of a view, by the slice: the crossings of a column of pixels are looked for once. */
function facesOf({ box, size }, slice) {
  const lines = [...slice.edges.values()];
  const columns = new Map();
  const columnAt = (px) => {
    if (!columns.has(px)) {
      const x = box.x0 + ((px + 0.5) / size[0]) * (box.x1 - box.x0);
      columns.set(px, [...crossingsAt(lines, x)].sort((a, b) => a.y - b.y));
    }
    return columns.get(px);
  };
  return (px, py) => {
    const y = box.y1 - ((py + 0.5) / size[1]) * (box.y1 - box.y0);
    return columnAt(px).find((crossing) => crossing.y >= y)?.below ?? 0;
  };
}

/** The samples of a picture that have another colour than the slice says. */
export function wrongSamples(view, slice) {
  const { size, pixels } = view;
  const faceOf = facesOf(view, slice);
  const wrong = [];
  let count = 0;
  for (let px = MARGIN; px < size[0] - MARGIN; px += APART) {
    for (let py = MARGIN; py < size[1] - MARGIN; py += APART) {
      const face = faceOf(px, py);
      const around = [-CLEAR, 0, CLEAR].flatMap((dx) => [-CLEAR, 0, CLEAR].map((dy) => faceOf(px + dx, py + dy)));
      if (around.some((it) => it !== face)) continue;
      count += 1;
      const colour = face === 0 ? OUTSIDE : FILLS[slice.faces.get(face)];
      if (String(pixels.at(px, py)) !== colour) wrong.push([px, py, colour, String(pixels.at(px, py))]);
    }
  }
  return { count, wrong };
}

/** Where a grid point is on the screen. */
export function placeOf(tab, [x, y]) {
  return tab.value(`(({ map }) => { const p = map.latLngToContainerPoint([${y}, ${x}]), box = map.getContainer().getBoundingClientRect(); return [p.x + box.x, p.y + box.y]; })(window.tgap.sheet)`);
}

/** The slice of a map by the program itself. */
export function sliceOf(executable, step, ...map) {
  const ran = spawnSync(executable, ["slice", map[0], String(step), ...map.slice(1)], { cwd: examples, encoding: "utf8", maxBuffer: 2 ** 28 });
  return readSlice(ran.stdout);
}

/** Turns the wheel, and waits until the view has followed: the page waits a moment for further turns. */
export async function turnsWheel(tab, place, by) {
  const zoom = await tab.value("window.tgap.sheet.map.getZoom()");
  await tab.wheel(place, by);
  return tab.until(`window.tgap.sheet.map.getZoom() !== ${zoom}`);
}

/** Gives the page another size, and waits until the map has taken it. */
export async function resizes(tab, width, height) {
  await tab.resize(width, height);
  const isTaken = "(({ map }) => { const { x, y } = map.getSize(), { clientWidth, clientHeight } = map.getContainer(); return x === clientWidth && y === clientHeight; })(window.tgap.sheet)";
  return tab.until(`window.innerWidth === ${width} && ${isTaken}`);
}

/** Loads the page anew, and waits until the one before is gone. */
export async function loadsAnew(tab, words = {}) {
  await tab.value("void (window.isOld = true)");
  await tab.ask("Page.reload", words);
  return tab.until("window.isOld === undefined");
}

/** Goes so near to a vertex that a pixel is a grid unit, and the finest step is shown. */
export async function goesNear(tab, [x, y]) {
  await tab.value(`location.hash = '#0/${x}/${y}'`);
  const isInTheMiddle = `(({ map }) => map.latLngToContainerPoint([${y}, ${x}]).distanceTo(map.getSize().divideBy(2)) < 2)(window.tgap.sheet)`;
  await tab.until(`${IDLE} && window.tgap.sheet.map.getZoom() === 0 && ${isInTheMiddle}`);
}

export const EDITING = "Boolean(window.tgap?.editing.isOn && !window.tgap.editing.isBusy)";
/** The lines of the edits that were made and not published. */
export const BATCH = "window.tgap.editing.draft?.batch()";

/** Presses a button of the page. */
export const presses = (tab, id) => tab.value(`document.getElementById(${JSON.stringify(id)}).click()`);

export async function beginsEditing(tab) {
  await presses(tab, "edit");
  return tab.until(EDITING);
}

/** Ends it, and discards what is not published. */
export async function endsEditing(tab) {
  await presses(tab, "close");
  await tab.value("document.querySelector('#notices li[data-cause=close] .actions button')?.click()");
  return tab.until(`!window.tgap.editing.isOn && ${IDLE}`);
}

/** Goes so near to a vertex that a drag over some pixels is a small edit, and drags it. */
export async function dragsNear(tab, vertex, by) {
  await tab.until(EDITING);
  await goesNear(tab, vertex);
  const at = await placeOf(tab, vertex);
  await tab.drag(at, at.map((z, axis) => z + by[axis]));
}

/** The same, and publishes it. */
export async function editsNear(tab, vertex, by) {
  await dragsNear(tab, vertex, by);
  await presses(tab, "publish");
}

/** An inner vertex of a border, and where it may go without harm: a hundredth of the way to the next vertex. */
export function vertexToMove(slice) {
  const edge = [...slice.edges.values()].find(({ points }) => points.length > 5);
  const [p, q] = [edge.points[2], edge.points[3]];
  return [p, p.map((z, axis) => Math.round(z + (q[axis] - z) / 100))];
}

/** An inner vertex of another border. */
export function otherVertex(slice) {
  return [...slice.edges.values()].filter(({ points }) => points.length > 5)[3].points[3];
}
