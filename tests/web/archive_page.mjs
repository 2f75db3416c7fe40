// Looks at the page over an archive in a headless browser: what it shows behind plain servers, with ranges and without, off the network and from a disk.
// usage: node --experimental-websocket tests/web/archive_page.mjs EXECUTABLE CHROMIUM [FOLDER]; into FOLDER go pictures. Last line: 'N passed, N failed, N skipped'.
import { spawn, spawnSync } from "node:child_process";
import { mkdirSync, mkdtempSync, readFileSync, rmSync, writeFileSync } from "node:fs";
import { tmpdir } from "node:os";
import path from "node:path";
import { setTimeout as pause } from "node:timers/promises";
import { fileURLToPath, pathToFileURL } from "node:url";
import { Browser } from "./browser.mjs";
import { Tally, endServing, examples, fetchAlone, freePort, gridListing, serve } from "./lib.mjs";
import { PlainServer, publish } from "./published.mjs";
import { IDLE, NOTICES, loadsAnew, look, placeOf, resizes, shown, sliceOf, text, turnsWheel, wrongSamples } from "./served.mjs";

const [executable, chromium, pictures] = process.argv.slice(2).map((it) => path.resolve(it));
const layOut = fileURLToPath(new URL("../../examples/web/lay_out", import.meta.url));
const room = mkdtempSync(path.join(tmpdir(), "web-archive-page-"));
const tally = new Tally();
const MIDDLE = [400, 330];
const COLUMBUS = ["columbus.json", "areas", "columbus.rules.json"];
const POPUP = "document.querySelector('.leaflet-popup-content')?.innerText ?? ''";
/** Whether the worker keeps each file that the page was given, and each part of the archive that the server gave. */
const keepsAll = ({ heard }) => `caches.open('tgap-kept-1').then((it) => it.keys()).then((all) => {
  const kept = all.map(({ url }) => url), parts = kept.map((it) => new URL(it).searchParams.get('tgap-part') ?? '');
  const files = performance.getEntriesByType('resource').filter((it) => it.responseStatus === 200).map(({ name }) => name);
  const given = ${JSON.stringify(heard.filter((it) => it.status === 206).map(({ from, bytes }) => `${from} ${bytes} `))};
  return [location.href.split('#')[0], ...files].every((it) => kept.includes(it)) && given.every((it) => parts.some((part) => part.startsWith(it)));
})`;
let browser;
const started = new Set();

function endAll() {
  browser?.kill();
  for (const child of started) child.kill();
  endServing();
}

// Where the time is up, nothing of it goes on.
process.on("SIGTERM", () => {
  endAll();
  process.exit(1);
});

/** A folder with the page and the archive of a map. */
async function folderOf(name, ...map) {
  const folder = path.join(room, name);
  await publish(executable, folder, ...map);
  const laid = spawnSync(layOut, [folder], { encoding: "utf8" });
  tally.equal(`${name}: the page is laid out`, `${laid.status} ${laid.stderr}`, "0 ");
  return folder;
}

/** The screen shows the map at the step that the page tells. */
async function isRight(tab, name, map) {
  tally.holds(`${name}: a map is shown`, await tab.until(IDLE));
  const view = await look(tab);
  const { count, wrong } = wrongSamples(view, sliceOf(executable, view.step, ...map));
  tally.holds(`${name}: step ${view.step}, each face has its colour (${count} samples): ${JSON.stringify(wrong.slice(0, 3))}`, count > 20 && wrong.length === 0);
  return view;
}

function nothingIsWritten(tab, name) {
  const written = tab.written.filter(({ source }) => source !== "network");
  tally.holds(`${name}: nothing is written to the console: ${JSON.stringify(written)}`, written.length === 0);
}

/** Waits for a server of a folder to answer, and looks at the page there. */
async function behind(name, words, root, folder) {
  const child = spawn(words[0], words.slice(1), { cwd: folder, stdio: "ignore" });
  started.add(child);
  try {
    for (let i = 0; i < 200 && !(await fetch(root).catch(() => null)); i++) await pause(100);
    const tab = await browser.open();
    await tab.go(root);
    await isRight(tab, name, COLUMBUS);
    tally.holds(`${name}: a turn of the wheel comes nearer`, await turnsWheel(tab, MIDDLE, -300));
    await isRight(tab, `${name}, nearer`, COLUMBUS);
    nothingIsWritten(tab, name);
    const ranged = await tab.value("window.tgap.client.ranged");
    tab.close();
    return ranged;
  } finally {
    child.kill();
    started.delete(child);
  }
}

function nginxWords(folder, port) {
  const file = path.join(room, "nginx.conf");
  const kept = ["client_body", "proxy", "fastcgi", "uwsgi", "scgi"].map((it) => `${it}_temp_path ${room}/nginx_${it};`).join(" ");
  const types = "types { text/html html; text/javascript js; text/css css; application/json json; image/png png; }";
  writeFileSync(file, `daemon off; pid ${room}/nginx.pid; error_log ${room}/nginx.log; events {} http { ${types} access_log off; ${kept} server { listen 127.0.0.1:${port}; root ${folder}; } }`);
  return ["nginx", "-e", path.join(room, "nginx.log"), "-c", file];
}

async function behindPlainServers(folder) {
  // nginx works as another user, who may read this.
  spawnSync("chmod", ["-R", "a+rX", room]);
  const ports = [await freePort(), await freePort()];
  tally.equal("nginx gives ranges", await behind("nginx", nginxWords(folder, ports[0]), `http://127.0.0.1:${ports[0]}/`, folder), true);
  const words = ["python3", "-m", "http.server", "--bind", "127.0.0.1", String(ports[1])];
  tally.equal("http.server of Python gives none", await behind("http.server", words, `http://127.0.0.1:${ports[1]}/`, folder), false);
}

/** From a disk, in a browser that lets a page read files. */
async function fromADisk(folder) {
  const lenient = await Browser.start(chromium, "1100,700", ["--allow-file-access-from-files"]);
  try {
    const tab = await lenient.open();
    await tab.go(pathToFileURL(path.join(folder, "index.html")).href);
    await isRight(tab, "from a disk", COLUMBUS);
    nothingIsWritten(tab, "from a disk");
  } finally {
    await lenient.stop();
  }
}

/** What a reader sees and does; names and metres where the metadata have them. */
async function tellsNames(folder) {
  const plain = await PlainServer.start(folder);
  const tab = await browser.open();
  try {
    await tab.go(plain.root);
    await tab.until(IDLE);
    tally.equal("the title is that of the metadata", await tab.value("document.title"), "columbus");
    tally.equal("the classes have names", await tab.value("[...document.querySelectorAll('#legend span')].map((it) => it.textContent).join()"), "field,town,water,wood");
    tally.holds("an archive is not edited", await tab.value("document.getElementById('editing').hidden && getComputedStyle(document.getElementById('editing')).display === 'none'"));
    const length = "document.querySelector('.leaflet-control-scale-line').textContent";
    tally.holds("lengths are told without a unit that is not known", /^[0-9.]+$/.test(await tab.value(length)));
    await tab.until("window.tgap.known.metadata.areas !== undefined");
    await tab.value(`(({ known, sheet }) => {
      const { areas, steps } = known.metadata;
      const named = areas.map((it) => ({ ...it, name: "Place " + it.id, attributes: { ...it.attributes, people: it.id } }));
      known.add({ ...known.metadata, areas: named, steps: steps.map((it) => ({ ...it, scale: 1000 })) });
      sheet.tellAnew();
    })(window.tgap)`);
    tally.holds("in metres where they are", /^[0-9.]+ (m|km)$/.test(await tab.value(length)));
    await turnsWheel(tab, MIDDLE, -300);
    tally.holds("near it is the finest step", await tab.until(`${IDLE} && window.tgap.sheet.picture.step === 0`));
    const face = await tab.value(`(({ map, picture }) => { const p = map.containerPointToLatLng(${JSON.stringify(MIDDLE)}); return picture.faceAt(p.lng, p.lat); })(window.tgap.sheet)`);
    await tab.click(MIDDLE);
    await tab.until(`(${POPUP}).includes('Area') && !(${POPUP}).includes('\\u2026')`);
    const words = (await tab.value(POPUP)).split(/\n+/);
    const told = (row) => words[words.indexOf(row) + 1];
    tally.equal("a click tells the name of a place", told("Name"), `Place ${face}`);
    tally.equal("and what is known of it", told("people"), String(face));
    tally.holds(`and its area in square metres: ${told("Area")}`, / (m|km)\u00b2$/.test(told("Area")));
    tally.holds("and no number of it", !words.includes("Face"));
    await onATelephone(tab);
    nothingIsWritten(tab, "names");
  } finally {
    plain.stop();
    tab.close();
  }
}

async function onATelephone(tab) {
  tally.holds("on a telephone the map is made anew", await resizes(tab, 360, 640));
  await tab.until(IDLE);
  const fits = "document.documentElement.scrollWidth <= 360 && document.getElementById('map').clientHeight >= 320 && document.querySelector('#all').getBoundingClientRect().right <= 360";
  tally.holds("on a telephone the map has its room", await tab.value(fits));
  tally.holds("and the legend is seen", await tab.value("document.querySelector('#legend').getBoundingClientRect().bottom <= 640"));
  if (pictures) writeFileSync(path.join(pictures, "archive_telephone.png"), await tab.screenshot());
  await tab.resize(1100, 613);
}

/** After one visit all that was seen is shown without the server, also where the worker comes when the map is already there. */
async function offTheNetwork(folder, name, isLate) {
  const plain = await PlainServer.start(folder);
  let letGo;
  const held = new Promise((resolve) => (letGo = resolve));
  plain.before = (asked) => isLate && asked === "worker.js" && held;
  const tab = await browser.open();
  try {
    await tab.go(plain.root);
    tally.holds(`${name}: a map is shown`, await tab.until(IDLE));
    tally.holds(`${name}: a late worker is not waited for`, !isLate || (await tab.value("!navigator.serviceWorker.controller")));
    letGo();
    tally.holds(`${name}: the worker is there`, await tab.until("Boolean(navigator.serviceWorker.controller)"));
    await turnsWheel(tab, MIDDLE, -300);
    await tab.until(IDLE);
    const before = await shown(tab);
    tally.holds(`${name}: all that the page was given is kept`, await tab.until(keepsAll(plain)));
    plain.stop();
    tally.holds(`${name}: the page is loaded anew`, await loadsAnew(tab, { ignoreCache: false }));
    const view = await isRight(tab, name, COLUMBUS);
    tally.equal(`${name}: the same is seen`, `${view.step} ${view.zoom}`, `${before.step} ${before.zoom}`);
    await tab.value("document.getElementById('all').click()");
    await isRight(tab, `${name}, all of it`, COLUMBUS);
  } finally {
    letGo();
    plain.stop();
    tab.close();
  }
}

/** Goes so near to a place that the finest step is shown: whether its picture comes, of a version, with the place in it. */
async function comesNear(tab, [x, y], version) {
  await tab.value(`location.hash = '#0/${x}/${y}'`);
  const holds = `area.x0 < ${x} && ${x} < area.x1 && area.y0 < ${y} && ${y} < area.y1`;
  return tab.until(`${IDLE} && (({ step, version, area }) => step === 0 && version === ${version} && ${holds})(window.tgap.sheet.picture)`);
}

/** Asks for the newest archive, where it is shown: that is answered, and all that is at hand leads on. It is told by `map.json`; an archive alone is opened anew. */
async function goesOnFromTheNewest(folder) {
  const plain = await PlainServer.start(folder);
  const { archive, version, bounds } = JSON.parse(readFileSync(path.join(folder, "map.json"), "utf8"));
  const middle = [0, 1].map((axis) => Math.round((bounds[axis] + bounds[2 + axis]) / 2));
  try {
    for (const [name, query, shownVersion] of [["by map.json", "", version], ["alone", `?archive=${archive}`, 0]]) {
      const tab = await browser.open();
      await tab.go(plain.root + query);
      await tab.until(IDLE);
      const from = await shown(tab);
      await tab.value("document.getElementById('newest').click()");
      tally.equal(`an archive ${name}: whether it is the newest is answered`, await tab.until("window.tgap.client.version !== null") && (await tab.value("window.tgap.client.version")), shownVersion);
      tally.holds(`an archive ${name}: after that one comes nearer`, from.step > 0 && (await comesNear(tab, middle, shownVersion)));
      tally.equal(`an archive ${name}: no other one is told of`, await tab.value(NOTICES), "");
      nothingIsWritten(tab, `an archive ${name}`);
      tab.close();
    }
  } finally {
    plain.stop();
  }
}

/** A newer archive is told of, and shown when it is asked for; one that is damaged is not drawn, and told. */
async function seesANewerOne() {
  const file = path.join(room, "grid.tgap");
  writeFileSync(file, gridListing(20));
  const served = await serve(executable, file);
  const folder = path.join(room, "newer");
  mkdirSync(folder);
  await publish(executable, folder, "--from", served.root);
  spawnSync(layOut, [folder]);
  const plain = await PlainServer.start(folder);
  const tab = await browser.open();
  try {
    await tab.go(plain.root);
    await tab.until(IDLE);
    tally.equal("the version is told", await tab.value(text("version")), "Version 0");
    const slice = sliceOf(executable, 0, file);
    const [x, y] = slice.edges.get(30).points[1];
    await fetchAlone(`${served.root}edit`, { method: "POST", body: `move ${x} ${y} ${x + 9} ${y + 5}\n` });
    await publish(executable, folder, "--from", served.root);
    await tab.value("window.dispatchEvent(new Event('focus'))");
    tally.holds("a newer archive is told of or shown", await tab.until(`/ersion 1/.test(${NOTICES})`));
    await tab.value("document.getElementById('newest').click()");
    tally.holds("it is shown when it is asked for", await tab.until(`${text("version")} === 'Version 1' && ${IDLE}`));
    tally.holds("near a vertex that was edited it is the finest step, of this version", await comesNear(tab, [x, y], 1));
    tally.holds("with what was edited", await tab.value(`window.tgap.sheet.picture.edges.some(({ points }) => points.some(([a, b]) => a === ${x + 9} && b === ${y + 5}))`));
    const place = await placeOf(tab, [x + 9, y + 5]);
    tally.holds(`which is in the middle: ${place}`, place.every((it) => it > 100));
  } finally {
    plain.stop();
    served.stop();
    tab.close();
  }
}

async function refusesADamagedOne(folder) {
  const plain = await PlainServer.start(folder);
  plain.change = (name, bytes) => (name.endsWith(".archive") ? Buffer.from(bytes.map((it, at) => (at === bytes.length >> 1 ? it ^ 1 : it))) : bytes);
  const tab = await browser.open();
  try {
    await tab.go(plain.root);
    const TOLD = `(${NOTICES}) + ${text("state")}`;
    tally.holds("a damaged archive is told", await tab.until(`/The map cannot be shown: .* (is damaged|cannot be unpacked)/.test(${TOLD})`));
    tally.holds("and not drawn", await tab.value("!window.tgap?.sheet.picture"));
  } finally {
    plain.stop();
    tab.close();
  }
}

try {
  browser = await Browser.start(chromium, "1100,700");
  const folder = await folderOf("columbus", ...COLUMBUS.map((it) => (it.endsWith(".json") ? path.join(examples, it) : it)));
  await behindPlainServers(folder);
  await fromADisk(folder);
  await tellsNames(folder);
  await goesOnFromTheNewest(folder);
  await seesANewerOne();
  await refusesADamagedOne(folder);
  await offTheNetwork(folder, "off the network", false);
  await offTheNetwork(folder, "off the network after a late worker", true);
} finally {
  await browser?.stop();
  endAll();
  rmSync(room, { recursive: true, force: true });
}
tally.end();
