// Measures the page over an archive in a headless browser: how long its pieces of work take while one goes nearer, and what memory it holds.
// usage: node --experimental-websocket bench/page.mjs FOLDER CHROMIUM [telephone]. FOLDER has an archive and the page (./tgap publish, examples/web/lay_out)
//
// A piece of work is what the page does before the browser can show a frame. It is measured by the time that the processor gives to the page's own thread, and beside it
// what the page's own code has of that. From the whole map one goes by the wheel to a street of the finest step and back, at several places. With `telephone` the screen
// has 390 by 844 pixels, and the browser lets its processor be a quarter as fast.
import { setTimeout as pause } from "node:timers/promises";
import { Browser } from "../tests/web/browser.mjs";
import { PlainServer } from "../tests/web/published.mjs";
import { dice } from "../tests/web/lib.mjs";

const [folder, chromium, kind] = process.argv.slice(2);
const [width, height] = kind === "telephone" ? [390, 844] : [1100, 613];
const IDLE = "Boolean(window.tgap?.sheet.picture && window.tgap.detail.settled && !window.tgap.detail.working)";
const PLACES = 3;
const TURNS = 12;
const FRAME = 16;
const OWN = 8;
const SLOWER = 4;
const MEGABYTE = 2 ** 20;
const random = dice(7);

const plain = await PlainServer.start(folder);
const browser = await Browser.start(chromium, "1100,700", ["--enable-precise-memory-info", "--js-flags=--expose-gc"]);
try {
  const tab = await browser.open();
  await tab.resize(width, height);
  if (kind === "telephone") await tab.ask("Emulation.setCPUThrottlingRate", { rate: SLOWER });
  const told = async (name, work) => {
    const pieces = await tab.pieces(work);
    const heard = plain.heard.splice(0);
    const memory = await tab.value("performance.memory.usedJSHeapSize");
    const long = pieces.filter(({ whole }) => whole > FRAME).length;
    const scripts = pieces.map(({ script }) => script).sort((a, b) => b - a);
    const listed = (times) => times.slice(0, 4).map((it) => it.toFixed(1)).join(" ");
    const bytes = heard.reduce((sum, it) => sum + it.bytes, 0);
    const own = `its own code ${listed(scripts)} ms, ${scripts.filter((it) => it > OWN).length} above ${OWN}`;
    console.log(`${name.padEnd(30)} longest pieces ${listed(pieces.map(({ whole }) => whole))} ms, ${long} above ${FRAME} of ${pieces.length}; ${own}; ${heard.length} requests, ${bytes} bytes; ${(memory / MEGABYTE).toFixed(1)} MB; ${await tab.value("document.getElementById('state').textContent")}`);
  };
  await told("opens", async () => {
    await tab.go(plain.root);
    await tab.until(IDLE, 120);
  });
  for (let i = 0; i < PLACES; i++) {
    const place = [width, height].map((size) => Math.floor(size * (0.2 + 0.5 * random())));
    await told(`goes nearer at ${place}`, async () => {
      for (let turn = 0; turn < TURNS && (await tab.value("window.tgap.sheet.picture.step")) > 0; turn++) {
        await tab.wheel(place, -120);
        await pause(250);
      }
      await tab.until(IDLE, 120);
    });
    await told("moves", async () => {
      for (const [x, y] of [[0.3, 0.5], [0.6, 0.6], [0.4, 0.3]]) await tab.drag([width / 2, height / 2], [width * x, height * y]);
      await tab.until(IDLE, 120);
    });
    await told("goes back", async () => {
      for (let turn = 0; turn < TURNS; turn++) {
        await tab.wheel(place, 120);
        await pause(150);
      }
      await tab.value("document.getElementById('all').click()");
      await tab.until(IDLE, 120);
    });
  }
  await tab.value("window.gc()");
  console.log(`memory after all: ${((await tab.value("performance.memory.usedJSHeapSize")) / MEGABYTE).toFixed(1)} MB`);
} finally {
  await browser.stop();
  plain.stop();
}
