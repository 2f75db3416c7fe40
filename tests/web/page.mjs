// Looks at the page in a headless browser, behind its front server, as a reader does.
// usage: node --experimental-websocket tests/web/page.mjs EXECUTABLE CHROMIUM [FOLDER]; into FOLDER go pictures of three steps. Last line: 'N passed, N failed, N skipped'.
import { mkdtempSync, readFileSync, rmSync, writeFileSync } from "node:fs";
import { tmpdir } from "node:os";
import path from "node:path";
import { Browser } from "./browser.mjs";
import { Tally, examples, gridListing } from "./lib.mjs";
import { largeMap } from "./large_map.mjs";
import { Served } from "./served.mjs";
import { smallMap } from "./small_map.mjs";
import { wideMap } from "./wide_map.mjs";

const [executable, chromium, folder] = process.argv.slice(2).map((it) => path.resolve(it));
const room = mkdtempSync(path.join(tmpdir(), "web-page-"));
const tally = new Tally();

/** Tests the page over a map; nothing may be written to the console but what the browser itself says of requests that fail on purpose. */
async function over(browser, map, work) {
  const served = await Served.start(executable, ...map);
  const tab = await browser.open();
  try {
    await tab.go(served.address);
    await work({ tab, served, tally, map, executable, folder });
    const written = tab.written.filter(({ source }) => source !== "network");
    tally.holds(`nothing is written to the console: ${JSON.stringify(written)}`, written.length === 0);
  } finally {
    served.stop();
  }
}

const rules = path.join(room, "rules.json");
const grid = path.join(room, "grid.tgap");
const SIDE = 40;
const wide = path.join(room, "wide.tgap");
const MOST = 2 ** 31;
const WIDE_SIDE = 16;
let browser;
// Where the time is up, nothing of it goes on.
process.on("SIGTERM", () => {
  browser?.kill();
  Served.stopAll();
  process.exit(1);
});
try {
  const columbus = "columbus.rules.json";
  writeFileSync(rules, JSON.stringify({ ...JSON.parse(readFileSync(path.join(examples, columbus))), title: "Neighbourhoods of Columbus, Ohio" }));
  writeFileSync(grid, gridListing(SIDE));
  writeFileSync(wide, gridListing(WIDE_SIDE, { side: (2 * MOST) / WIDE_SIDE, first: -MOST, most: MOST, version: 2 }));
  browser = await Browser.start(chromium, "1100,700");
  await over(browser, ["columbus.json", "areas", rules], smallMap);
  await over(browser, [grid], largeMap);
  await over(browser, [wide], wideMap);
} finally {
  await browser?.stop();
  rmSync(room, { recursive: true, force: true });
}
tally.end();
