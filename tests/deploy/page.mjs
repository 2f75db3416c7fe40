// Looks at the page behind deploy/nginx.conf in a headless browser, as page.py has laid it out: what it shows, and what it tells when the program has gone, which is
// looked for once a line comes. Each line that it writes is a row in JSON. usage: node --experimental-websocket page.mjs CHROMIUM HOST PORT
import { once } from "node:events";
import { Browser } from "../web/browser.mjs";

const [chromium, host, port] = process.argv.slice(2);
const IDLE = "Boolean(window.tgap?.sheet.picture && window.tgap.detail.settled && !window.tgap.detail.working)";
const GONE = "[...document.querySelectorAll('#notices li span')].some((it) => it.textContent.startsWith('The server cannot be reached (the map is not served at the moment).'))";
const LOADED = "[...new Set(performance.getEntriesByType('resource').map((it) => it.nextHopProtocol))].join()";
const tell = (...row) => console.log(JSON.stringify(row));

const browser = await Browser.start(chromium, "1100,700", ["--ignore-certificate-errors", `--host-resolver-rules=MAP ${host} 127.0.0.1:${port}`]);
try {
  const tab = await browser.open();
  await tab.go(`https://${host}/`);
  tell("a map is shown", await tab.until(IDLE));
  tell("its history", await tab.value("window.tgap.client.history"));
  tell("by which protocol all of it came", await tab.value(LOADED));
  await once(process.stdin, "data");
  await tab.value("window.dispatchEvent(new Event('focus'))");
  tell("what is told without the program", await tab.until(GONE));
  tell("what is in the console", tab.written.filter(({ source }) => source !== "network"));
} finally {
  await browser.stop();
}
process.exit();
