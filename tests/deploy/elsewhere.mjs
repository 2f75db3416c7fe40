// Pages of other origins in a headless browser, which read and edit the map behind deploy/nginx.conf as elsewhere.py has laid it out. Each line that it writes is a row in
// JSON. usage: node --experimental-websocket elsewhere.mjs CHROMIUM HOST PORT AUTHORIZATION
import { readFileSync } from "node:fs";
import path from "node:path";
import { fileURLToPath } from "node:url";
import { Browser } from "../web/browser.mjs";

const [chromium, host, port, authorization] = process.argv.slice(2);
const clients = fileURLToPath(new URL("../../clients/js", import.meta.url));
const tell = (...row) => console.log(JSON.stringify(row));

/** Gives a page of another origin its files: an empty page, and the modules of the client. */
function fileOf(url) {
  const { pathname } = new URL(url);
  if (!pathname.endsWith(".js")) return { headers: { "Content-Type": "text/html" }, body: "<!doctype html><title>another page</title>" };
  return { headers: { "Content-Type": "text/javascript" }, body: readFileSync(path.join(clients, path.basename(pathname))) };
}

/** What an expression over `client` gives in a page of this origin, or the error's name and status; the client has the password where `editing` has. */
async function inPage(tab, origin, expression, editing = {}) {
  let told;
  await tab.intercepting(`${origin}/*`, ({ requestId, request }) => tab.fulfill(requestId, { status: 200, phrase: "OK", ...fileOf(request.url) }), async () => {
    await tab.go(`${origin}/`);
    await tab.until(`location.origin === '${origin}' && document.readyState === 'complete'`);
    told = await tab.value(`import('${origin}/client.js').then(async ({ Client }) => {
      const client = new Client('https://${host}/map/', { editing: ${JSON.stringify(editing)} });
      try { return await (${expression}); } catch (error) { return error.name + ' ' + error.status; }
    })`);
  });
  return told;
}

const NUMBERS = "client.info().then(({ version, history }) => [String(version), history])";
const VERSION = "client.info().then(({ version }) => version)";
const EDIT = "client.edit('class 1 0\\n')";
const WITH_PASSWORD = { credentials: "include", headers: { Authorization: authorization } };

// The map is on this machine, which only the test is: for a browser a page of another place would ask for one of the reader's own machine.
const features = "--disable-features=LocalNetworkAccessChecks,PrivateNetworkAccessSendPreflights";
const browser = await Browser.start(chromium, "1100,700", ["--ignore-certificate-errors", features, `--host-resolver-rules=MAP ${host} 127.0.0.1:${port}`]);
try {
  const tab = await browser.open();
  const [own, other] = ["https://page.example", "https://evil.example"];
  tell("its page reads", await inPage(tab, own, NUMBERS));
  tell("its page edits", await inPage(tab, own, EDIT, WITH_PASSWORD));
  tell("its page sees the new version", await inPage(tab, own, VERSION));
  tell("its page without a password", await inPage(tab, own, EDIT));
  tell("another page reads", await inPage(tab, other, NUMBERS));
  tell("another page edits", await inPage(tab, other, EDIT, WITH_PASSWORD));
  tell("and nothing is published", await inPage(tab, own, VERSION));
} finally {
  await browser.stop();
}
process.exit();
