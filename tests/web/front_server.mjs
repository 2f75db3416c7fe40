// Holds the front server of the example against what it lets through, what it says itself, and what it puts beside each reply.
// usage: node tests/web/front_server.mjs EXECUTABLE. Last line: 'N passed, N failed, N skipped'.
import { once } from "node:events";
import { existsSync } from "node:fs";
import { request } from "node:http";
import path from "node:path";
import { setTimeout as pause } from "node:timers/promises";
import { Tally } from "./lib.mjs";
import { Served } from "./served.mjs";

const tally = new Tally();
const NOTHING = "nothing of an edit\n";
const MEGABYTE = 2 ** 20;

/** A reply to a path that is sent as it stands. */
function ask(served, method, route, { headers = {}, body = "" } = {}) {
  return new Promise((resolve, reject) => {
    const { hostname, port } = new URL(served.address);
    const length = body === "" && method !== "POST" ? {} : { "Content-Length": Buffer.byteLength(body) };
    const asked = request({ hostname, port, method, path: route, agent: false, headers: { ...length, ...headers } }, (reply) => {
      let text = "";
      reply.on("data", (data) => (text += data));
      reply.on("end", () => resolve({ status: reply.statusCode, headers: reply.headers, raw: reply.rawHeaders, text }));
    });
    asked.on("error", reject);
    asked.end(body);
  });
}

const fromProgram = (reply) => "tgap-version" in reply.headers;

/** The headers that stand beside each reply, each of them once. */
function hasItsHeaders(name, { raw }, history) {
  const valuesOf = (header) => raw.filter((_, at) => at % 2 === 1 && raw[at - 1].toLowerCase() === header).join(" and ");
  tally.equal(`${name}: the history`, valuesOf("tgap-history"), history);
  tally.equal(`${name}: its kind is not guessed`, valuesOf("x-content-type-options"), "nosniff");
  tally.equal(`${name}: it is in no frame`, valuesOf("x-frame-options"), "DENY");
  tally.holds(`${name}: its page may load from here alone`, /^default-src 'none'; script-src 'self'; [^,]*frame-ancestors 'none'$/.test(valuesOf("content-security-policy")));
  tally.holds(`${name}: one version at most`, !valuesOf("tgap-version").includes("and") && !valuesOf("allow").includes("and"));
}

/** A refusal of the front server's own: one line of plain text, which nobody keeps. */
function isItsOwn(name, reply, history, status, words) {
  tally.equal(name, `${reply.status} ${reply.text}`, `${status} ${words}\n`);
  tally.equal(`${name}: as plain text`, reply.headers["content-type"], "text/plain");
  tally.equal(`${name}: not to be kept`, reply.headers["cache-control"], "no-store");
  tally.holds(`${name}: not by the program`, !fromProgram(reply));
  hasItsHeaders(name, reply, history);
}

const FILES = ["/", "/map.js", "/clients/js/client.js", "/leaflet/leaflet.css", "/settings.json", "/nothing", "/leaflet/", "/map"];
const READING = ["/map/info", "/map/slice/0", "/map/topo/0", "/map/packet/1/0", "/map/window/0/0/0/9/9", "/map/nothing", "/map/slice/999", "/map/", "/map/pin/x"];
const NO_EDITS = ["/map/edit%0a", "/map/edit%0d%0a", "/map/edit/", "/map/edit/x", "/map/Edit", "/map/EDIT", "/map/edit%20", "/map/edit%00a", "/map/edit;", "/map/edit%3fx", "/map/x/edit"];
const NO_PINS = ["/map/pin%0a", "/map/pin/0%0a", "/map/pin/", "/map/pin/x", "/map/pin/-1", "/map/pin/0/", "/map/Pin", "/map/pin/0x1", "/map/pins"];
const EDITS = ["/map/edit", "/map/%65dit", "/map//edit", "/map/./edit", "/map/x/../edit", "/map/edit?a=b"];
const PINS = ["/map/pin", "/map/pin/0", "/map//pin/0", "/map/pin?x"];

async function letsThrough(served, history) {
  for (const route of FILES) hasItsHeaders(`GET ${route}`, await ask(served, "GET", route), history);
  for (const route of READING) {
    const reply = await ask(served, "GET", route);
    tally.holds(`GET ${route} comes to the program`, fromProgram(reply));
    tally.equal(`GET ${route}: not to be kept`, reply.headers["cache-control"], "no-store");
    hasItsHeaders(`GET ${route}`, reply, history);
  }
  for (const route of PINS) {
    const reply = await ask(served, "POST", route);
    tally.equal(`POST ${route} comes to the program`, `${reply.status} ${reply.text}`, "200 pin 0\n");
    hasItsHeaders(`POST ${route}`, reply, history);
  }
  tally.equal("a pin of a later version", (await ask(served, "POST", "/map/pin/7")).text, "behind 0\n");
}

async function keepsOut(served, history) {
  for (const method of ["POST", "PUT", "DELETE", "PATCH", "OPTIONS", "PROPFIND"]) {
    for (const route of [...READING, ...NO_EDITS, ...NO_PINS]) {
      const reply = await ask(served, method, route, { body: NOTHING });
      // A path that nobody can mean is refused as such.
      if (reply.status === 400) tally.holds(`${method} ${route} is kept out`, !fromProgram(reply));
      else isItsOwn(`${method} ${route} is kept out`, reply, history, 405, "wrong method");
      tally.holds(`${method} ${route}: what it wants`, reply.status === 400 || reply.headers.allow === "GET");
    }
  }
  for (const route of [...EDITS, ...PINS]) {
    const reply = await ask(served, "GET", route);
    isItsOwn(`GET ${route} is kept out`, reply, history, 405, "wrong method");
    tally.equal(`GET ${route}: what it wants`, reply.headers.allow, "POST");
  }
  const head = await ask(served, "HEAD", "/map/info");
  tally.equal("HEAD is kept out", `${head.status} ${head.headers.allow}`, "405 GET");
  tally.equal("a file takes no POST", (await ask(served, "POST", "/map.js")).status, 405);
}

async function refusesEdits(served, history) {
  const other = history.replace(/^./, (digit) => (digit === "0" ? "1" : "0"));
  for (const route of EDITS) {
    isItsOwn(`a foreign edit by ${route}`, await ask(served, "POST", route, { headers: { Origin: "http://evil.example" } }), history, 403, "not from here");
    for (const token of [other, `${history}0`, history.slice(1), "x", `${history}, ${history}`]) {
      isItsOwn(`an edit for the history ${token} by ${route}`, await ask(served, "POST", route, { headers: { "Tgap-History": token } }), history, 412, "another history");
    }
  }
  isItsOwn("a long edit", await ask(served, "POST", "/map/edit", { body: "x".repeat(MEGABYTE + 1) }), history, 413, "too long");
  tally.equal("nothing was published", (await ask(served, "GET", "/map/info")).headers["tgap-version"], "0");
  for (const headers of [{ "Tgap-History": history }, { "Tgap-History": "" }, {}]) {
    const reply = await ask(served, "POST", "/map/edit", { headers, body: "class 1 0\n" });
    tally.holds(`an edit with ${JSON.stringify(headers)} is taken: ${reply.text}`, reply.status === 200 && /^published [123]\n$/.test(reply.text));
    hasItsHeaders("a taken edit", reply, history);
  }
  const crowd = await Promise.all([...Array(20).keys()].map(() => ask(served, "POST", "/map/edit", { body: NOTHING })));
  const busy = crowd.filter(({ status }) => status === 503);
  tally.holds(`too many edits at once: ${busy.length}`, busy.length > 0 && crowd.every(({ status }) => [422, 503].includes(status)));
  for (const reply of busy.slice(0, 2)) isItsOwn("an edit too many", reply, history, 503, "busy, try again");
}

async function tellsOfTheProgram(served, history) {
  await served.changeFront((text) => text.replace(/(?=location \/map\/)/, "proxy_read_timeout 1s;\n"));
  await served.haltProgram();
  isItsOwn("a program that does not answer", await ask(served, "GET", "/map/slice/0.html"), history, 504, "no reply in time");
  served.endProgram();
  isItsOwn("a program that is gone", await ask(served, "GET", "/map/slice/0.js"), history, 502, "the map is not served at the moment");
  isItsOwn("a wrong method, without the program", await ask(served, "POST", "/map/info"), history, 405, "wrong method");
  const next = await served.startProgramAnew();
  tally.holds(`another life has another token: ${next}`, next !== history);
  hasItsHeaders("another life", await ask(served, "GET", "/map/info"), next);
}

/** However often it is told to end, what it has started ends with it. */
async function endsWhole(served) {
  const ended = once(served.child, "exit");
  for (let i = 0; i < 50; i++) {
    served.child.kill();
    await pause(0.2);
  }
  await ended;
  tally.holds("the front server ends with what started it", !existsSync(`/proc/${served.front}`));
}

const served = await Served.start(path.resolve(process.argv[2]));
process.on("SIGTERM", () => {
  served.stop();
  process.exit(1);
});
try {
  const { "tgap-history": history } = (await ask(served, "GET", "/map/info")).headers;
  tally.holds(`the token has 16 digits: ${history}`, /^[0-9a-f]{16}$/.test(history));
  await letsThrough(served, history);
  await keepsOut(served, history);
  await refusesEdits(served, history);
  await tellsOfTheProgram(served, history);
  await endsWhole(served);
} finally {
  served.stop();
}
tally.end();
