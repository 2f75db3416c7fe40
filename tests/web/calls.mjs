// Holds how clients/js asks: what goes with a request, calls side by side, calls that are given up, places anywhere, and what is told to who listens.
import { createServer } from "node:http";
import { setTimeout as pause } from "node:timers/promises";
import { Client, OtherHistory, OtherVersion, Refused, Unreachable } from "../../clients/js/client.js";
import { serve, thrown } from "./lib.mjs";

/** A server under /a/map/ that answers as the program does, of the version and history that it has; `holds` keeps paths waiting until they are let go. */
class Slow {
  static async start() {
    const slow = new Slow();
    Object.assign(slow, { version: 0, history: "one", heard: [], held: new Map(), most: 0, now: 0 });
    slow.server = createServer((asked, reply) => slow.#take(asked, reply));
    await new Promise((resolve) => slow.server.listen(0, "127.0.0.1", resolve));
    slow.origin = `http://127.0.0.1:${slow.server.address().port}`;
    slow.root = `${slow.origin}/a/map/`;
    return slow;
  }

  /** Answers to a path wait until the given function is called. */
  hold(route) {
    let letGo;
    this.held.set(`/a/map/${route}`, new Promise((resolve) => (letGo = resolve)));
    return letGo;
  }

  async #take(asked, reply) {
    asked.resume();
    this.heard.push({ url: asked.url, method: asked.method, headers: asked.headers });
    const isText = /\/(slice|packet|window|window-packet|topo)\//.test(asked.url);
    this.now += isText ? 1 : 0;
    this.most = Math.max(this.most, this.now);
    await this.held.get(asked.url);
    this.now -= isText ? 1 : 0;
    if (asked.url === "/a/map/edit") this.version += 1;
    const head = { "Tgap-Version": this.version, "Tgap-History": this.history };
    const texts = { "/a/map/info": `version ${this.version} steps 1 faces 1 arcs 1 points 4\n`, "/a/map/edit": "published 1\n" };
    if (asked.url === "/a/map/meta.json") return reply.writeHead(200, { "Content-Type": "application/json" }).end('{"metadata": 1, "name": "here"}');
    reply.writeHead(200, head).end(texts[asked.url] ?? (isText ? "slice 0\nfaces 0\nedges 0\nend\n" : "nothing\n"));
  }

  stop() {
    this.server.close();
    this.server.closeAllConnections();
  }
}

async function goesWithRequests(tally, slow) {
  for (const root of [slow.root, slow.root.slice(0, -1), new URL(slow.root), `${slow.root}#place`]) {
    tally.equal(`the root ${root}`, new Client(root).root, slow.root);
    tally.equal("is asked below its path", (await new Client(root).info()).history, "one");
  }
  for (const root of ["ftp://127.0.0.1/", "http://anna:x@127.0.0.1/", `${slow.root}?a=b`, "map/"]) {
    tally.holds(`no client of ${root}`, (() => { try { return !new Client(root); } catch (error) { return error instanceof TypeError; } })());
  }
  const seen = [];
  const fetchAndTell = (address, options) => seen.push(options) && fetch(address, options);
  const client = new Client(slow.root, { fetch: fetchAndTell, headers: { "X-Of": "all", "X-Kind": "reading" }, credentials: "omit", editing: { headers: [["x-kind", "editing"]], credentials: "include" } });
  await client.info();
  await client.edit("");
  const [first, , last] = seen;
  tally.equal("headers and credentials of a reader", JSON.stringify([first.headers, first.credentials]), '[{"x-kind":"reading","x-of":"all"},"omit"]');
  tally.equal("and of an edit", JSON.stringify([last.headers, last.credentials]), '[{"tgap-history":"one","x-kind":"editing","x-of":"all"},"include"]');
  tally.equal("as the server has them", [slow.heard.at(-1).headers["x-kind"], slow.heard.at(-1).headers["tgap-history"]].join(), "editing,one");
  tally.equal("the metadata are asked for beside the map", (await client.metadata()).name, "here");
}

/** A slow call does not hold up others: of texts three are under way at a time, and all else at once. */
async function asksSideBySide(tally, slow) {
  const client = new Client(slow.root);
  await client.info();
  const letGo = [1, 2].map((step) => slow.hold(`slice/${step}`));
  const slowOnes = [1, 2].map((step) => client.slice(step));
  const [window, info] = await Promise.race([Promise.all([client.packet(0, 0).catch(() => "answered"), client.info()]), pause(20000, ["late", "late"])]);
  tally.holds("two slow calls do not hold up two others", window !== "late" && info.version === slow.version);
  slow.most = 0;
  const many = Array.from({ length: 9 }, () => client.slice(0));
  await Promise.all(many);
  letGo.forEach((it) => it());
  await Promise.all(slowOnes);
  tally.holds(`of texts three are asked for at a time: ${slow.most}`, slow.most <= 3);
  const edits = slow.hold("edit");
  const edit = client.edit("");
  tally.equal("a slow edit does not hold up a reader", (await Promise.race([client.slice(0), pause(20000, {})])).step, 0);
  const second = client.edit("");
  await pause(100);
  tally.equal("but another edit waits for it", slow.heard.filter(({ url }) => url === "/a/map/edit").length, 2);
  edits();
  const [one, two] = [await edit, await second];
  tally.equal("so each is foreseen", JSON.stringify([one.foreseen, two.foreseen, two.version - one.version]), "[true,true,1]");
}

const reasonOf = async (promise) => (await thrown(promise))?.message;

async function givesUp(tally, slow) {
  const all = new AbortController();
  const client = new Client(slow.root, { signal: all.signal });
  await client.info();
  const letGo = [1, 2, 3].map((step) => slow.hold(`slice/${step}`));
  const controller = new AbortController();
  const heard = slow.heard.length;
  const calls = [1, 2, 3, 4].map((step) => reasonOf(client.slice(step, { signal: controller.signal })));
  await pause(100);
  controller.abort(new Error("enough"));
  tally.equal("calls are given up with the reason of their signal, those that wait too", (await Promise.all(calls)).join(), "enough,enough,enough,enough");
  tally.equal("and what waited is not asked", slow.heard.slice(heard).map(({ url }) => url).sort().join(), "/a/map/slice/1,/a/map/slice/2,/a/map/slice/3");
  letGo.forEach((it) => it());
  slow.held.clear();
  tally.equal("after that others are answered", (await client.slice(0)).step, 0);
  tally.equal("a signal that was given before asks nothing", `${await reasonOf(client.info({ signal: controller.signal }))} ${slow.heard.filter(({ url }) => url === "/a/map/info").length}`, `enough ${slow.heard.filter(({ url }) => url === "/a/map/info").length}`);
  const held = slow.hold("edit");
  const edit = client.edit("");
  const waiting = reasonOf(client.edit("", { signal: controller.signal }));
  tally.equal("an edit that waits is given up", await waiting, "enough");
  held();
  await edit;
  slow.held.clear();
  const info = slow.hold("info");
  const last = reasonOf(client.info());
  await pause(50);
  all.abort(new Error("no more"));
  tally.equal("the signal of all gives up all", await last, "no more");
  tally.equal("and each call after that", await reasonOf(client.slice(0)), "no more");
  info();
  slow.held.clear();
}

async function tellsWhoListens(tally, slow) {
  const client = new Client(slow.root);
  const told = [];
  for (const kind of ["version", "history", "unreachable"]) {
    client.addEventListener(kind, ({ type, version, history, status, said }) => told.push({ type, ...(version !== undefined && { version, history }), ...(status !== undefined && { status, said }) }));
  }
  const { version } = await client.info();
  slow.version += 1;
  tally.equal("to ask for the newest version tells of a newer one", `${(await client.newest()).version} ${JSON.stringify(told.splice(0))}`, `${version + 1} [{"type":"version","version":${version + 1}}]`);
  tally.holds("so does an answer of one", (await thrown(client.slice(0))) instanceof OtherVersion && JSON.stringify(told.splice(0)) === `[{"type":"version","version":${version + 1}}]`);
  client.show(version + 1);
  slow.history = "two";
  tally.holds("another history is told", (await thrown(client.slice(0))) instanceof OtherHistory && JSON.stringify(told.splice(0)) === `[{"type":"history","version":${version + 1},"history":"two"}]`);
  client.show(version + 1, "two");
  await client.slice(0);
  tally.equal("what is as it was tells nothing", told.length, 0);
  slow.stop();
  const gone = new Client(slow.root);
  gone.addEventListener("unreachable", ({ reason, status }) => told.push(`${typeof reason} ${status}`));
  tally.holds("that nothing answers is told", (await thrown(gone.info())) instanceof Unreachable && told.splice(0).join() === "string null");
}

/** A place is any two finite numbers. */
async function findsFacesAnywhere(tally, executable) {
  const { root, stop } = await serve(executable, "two_squares.tgap");
  const client = new Client(root);
  const rows = [
    [12, 3, 2], [3.25, 0.5, 1], [9.999, 9.999, 1], [10.001, 5, 2], [1e-300, 5, 1], [-0.25, 5, 0], [20.5, 5, 0], [5, 10.5, 0], [5, -0.5, 0],
    [5, -1e300, 0], [5, 1e300, 0], [1e300, 5, 0], [-1e300, 5, 0], [2 ** 31, 2 ** 31, 0], [-(2 ** 31) - 0.5, 5, 0], [5, Number.MAX_VALUE, 0],
  ];
  for (const [x, y, face] of rows) tally.equal(`the face at (${x}, ${y})`, JSON.stringify(await client.faceAt(x, y, 0)), JSON.stringify({ face, ofClass: face === 0 ? null : 0 }));
  for (const [x, y] of [[NaN, 0], [0, Infinity], [-Infinity, 0], ["1", 2]]) tally.holds(`there is no place (${x}, ${y})`, (await thrown(client.faceAt(x, y, 0))) instanceof RangeError);
  tally.holds("without metadata there are none", (await client.metadata()) === null);
  tally.holds("a number that is none is refused by the server", (await thrown(client.slice("x"))) instanceof Refused);
  stop();
}

export async function calls(executable, tally) {
  const slow = await Slow.start();
  try {
    await goesWithRequests(tally, slow);
    await asksSideBySide(tally, slow);
    await givesUp(tally, slow);
    await tellsWhoListens(tally, slow);
  } finally {
    slow.stop();
  }
  await findsFacesAnywhere(tally, executable);
}
