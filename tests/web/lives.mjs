// Lives of the program under the same version numbers, behind a front server that names the history of each: nothing of two of them is ever mixed.
import { createServer, request } from "node:http";
import path from "node:path";
import { mkdtempSync, rmSync, writeFileSync } from "node:fs";
import { tmpdir } from "node:os";
import { Client, OtherHistory, OtherVersion, Refused, Unreachable } from "../../clients/js/client.js";
import { boxOf } from "../../clients/js/places.js";
import { packetText, readSlice, sliceText } from "../../clients/js/wire.js";
import { dice, gridListing, serve, thrown } from "./lib.mjs";

const TOKENS = ["0123456789abcdef", "fedcba9876543210"];
const BATCHES = [["move 20 10 24 10\n", "move 24 10 26 10\n"], ["move 20 0 25 0\n", "move 25 0 27 0\n"]];
const LAST = 2;

/** A life of the program, with these batches published, and what the program itself says of it. */
class Life {
  static async start(executable, map, batches) {
    const life = new Life();
    Object.assign(life, await serve(executable, map));
    for (const batch of batches) await life.edit(batch);
    return life;
  }

  /** What the program answers on a connection of its own, which sees the newest version. */
  async text(route, options) {
    return (await fetch(this.root + route, { ...options, headers: { connection: "close" } })).text();
  }

  edit(body) {
    return this.text("edit", { method: "POST", body });
  }
}

/** A front server before one life at a time. `history` is the token that it sends, null for none; `isStrict` tells whether it looks at that of an edit. */
class Front {
  static async start(life, history) {
    const front = new Front();
    Object.assign(front, { life, history, isStrict: true, status: null, before: () => {}, heard: [] });
    front.server = createServer((asked, reply) => front.#take(asked, reply));
    await new Promise((resolve) => front.server.listen(0, "127.0.0.1", resolve));
    front.root = `http://127.0.0.1:${front.server.address().port}/`;
    return front;
  }

  turnTo(life, history) {
    Object.assign(this, { life, history });
  }

  async #take(asked, reply) {
    await this.before(asked);
    const { history, life } = this;
    const headers = history === null ? {} : { "Tgap-History": history };
    const named = asked.headers["tgap-history"];
    this.heard.push({ method: asked.method, path: asked.url, named });
    if (this.status !== null) return reply.writeHead(this.status, headers).end("busy, try again\n");
    if (this.isStrict && asked.url === "/edit" && named !== undefined && named !== history) return reply.writeHead(412, headers).end("another history\n");
    const onward = request(life.root + asked.url.slice(1), { method: asked.method, agent: false, headers: { "content-length": asked.headers["content-length"] ?? 0 } });
    onward.on("response", (answer) => {
      reply.writeHead(answer.statusCode, { ...headers, "Tgap-Version": answer.headers["tgap-version"] });
      answer.pipe(reply);
    });
    onward.on("error", () => reply.writeHead(502, headers).end("the map is not served at the moment\n"));
    asked.pipe(onward);
  }

  stop() {
    this.server.close();
    this.server.closeAllConnections();
  }
}

/** Two lives that reach the same version by different edits, the first of them behind a front server, and a client that has seen it. */
async function asleep(executable, histories, work) {
  const both = await Promise.all(BATCHES.map((batches) => Life.start(executable, "two_squares.tgap", batches)));
  const front = await Front.start(both[0], histories[0]);
  try {
    const client = new Client(front.root);
    const slices = [await client.slice(0), await client.refined(1)];
    const turn = () => front.turnTo(both[1], histories[1]);
    await work({ client, slices, front, both, turn });
  } finally {
    front.stop();
    for (const life of both) life.stop();
  }
}

const CALLS = {
  info: (client) => client.info(),
  slice: (client) => client.slice(0),
  topology: (client) => client.topology(0),
  packet: (client) => client.packet(1, 0),
  window: (client) => client.window(0, { x0: 0, y0: 0, x1: 9, y1: 9 }),
  faceAt: (client) => client.faceAt(12, 3, 0),
  edgesOf: (client, [slice]) => client.edgesOf(1, 0, slice.edges.values()),
  refined: (client) => client.refined(1),
  refine: (client, [, coarse]) => client.refine(coarse, 0),
  newest: (client) => client.newest(),
  pin: (client) => client.pin(),
  edit: (client) => client.edit("class 1 0\n"),
};

const tellsOf = (error, version, history) => error instanceof OtherHistory && Object.is(error.version, version) && error.history === history && error.published === null;

/** All that the client gives is of one life. */
async function isOfLife(tally, name, client, life) {
  tally.equal(`${name}: the slice is of this life`, sliceText(await client.slice(0)), await life.text("slice/0"));
  tally.equal(`${name}: the packet is of this life`, packetText(await client.packet(1, 0)), await life.text("packet/1/0"));
  const map = await client.refined(1);
  await client.refine(map, 0);
  tally.equal(`${name}: a refined slice is of this life`, sliceText(map), await life.text("slice/0"));
  const box = boxOf(readSlice(await life.text("slice/0")).edges.values());
  tally.equal(`${name}: the window is of this life`, String(boxOf((await client.window(0, box)).edges.values()).x1), String(box.x1));
}

async function everyCallTells(executable, tally) {
  for (const [name, call] of Object.entries(CALLS)) {
    await asleep(executable, TOKENS, async ({ client, slices, both, turn }) => {
      const coarse = sliceText(slices[1]);
      turn();
      const error = await thrown(call(client, slices));
      tally.holds(`${name} tells of another history: ${error}`, tellsOf(error, LAST, TOKENS[1]));
      tally.holds(`${name}: and what is shown stays`, client.version === LAST && client.history === TOKENS[0] && sliceText(slices[1]) === coarse);
      client.show(error.version, error.history);
      await isOfLife(tally, name, client, both[1]);
      tally.equal(`${name}: nothing was published`, await both[1].text("info"), `version ${LAST} steps 1 faces 2 arcs 3 points 10\n`);
      tally.equal(`${name}: an edit is foreseen then`, JSON.stringify(await client.edit("class 1 0\n")), `{"version":${LAST + 1},"foreseen":true}`);
    });
  }
}

/** The program is started anew between the question that comes before an edit and the edit. */
async function editsMeetAnotherHistory(executable, tally) {
  const turnAtTheEdit = (front, turn) => {
    front.before = ({ url }) => url === "/edit" && turn();
  };
  await asleep(executable, TOKENS, async ({ client, front, both, turn }) => {
    turnAtTheEdit(front, turn);
    const error = await thrown(client.edit("class 1 0\n"));
    tally.holds(`an edit of another history is refused: ${error}`, tellsOf(error, NaN, TOKENS[1]));
    tally.equal("and names its own", front.heard.at(-1).named, TOKENS[0]);
    tally.equal("nothing is published then", (await both[1].text("info")).slice(0, 9), `version ${LAST}`);
    client.show(error.version, error.history);
    await isOfLife(tally, "after a refused edit", client, both[1]);
    tally.equal("the version is known again", client.version, LAST);
  });
  await asleep(executable, TOKENS, async ({ client, front, both, turn }) => {
    front.isStrict = false;
    turnAtTheEdit(front, turn);
    const error = await thrown(client.edit("class 1 0\n"));
    tally.holds(`where the front server does not look, it is told as published: ${error}`, error instanceof OtherHistory && error.published === LAST + 1 && /published/.test(error.message));
    client.show(error.version, error.history);
    await isOfLife(tally, "after an edit of another history", client, both[1]);
  });
}

/** Calls that `show` overtakes: those that wait are not sent, and an answer that comes is not given. */
async function showOvertakes(executable, tally) {
  await asleep(executable, TOKENS, async ({ client, slices, front, both, turn }) => {
    front.before = ({ url }) => url === "/slice/0" && client.show(LAST, TOKENS[1]);
    const before = front.heard.length;
    const calls = ["slice", "packet", "refine", "window", "topology", "faceAt", "edit"].map((name) => thrown(CALLS[name](client, slices)));
    const errors = await Promise.all(calls);
    tally.holds(`calls of a history that is shown no more tell of the one that is: ${errors}`, errors.every((error) => tellsOf(error, LAST, TOKENS[1])));
    const heard = front.heard.slice(before).map(({ path }) => path).sort();
    tally.equal("and those that waited were not sent", heard.join(), "/info,/packet/1/0,/packet/1/0,/slice/0");
    tally.equal("no edit was published", (await both[0].text("info")).slice(0, 9), `version ${LAST}`);
    turn();
    await isOfLife(tally, "after that", client, both[1]);
    client.show(NaN, TOKENS[1]);
    tally.equal("a version that is not known leaves the one of the same history", client.version, LAST);
  });
  await asleep(executable, TOKENS, async ({ client, slices: [, coarse], front, both }) => {
    const before = sliceText(coarse);
    front.before = ({ url }) => url === "/packet/1/0" && both[0].edit("class 1 0\n").then(() => client.show(LAST + 1));
    const error = await thrown(client.refine(coarse, 0));
    tally.holds(`a slice does not follow the packet of a later version: ${error}`, error instanceof OtherVersion && error.version === LAST + 1 && sliceText(coarse) === before);
  });
}

/** Front servers that begin or cease to name a history, or never do. */
async function withoutATokenAtTimes(executable, tally) {
  for (const histories of [[null, TOKENS[1]], [TOKENS[0], null]]) {
    await asleep(executable, histories, async ({ client, both, turn }) => {
      turn();
      const error = await thrown(client.slice(0));
      tally.holds(`from ${histories[0]} to ${histories[1]}: ${error}`, tellsOf(error, LAST, histories[1]));
      client.show(error.version, error.history);
      await isOfLife(tally, `from ${histories[0]} to ${histories[1]}`, client, both[1]);
    });
  }
  await asleep(executable, [null, null], async ({ client, front, both, turn }) => {
    await client.edit("class 1 0\n");
    tally.holds("without a token none is sent", front.heard.every(({ named }) => named === undefined));
    turn();
    const error = await thrown(client.slice(0));
    tally.holds(`without a token a lower number tells: ${error}`, error instanceof OtherVersion && error.version === LAST);
    client.show(error.version);
    await isOfLife(tally, "without a token", client, both[1]);
  });
  await asleep(executable, [null, null], async ({ client, both, turn }) => {
    turn();
    tally.equal("without a token the same number tells nothing", sliceText(await client.slice(0)), await both[1].text("slice/0"));
  });
}

/** What the front server says itself, in the place of an answer. */
async function frontServerAlone(executable, tally) {
  await asleep(executable, TOKENS, async ({ client, front, both, turn }) => {
    front.status = 503;
    const busy = await thrown(client.slice(0));
    tally.holds(`its own refusal is one: ${busy}`, busy instanceof Refused && busy.status === 503 && busy.message === "busy, try again");
    turn();
    const error = await thrown(client.slice(0));
    tally.holds(`its own refusal tells of another history: ${error}`, tellsOf(error, NaN, TOKENS[1]));
    front.status = 502;
    tally.holds("without the program no history is told of", (await thrown(client.slice(0))) instanceof Unreachable && client.history === TOKENS[0]);
    front.status = 503;
    client.show(error.version, error.history);
    tally.holds("a version is not known before a success", (await thrown(client.info())) instanceof Refused && client.version === null);
    front.status = null;
    tally.equal("the first success tells it", JSON.stringify(await client.info()), `{"version":${LAST},"steps":1,"faces":2,"arcs":3,"points":10,"history":"${TOKENS[1]}"}`);
    await isOfLife(tally, "after a refusal", client, both[1]);
    const first = new Client(front.root);
    front.status = 503;
    await thrown(first.info());
    front.turnTo(both[0], TOKENS[0]);
    front.status = null;
    tally.holds("a refusal before the first success decides nothing", (await thrown(first.info())) === null && first.history === TOKENS[0]);
    const shown = new Client(front.root);
    shown.show(LAST);
    await shown.slice(0);
    tally.equal("where a version is shown before the first success, this decides the history", shown.history, TOKENS[0]);
    const pinned = new Client(front.root);
    await pinned.newest();
    tally.holds("to ask for the newest version decides nothing", pinned.version === null && pinned.history === undefined);
    await pinned.pin();
    turn();
    tally.holds("a pin decides as the first success", tellsOf(await thrown(pinned.info()), LAST, TOKENS[1]));
  });
}

const SIDE = 5;
const ROUNDS = 40;

/** Readers of one client, who refine step by step while the program is started anew again and again. */
async function neverMixes(executable, tally) {
  const room = mkdtempSync(path.join(tmpdir(), "web-lives-"));
  const map = path.join(room, "grid.tgap");
  writeFileSync(map, gridListing(SIDE));
  const random = dice(11);
  const corner = (text, at) => readSlice(text).edges.get(at).points[1];
  const moved = async (life, at) => {
    const [x, y] = corner(await life.text("slice/0"), at);
    await life.edit(`move ${x} ${y} ${x + 3} ${y + 2}\n`);
  };
  const both = await Promise.all(TOKENS.map(() => Life.start(executable, map, [])));
  await moved(both[0], 7);
  await moved(both[1], 20);
  const front = await Front.start(both[0], TOKENS[0]);
  const turns = () => {
    const at = Math.floor(random() * 2);
    if (random() < 0.2) front.turnTo(both[at], TOKENS[at]);
  };
  front.before = turns;
  const client = new Client(front.root);
  const told = { rounds: 0, met: 0, wrong: [] };
  try {
    await Promise.all([1, 2, 3].map((reader) => readAgainAndAgain(client, both, told, dice(reader))));
    tally.holds(`no slice is a mixture: ${JSON.stringify({ ...told, wrong: told.wrong.slice(0, 2) })}`, told.wrong.length === 0 && told.met > 20 && told.rounds >= ROUNDS);
  } finally {
    front.stop();
    for (const life of both) life.stop();
    rmSync(room, { recursive: true });
  }
}

async function readAgainAndAgain(client, both, told, random) {
  while (told.rounds < ROUNDS) {
    try {
      const info = await client.info();
      const life = both[TOKENS.indexOf(info.history)];
      const map = await client.refined(info.steps);
      for (client.keepTo(info); map.step > 0; client.keepTo(info)) {
        await client.refine(map, Math.max(0, map.step - 1 - Math.floor(random() * 12)));
        if (sliceText(map) !== (await life.text(`slice/${map.step}`))) told.wrong.push(map.step);
      }
      told.rounds += 1;
    } catch (error) {
      if (!(error instanceof OtherHistory)) told.wrong.push(String(error));
      told.met += 1;
      client.show(error.version, error.history);
    }
  }
}

export async function lives(executable, tally) {
  await everyCallTells(executable, tally);
  await editsMeetAnotherHistory(executable, tally);
  await showOvertakes(executable, tally);
  await withoutATokenAtTimes(executable, tally);
  await frontServerAlone(executable, tally);
  await neverMixes(executable, tally);
}
