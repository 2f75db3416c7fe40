// What the tests of the web clients share: counting, a served program, and maps of their own.
import { spawn, spawnSync } from "node:child_process";
import { request } from "node:http";
import { createServer } from "node:net";
import { fileURLToPath } from "node:url";

export const examples = fileURLToPath(new URL("../../examples/", import.meta.url));
const MEGABYTES = 2 ** 20;

/** Counts what holds and what does not, and tells the latter; with TELL in the environment, both. */
export class Tally {
  passed = 0;
  failed = 0;
  skipped = 0;

  holds(name, is) {
    if (is) {
      this.passed += 1;
      if (process.env.TELL) console.log(`ok ${name.slice(0, 150)}`);
    } else {
      this.failed += 1;
      console.log(`${name}: FAILED`);
    }
  }

  equal(name, actual, expected) {
    this.holds(`${name}\n  expected ${short(expected)}\n  got      ${short(actual)}\n `, actual === expected);
  }

  skip(name, reason) {
    this.skipped += 1;
    console.log(`${name}: skipped, ${reason}`);
  }

  /** The last line, and the status of the process. */
  end() {
    console.log(`${this.passed} passed, ${this.failed} failed, ${this.skipped} skipped`);
    process.exitCode = this.failed === 0 ? 0 : 1;
  }
}

const short = (value) => String(JSON.stringify(value)).slice(0, 300);

/** What a promise is refused with; null where it is kept. */
export async function thrown(promise) {
  try {
    await promise;
    return null;
  } catch (error) {
    return error;
  }
}

/** What the program answers on the command line, in the folder of the examples. */
export function tgap(executable, ...words) {
  const ran = spawnSync(executable, words, { cwd: examples, encoding: "utf8", maxBuffer: 256 * MEGABYTES });
  return { status: ran.status, text: ran.stdout };
}

/** A port that nobody listens on. */
export function freePort() {
  return new Promise((resolve) => {
    const server = createServer().listen(0, "127.0.0.1", () => {
      const { port } = server.address();
      server.close(() => resolve(port));
    });
  });
}

/** The first part of what a process writes that fits the pattern. */
export function firstMatch(child, stream, pattern) {
  return new Promise((resolve, reject) => {
    let text = "";
    stream.on("data", (data) => {
      text += data;
      const found = text.match(pattern);
      if (found) resolve(found[0]);
    });
    child.on("error", reject);
    child.on("exit", () => reject(new Error(`ended too early: ${text}`)));
  });
}

const SERVING = new Set();

/** Ends all that `serve` has started: for a test whose time is up. */
export function endServing() {
  for (const child of SERVING) child.kill();
}

/** Serves a map directly; gives its address and what stops it. */
export async function serve(executable, map, ...rules) {
  const port = await freePort();
  const child = spawn(executable, ["serve", map, String(port), "4", "64", ...rules], { cwd: examples, stdio: ["ignore", "pipe", "inherit"] });
  SERVING.add(child);
  child.once("exit", () => SERVING.delete(child));
  await firstMatch(child, child.stdout, /serving/);
  return { root: `http://127.0.0.1:${port}/`, stop: () => child.kill() };
}

/** As `fetch`, on a connection of its own: its answer comes at once, and it sees the newest version. */
function askedAlone(address, { method = "GET", headers = {}, body = "" } = {}) {
  return new Promise((resolve, reject) => {
    const length = method === "POST" ? { "Content-Length": Buffer.byteLength(body) } : {};
    const asked = request(address, { method, agent: false, headers: { ...headers, ...length } }, (reply) => {
      const parts = [];
      reply.on("data", (data) => parts.push(data));
      reply.on("end", () => resolve(new Response(Buffer.concat(parts), { status: reply.statusCode, headers: reply.headers })));
      reply.on("error", reject);
    });
    asked.on("error", reject);
    asked.end(body);
  });
}

const ATTEMPTS = 4;

/** The same. The program lets go of who sends nothing for five seconds, which on a machine with much other work may be this process: then a reader asks again. */
export async function fetchAlone(address, options = {}) {
  for (let attempt = 1; ; attempt++) {
    try {
      return await askedAlone(address, options);
    } catch (error) {
      if ((options.method ?? "GET") !== "GET" || attempt === ATTEMPTS) throw error;
    }
  }
}

/** Numbers from 0 to 1 that are the same in each run. */
export function dice(seed) {
  let state = seed;
  return () => {
    state = (Math.imul(state, 1664525) + 1013904223) >>> 0;
    return state / 2 ** 32;
  };
}

const SIDE = 1000;

/**
 * The listing of a map of size by size areas of four classes, whose corners are moved from a grid of 1,000 units by a third at most, with a vertex in the middle of each
 * border. The grid may have another side and begin elsewhere; no coordinate is beyond `most` then. Cells of one `owner` are one area, of several parts where they do not
 * touch.
 */
export function gridListing(size, { side = SIDE, first = 0, most = Infinity, version = 1, owner = (i, j) => i * size + j, ratio = 4 } = {}) {
  const random = dice(size);
  const within = (z) => Math.max(-most, Math.min(most, Math.round(z)));
  const placed = (i) => within(first + i * side + (random() - 0.5) * side * 0.6);
  const at = (i, j) => i * (size + 1) + j;
  const corners = [];
  for (let i = 0; i <= size; i++) for (let j = 0; j <= size; j++) corners.push([placed(i), placed(j)]);
  const owners = new Map();
  for (let i = 0; i < size; i++) for (let j = 0; j < size; j++) if (!owners.has(owner(i, j))) owners.set(owner(i, j), owners.size + 1);
  const face = (i, j) => (i < 0 || j < 0 || i >= size || j >= size ? 0 : owners.get(owner(i, j)));
  const arcs = [];
  const arc = (left, right, p, q) => {
    const middle = [0, 1].map((axis) => within((p[axis] + q[axis]) / 2 + (random() - 0.5) * side * 0.1));
    if (left !== right) arcs.push(`arc ${left} ${right} 3 ${[...p, ...middle, ...q].join(" ")}`);
  };
  for (let i = 0; i <= size; i++) {
    for (let j = 0; j <= size; j++) {
      if (i < size) arc(face(i, j), face(i, j - 1), corners[at(i, j)], corners[at(i + 1, j)]);
      if (j < size) arc(face(i - 1, j), face(i, j), corners[at(i, j)], corners[at(i, j + 1)]);
    }
  }
  const classes = [0, 1, 2, 3].map((it) => `class ${it} ${it + 1} ${[0, 1, 2, 3].map((other) => (other === it ? 9 : 1)).join(" ")}`);
  const faces = [...owners.values()].map((it) => `face ${it} ${Math.floor(random() * 4)}`);
  return [`tgap ${version}`, "transform 1 1 0 0", `ratio ${ratio}`, "classes 4", ...classes, `faces ${faces.length}`, ...faces, `arcs ${arcs.length}`, ...arcs, "end", ""].join("\n");
}
