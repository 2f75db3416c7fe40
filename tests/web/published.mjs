// Maps that are published as archives, and plain servers that give them.
import { execFile } from "node:child_process";
import { createServer } from "node:http";
import { existsSync, readFileSync } from "node:fs";
import path from "node:path";
import { fileURLToPath } from "node:url";
import { promisify } from "node:util";
import { examples } from "./lib.mjs";

const tgap = fileURLToPath(new URL("../../tgap", import.meta.url));

/** Publishes a map into a folder; gives what `map.json` there tells then. It is waited for without holding up others, whom a server would let go. */
export async function publish(executable, folder, ...map) {
  await promisify(execFile)(tgap, ["publish", "--program", executable, ...map, folder], { cwd: examples });
  return JSON.parse(readFileSync(path.join(folder, "map.json"), "utf8"));
}

export const TYPES = { html: "text/html", js: "text/javascript", css: "text/css", json: "application/json" };

/** Gives the files of a folder, with ranges or without. `change` may put other bytes in the place of a file's; `heard` has what was asked for, and what was given, of a part with its first byte. */
export class PlainServer {
  static async start(folder, { ranges = true } = {}) {
    const served = new PlainServer();
    Object.assign(served, { folder, ranges, heard: [], headers: {}, change: (_name, bytes) => bytes, before: () => {} });
    served.server = createServer((asked, reply) => served.#take(asked, reply));
    await new Promise((resolve) => served.server.listen(0, "127.0.0.1", resolve));
    served.root = `http://127.0.0.1:${served.server.address().port}/`;
    return served;
  }

  async #take(asked, reply) {
    const name = decodeURIComponent(new URL(asked.url, this.root).pathname.slice(1)) || "index.html";
    await this.before(name);
    const file = path.join(this.folder, name);
    const headers = { "Content-Type": TYPES[name.split(".").at(-1)] ?? "application/octet-stream", ...this.headers };
    if (!existsSync(file)) return reply.writeHead(404, headers).end("nothing here\n");
    const bytes = this.change(name, readFileSync(file));
    const range = this.ranges && /^bytes=([0-9]+)-([0-9]+)$/.exec(asked.headers.range ?? "");
    if (!range) return this.#give(reply, name, 200, headers, bytes);
    const [from, last] = [Number(range[1]), Math.min(Number(range[2]), bytes.length - 1)];
    if (from > last) return reply.writeHead(416, { ...headers, "Content-Range": `bytes */${bytes.length}` }).end();
    return this.#give(reply, name, 206, { ...headers, "Content-Range": `bytes ${from}-${last}/${bytes.length}` }, bytes.subarray(from, last + 1), from);
  }

  #give(reply, name, status, headers, bytes, from) {
    this.heard.push({ name, status, bytes: bytes.length, from });
    reply.writeHead(status, headers).end(bytes);
  }

  stop() {
    this.server.close();
    this.server.closeAllConnections();
  }
}
