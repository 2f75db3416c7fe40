// Holds clients/js as a package: what npm packs, its version, what each module gives beside what its types tell, and a program that the types allow.
// usage: node tests/web/package.mjs. Last line: 'N passed, N failed, N skipped'.
import { spawnSync } from "node:child_process";
import { cpSync, existsSync, mkdirSync, mkdtempSync, readFileSync, readdirSync, rmSync, writeFileSync } from "node:fs";
import { tmpdir } from "node:os";
import path from "node:path";
import { fileURLToPath } from "node:url";
import { Tally } from "./lib.mjs";

const folder = fileURLToPath(new URL("../../clients/js/", import.meta.url));
const tally = new Tally();
const room = mkdtempSync(path.join(tmpdir(), "web-package-"));
const described = JSON.parse(readFileSync(path.join(folder, "package.json"), "utf8"));

const has = (tool) => spawnSync(tool, ["--version"]).status === 0;

/** What a module tells that it gives: the names behind `export`, but for types. */
function told(text) {
  const own = [...text.matchAll(/^export (?:declare )?(?:class|function|const) (\w+)/gm)].map(([, name]) => name);
  const passed = [...text.matchAll(/^export \{([^}]*)\}/gm)].flatMap(([, names]) => names.split(",").map((name) => name.trim()).filter(Boolean));
  return [...own, ...passed];
}

/** The same, with all that a module passes on from another one as a whole. */
function toldBy(file) {
  const text = readFileSync(path.join(folder, file), "utf8");
  const whole = [...text.matchAll(/^export \* from "\.\/(.*)\.js";/gm)].flatMap(([, name]) => toldBy(`${name}.d.ts`));
  return [...new Set([...told(text), ...whole])].sort();
}

async function givesWhatItTells() {
  tally.equal("its version is that of the repository", described.version, readFileSync(new URL("../../VERSION", import.meta.url), "utf8").trim());
  const entries = Object.entries(described.exports).filter(([name]) => name !== "./package.json");
  for (const [name, { types, default: module }] of entries) {
    const given = Object.keys(await import(path.join(folder, module))).sort();
    tally.equal(`${name} gives what its types tell`, toldBy(types).join(), given.join());
  }
  const modules = entries.map(([, { default: module }]) => module.slice(2));
  const internal = ["archive_file.js", "cells.js", "edit_lines.js", "edited_map.js", "lines.js", "metadata.js", "pieces.js", "requests.js", "rings.js", "sides.js"];
  const all = readdirSync(folder).filter((name) => name.endsWith(".js") && !internal.includes(name));
  tally.equal("all other modules can be imported", all.sort().join(), [...modules].sort().join());
  const typed = readdirSync(folder).filter((name) => name.endsWith(".d.ts"));
  tally.equal("each file of types is that of a module", typed.map((name) => name.replace(".d.ts", ".js")).sort().join(), modules.sort().join());
}

function packs() {
  if (!has("npm")) return tally.skip("npm pack", "npm is missing");
  const packed = spawnSync("npm", ["pack", "--dry-run", "--json"], { cwd: folder, encoding: "utf8", env: { ...process.env, npm_config_offline: "true", npm_config_update_notifier: "false" } });
  tally.equal("npm packs it", packed.status, 0);
  tally.equal("and has nothing to say of it", packed.stderr.trim(), "");
  const files = JSON.parse(packed.stdout)[0].files.map((it) => it.path);
  tally.equal("all of the folder is packed", files.sort().join(), readdirSync(folder).sort().join());
}

const USES = `
import { Archive, BadArchive, Client, Draft, EditFault, FARTHEST, OtherVersion, RefusedBatch, View, knowsCuts, pictureOfSlice, pictureOfWindow, type Box, type Picture } from "tgap-client";
import { readSlice } from "tgap-client/wire.js";

const giveUp = new AbortController();
const client = new Client("http://127.0.0.1/map/", { credentials: "include", headers: { "X-Of": "here" }, editing: { headers: [["a", "b"]] }, signal: giveUp.signal });
client.addEventListener("version", ({ version }) => console.log(version.toFixed()));
client.addEventListener("history", ({ history }) => console.log(history ?? "none"));
client.addEventListener("unreachable", ({ status, said }) => console.log(status, said));
const area: Box = { x0: 0, y0: 0, x1: FARTHEST, y1: 9 };
export async function shown(): Promise<Picture> {
  const window = await client.refinedWindow(3, area, { signal: giveUp.signal });
  await client.refineWindow(window, 0);
  const { face, ofClass } = await client.faceAt(0.5, -0.25, 0);
  console.log(face + (ofClass ?? 0), readSlice("").edges.get(0)?.points[0]?.[0]);
  return pictureOfWindow(window, client, (x, y) => client.faceAt(x, y, 0));
}
const archive = new Archive(new URL("map/", "http://127.0.0.1/"), { fetch: (address, options) => fetch(address, options) });
archive.addEventListener("whole", ({ bytes }) => console.log(bytes.toFixed()));
export async function drawn(): Promise<string> {
  const view = await archive.view(null, { scale: 50000 });
  await archive.load(view, 0);
  for (let next = view.next; next !== null; next = view.next) view.goTo(next);
  const { features } = await archive.geojson(view, null, { project: ([x, y]) => [x / 2, y], borders: true });
  return features[0]!.geometry.type;
}
export async function edited(): Promise<string> {
  const draft = await Draft.of(client, { classes: 4, signal: giveUp.signal });
  if (await knowsCuts(client)) draft.cut(1, 0, [[0, 0], [10, 10]], [{ ends: [[0, 0], [20, 20]], point: [10, 10] }]);
  draft.fuse(1, draft.faces.size);
  pictureOfSlice(draft, draft);
  const { draft: carried, left } = draft.carryTo(await Draft.of(client));
  await carried.publish(client);
  return left.map(({ edits, reason }) => String(edits[0]?.kind) + String(reason.cause)).join();
}
export const isOfALine = (error: unknown) => (error instanceof EditFault ? error.line : error instanceof RefusedBatch && error.fault.kind === "line" ? error.fault.line : null);
// @ts-expect-error a point has two coordinates
new Draft({ faces: new Map(), edges: new Map() }).drop([1]);
// @ts-expect-error a view is not made by hand
new View();
export const isCut = (error: unknown) => error instanceof BadArchive;
export const isLater = (error: unknown) => error instanceof OtherVersion && error.version > 0;
// @ts-expect-error a step is a number
client.slice("0");
// @ts-expect-error there is no such event
client.addEventListener("version", (event: { history: string }) => console.log(event));
// @ts-expect-error a rectangle has four ends
client.window(0, { x0: 0, y0: 0, x1: 1 });
// @ts-expect-error the class may be null
client.faceAt(0, 0, 0).then(({ ofClass }) => ofClass.toFixed());
`;

function isTyped() {
  if (!has("tsc")) return tally.skip("the types", "node-typescript is missing");
  const installed = path.join(room, "node_modules/tgap-client");
  mkdirSync(path.dirname(installed), { recursive: true });
  cpSync(folder, installed, { recursive: true });
  writeFileSync(path.join(room, "package.json"), '{ "type": "module" }');
  writeFileSync(path.join(room, "uses.ts"), USES);
  const words = ["--strict", "--noEmit", "--target", "es2022", "--lib", "es2022,dom,dom.iterable", "--module", "node16", "--moduleResolution", "node16"];
  // Where a mistake is expected and none is found, this is told too.
  const files = readdirSync(installed).filter((name) => name.endsWith(".d.ts")).map((name) => `node_modules/tgap-client/${name}`);
  tally.equal("the types hold, and refuse what they should", spawnSync("tsc", [...words, "uses.ts", ...files], { cwd: room, encoding: "utf8" }).stdout, "");
}

try {
  await givesWhatItTells();
  packs();
  isTyped();
  tally.holds("nothing is left in the folder", !existsSync(path.join(folder, `${described.name}-${described.version}.tgz`)));
} finally {
  rmSync(room, { recursive: true });
}
tally.end();
