// What the page shows: the archive that its address names behind `?archive=`; else the served map, where settings.json tells of one; else the archive beside the page.

import { Archive } from "./clients/js/archive.js";
import { Client, Unreachable } from "./clients/js/client.js";
import { ArchiveDetail } from "./archive_detail.js";
import { Detail } from "./detail.js";
import { Known } from "./known.js";

// The worker that keeps parts of archives is waited for so long before the first of them is read.
const MILLISECONDS_OF_A_WORKER = 2000;

/** What the page is told of a served map; null where there is none. */
async function settingsOfServer() {
  // A page that was opened from a disk has no server.
  if (location.protocol === "file:") return null;
  const answer = await fetch("settings.json").catch((error) => {
    throw new Unreachable(error.message);
  });
  if (answer.status === 404) return null;
  if (!answer.ok) throw new Error(`settings.json is refused, with status ${answer.status}`);
  return answer.json();
}

// What was asked for where no worker was there yet; null where none will be.
let early = null;

/** As `fetch`. */
function noted(address, options) {
  if (!navigator.serviceWorker?.controller) early?.push([address, options.headers]);
  return fetch(address, options);
}

/** Tells the worker which files the page has, and asks once more for what was read without it, so that it keeps that as well. */
function handOver() {
  const files = performance.getEntriesByType("resource").map(({ name }) => name);
  navigator.serviceWorker.controller?.postMessage({ keep: [location.href.split("#")[0], ...files] });
  for (const [address, headers] of early?.splice(0) ?? []) fetch(address, { headers }).catch(() => {});
}

/** Has a worker keep what is read, so that it is there without a network; where the browser has none, or not in time, it begins without. */
async function keepParts() {
  const { serviceWorker: workers } = navigator;
  if (!workers || location.protocol === "file:") return;
  early = [];
  const begun = new Promise((resolve) => workers.addEventListener("controllerchange", resolve, { once: true })).then(handOver);
  const registered = workers.register("worker.js").then(() => (workers.controller ? handOver() : begun));
  // Where it cannot be had, nothing is kept, and all else goes on.
  const had = registered.catch(() => (early = null));
  await Promise.race([had, new Promise((resolve) => setTimeout(resolve, MILLISECONDS_OF_A_WORKER))]);
}

async function openedArchive(address) {
  const client = new Archive(address, { fetch: noted });
  await keepParts();
  const known = Known.ofArchive(await client.outline(), { ...(await client.info()), transform: await client.transform() });
  return { client, known, Detail: ArchiveDetail, isArchive: true };
}

export async function opened() {
  const named = new URLSearchParams(location.search).get("archive");
  const settings = named === null ? await settingsOfServer() : null;
  if (settings === null) return openedArchive(new URL(named ?? ".", document.baseURI));
  return { client: new Client(new URL("map/", document.baseURI)), known: new Known(settings), Detail, isArchive: false };
}
