// Keeps what a page of an archive has read, so that it is shown without a network as well: the files of the page, map.json, and parts of archives.

const KEPT = "tgap-kept-1";
const PART = "tgap-part";

const isPart = (url) => url.pathname.endsWith(".archive");

/** Where a part is kept: bytes of a file from one place on, of as many in the whole. */
function keyOf(file, from, length, whole) {
  const url = new URL(file);
  url.search = new URLSearchParams({ [PART]: `${from} ${length} ${whole}` });
  return url.href;
}

/** The parts of a file that are kept, by where they begin. */
async function partsOf(cache, file) {
  const parts = [];
  for (const { url } of await cache.keys()) {
    const told = new URL(url).searchParams.get(PART);
    if (told === null || url.split("?")[0] !== file) continue;
    const [from, length, whole] = told.split(" ").map(Number);
    parts.push({ url, from, end: from + length, whole });
  }
  return parts.sort((a, b) => a.from - b.from);
}

/** The bytes of a range out of the parts that are kept; null where one is missing. */
async function keptRange(cache, file, from, last) {
  const parts = await partsOf(cache, file);
  const end = Math.min(last + 1, parts[0]?.whole ?? 0);
  if (end <= from) return null;
  const bytes = new Uint8Array(end - from);
  let at = from;
  while (at < end) {
    const part = parts.filter((it) => it.from <= at && it.end > at).reduce((best, it) => (it.end > (best?.end ?? at) ? it : best), null);
    const kept = part && (await cache.match(part.url));
    if (!kept) return null;
    const some = new Uint8Array(await kept.arrayBuffer()).subarray(at - part.from, end - part.from);
    bytes.set(some, at - from);
    at += some.length;
  }
  return new Response(bytes, { status: 206, headers: { "Content-Range": `bytes ${from}-${end - 1}/${parts[0].whole}` } });
}

/** A range of an archive: as it is kept, else as the server gives it, which is kept then. An archive of one name never changes. */
async function rangeOf(request, file) {
  const cache = await caches.open(KEPT);
  const asked = /^bytes=([0-9]+)-([0-9]+)$/.exec(request.headers.get("Range") ?? "");
  if (!asked) return fetch(request);
  const [from, last] = [Number(asked[1]), Number(asked[2])];
  const kept = await keptRange(cache, file, from, last);
  if (kept) return kept;
  const answer = await fetch(request);
  const told = /^bytes ([0-9]+)-([0-9]+)\/([0-9]+)$/.exec(answer.headers.get("Content-Range") ?? "");
  const isWhole = answer.status === 200;
  if (!isWhole && (answer.status !== 206 || !told)) return answer;
  const bytes = await answer.clone().arrayBuffer();
  const [begins, whole] = isWhole ? [0, bytes.byteLength] : [Number(told[1]), Number(told[3])];
  await cache.put(keyOf(file, begins, bytes.byteLength, whole), new Response(bytes));
  return answer;
}

/** Parts of archives that `map.json` names no more are let go. */
async function letGoOfOthers(cache, answer, address) {
  const { archive } = await answer.json().catch(() => ({}));
  if (typeof archive !== "string") return;
  const folder = address.slice(0, address.lastIndexOf("/") + 1);
  for (const { url } of await cache.keys()) {
    const file = url.split("?")[0];
    if (isPart(new URL(file)) && file.startsWith(folder) && file !== folder + archive) await cache.delete(url);
  }
}

/** A file of the page, or map.json: as the server gives it, which is kept; where it gives none, as it was kept. */
async function fileOf(request) {
  const cache = await caches.open(KEPT);
  const address = request.url.split("#")[0];
  try {
    const answer = await fetch(request);
    if (answer.status === 200) await cache.put(address, answer.clone());
    if (answer.status === 200 && address.endsWith("/map.json")) await letGoOfOthers(cache, answer.clone(), address);
    return answer;
  } catch (error) {
    const kept = await cache.match(address);
    if (kept) return kept;
    // This worker is at work where a page shows an archive: there it has no settings of a server.
    if (address.endsWith("/settings.json")) return new Response("", { status: 404 });
    throw error;
  }
}

addEventListener("install", () => skipWaiting());
addEventListener("activate", (event) => event.waitUntil(clients.claim()));

addEventListener("fetch", (event) => {
  const { request } = event;
  const url = new URL(request.url);
  if (request.method !== "GET" || url.origin !== location.origin) return;
  const scope = registration.scope;
  // What a served map answers is never kept.
  if (url.href.startsWith(`${scope}map/`)) return;
  event.respondWith(isPart(url) ? rangeOf(request, url.href) : fileOf(request));
});

// What was loaded before the worker was there is loaded once more, mostly out of the browser's own store.
addEventListener("message", (event) => {
  const { keep = [] } = event.data;
  const kept = keep.filter((it) => it.startsWith(registration.scope) && !isPart(new URL(it)) && !it.startsWith(`${registration.scope}map/`));
  event.waitUntil(caches.open(KEPT).then((cache) => Promise.allSettled(kept.map((it) => cache.add(it)))));
});
