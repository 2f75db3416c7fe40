// A tab of a headless browser, asked by the DevTools protocol, and the pictures of it.
import { spawn } from "node:child_process";
import { mkdtempSync, rmSync } from "node:fs";
import { tmpdir } from "node:os";
import path from "node:path";
import { setTimeout as pause } from "node:timers/promises";
import { inflateSync } from "node:zlib";
import { firstMatch } from "./lib.mjs";

// So long a page may take on a machine with much other work.
const SECONDS = 90;
const MILLISECONDS = 50;
const REMOVALS = 10;
const SECONDS_BETWEEN_REMOVALS = 0.5;
// What a trace calls a piece of work, and what in it runs the page's own code.
const PIECE = /^ThreadController.*RunTask$/;
const SCRIPT = /^(FunctionCall|EvaluateScript|v8\.callFunction|v8\.evaluateModule|FireAnimationFrame|TimerFire|RunMicrotasks|EventDispatch)$/;

export class Browser {
  /** `more` are further words for the browser. */
  static async start(executable, size, more = []) {
    const browser = new Browser();
    browser.room = mkdtempSync(path.join(tmpdir(), "web-browser-"));
    const words = ["--headless", "--no-sandbox", "--disable-gpu", `--window-size=${size}`, "--remote-debugging-port=0", `--user-data-dir=${browser.room}`];
    browser.child = spawn(executable, [...words, ...more, "about:blank"], { stdio: ["ignore", "ignore", "pipe"] });
    browser.port = new URL(await firstMatch(browser.child, browser.child.stderr, /ws:\S+/)).port;
    return browser;
  }

  async open() {
    const target = await (await fetch(`http://127.0.0.1:${this.port}/json/new?about:blank`, { method: "PUT" })).json();
    return Tab.open(target.webSocketDebuggerUrl);
  }

  kill() {
    this.child.kill();
  }

  /** Takes the browser's folder away, in which its last processes may still write for a moment. */
  async #clear() {
    for (let tries = 0; tries < REMOVALS; tries++) {
      try {
        return rmSync(this.room, { recursive: true, force: true });
      } catch {
        await pause(SECONDS_BETWEEN_REMOVALS * 1000);
      }
    }
  }

  async stop() {
    const ended = new Promise((resolve) => this.child.once("exit", resolve));
    this.kill();
    await ended;
    await this.#clear();
  }
}

class Tab {
  static async open(address) {
    const tab = new Tab();
    tab.socket = new WebSocket(address);
    tab.waiting = new Map();
    tab.written = [];
    tab.paused = () => {};
    tab.listeners = new Map();
    tab.number = 0;
    await new Promise((resolve, reject) => {
      tab.socket.onopen = resolve;
      tab.socket.onerror = reject;
    });
    tab.socket.onmessage = ({ data }) => tab.#take(JSON.parse(data));
    for (const domain of ["Page", "Runtime", "Log", "Network"]) await tab.ask(`${domain}.enable`);
    return tab;
  }

  #take({ id, method, params, ...rest }) {
    if (id) {
      this.waiting.get(id)?.(rest);
      this.waiting.delete(id);
    } else if (method === "Fetch.requestPaused") {
      this.paused(params);
    } else if (this.listeners.has(method)) {
      this.listeners.get(method)(params);
    } else if (method === "Log.entryAdded") {
      this.written.push({ source: params.entry.source, text: params.entry.text });
    } else if (method === "Runtime.exceptionThrown" || method === "Runtime.consoleAPICalled") {
      this.written.push({ source: "page", text: JSON.stringify(params) });
    }
  }

  ask(method, params = {}) {
    const id = ++this.number;
    this.socket.send(JSON.stringify({ id, method, params }));
    return new Promise((resolve) => this.waiting.set(id, resolve));
  }

  /** Closes the tab, which gives no answer to that. */
  close() {
    this.socket.send(JSON.stringify({ id: ++this.number, method: "Page.close" }));
  }

  /**
   * How long the pieces of work take that the page does while something is done, the longest first, and its own code in each: in milliseconds of the processor, so that
   * other work of the machine does not count.
   */
  async pieces(work) {
    const events = [];
    const ended = new Promise((resolve) => this.listeners.set("Tracing.tracingComplete", resolve));
    this.listeners.set("Tracing.dataCollected", ({ value }) => events.push(...value));
    await this.ask("Tracing.start", { transferMode: "ReportEvents", traceConfig: { includedCategories: ["toplevel", "disabled-by-default-devtools.timeline", "devtools.timeline"] } });
    await work();
    await this.ask("Tracing.end");
    await ended;
    const own = new Set(events.filter(({ name }) => name === "FireAnimationFrame").map(({ pid, tid }) => `${pid} ${tid}`));
    return piecesOf(events.filter(({ tdur, pid, tid }) => tdur && own.has(`${pid} ${tid}`)));
  }

  go(url) {
    return this.ask("Page.navigate", { url });
  }

  async value(expression) {
    const answer = await this.ask("Runtime.evaluate", { expression, awaitPromise: true, returnByValue: true });
    const wrong = answer.error ?? answer.result.exceptionDetails;
    if (wrong) throw new Error(`${expression.slice(0, 200)}: ${JSON.stringify(wrong)}`);
    return answer.result.result.value;
  }

  /** Whether an expression becomes true in time. */
  async until(expression, seconds = SECONDS) {
    const end = Date.now() + seconds * 1000;
    while (Date.now() < end) {
      if (await this.value(expression).catch(() => false)) return true;
      await pause(MILLISECONDS);
    }
    return false;
  }

  mouse(type, [x, y], more = {}) {
    return this.ask("Input.dispatchMouseEvent", { type, x, y, ...more });
  }

  async click(place, times = 1) {
    for (let clickCount = 1; clickCount <= times; clickCount++) {
      await this.mouse("mousePressed", place, { button: "left", buttons: 1, clickCount });
      await this.mouse("mouseReleased", place, { button: "left", clickCount });
    }
  }

  wheel(place, deltaY) {
    return this.mouse("mouseWheel", place, { deltaX: 0, deltaY });
  }

  async drag(from, to) {
    await this.mouse("mouseMoved", from);
    await this.mouse("mousePressed", from, { button: "left", buttons: 1, clickCount: 1 });
    const middle = from.map((z, axis) => (z + to[axis]) / 2);
    for (const place of [middle, to]) await this.mouse("mouseMoved", place, { button: "left", buttons: 1 });
    await this.mouse("mouseReleased", to, { button: "left", clickCount: 1 });
  }

  /** Presses a key and lets it go; `modifiers` are those of the protocol: 2 for Ctrl, 8 for Shift. */
  async key(key, modifiers = 0) {
    const known = { Enter: 13, Escape: 27, " ": 32, ArrowLeft: 37, ArrowUp: 38, ArrowRight: 39, ArrowDown: 40, Delete: 46 };
    const windowsVirtualKeyCode = known[key] ?? key.toUpperCase().charCodeAt(0);
    for (const type of ["rawKeyDown", "keyUp"]) await this.ask("Input.dispatchKeyEvent", { type, key, windowsVirtualKeyCode, modifiers });
  }

  /** Puts a finger down at the first place, leads it over the others, and lifts it at the last. */
  async touch(...places) {
    const [first, ...others] = places.map(([x, y]) => ({ touchPoints: [{ x, y }] }));
    await this.ask("Input.dispatchTouchEvent", { type: "touchStart", ...first });
    for (const place of others) await this.ask("Input.dispatchTouchEvent", { type: "touchMove", ...place });
    await this.ask("Input.dispatchTouchEvent", { type: "touchEnd", touchPoints: [] });
  }

  resize(width, height) {
    return this.ask("Emulation.setDeviceMetricsOverride", { width, height, deviceScaleFactor: 1, mobile: false });
  }

  #network(conditions) {
    return this.ask("Network.emulateNetworkConditions", { offline: false, latency: 0, downloadThroughput: -1, uploadThroughput: -1, ...conditions });
  }

  delay(latency) {
    return this.#network({ latency });
  }

  cutOff(offline) {
    return this.#network({ offline });
  }

  /** Hands each request that fits the pattern to `take` in the place of the network, while something is done. */
  async intercepting(urlPattern, take, work) {
    this.paused = take;
    await this.ask("Fetch.enable", { patterns: [{ urlPattern }] });
    await work();
    await this.ask("Fetch.disable");
  }

  /** Answers an intercepted request. An empty phrase is no status text, as over HTTP/2; the protocol has a blank for it. */
  fulfill(requestId, { status, phrase, headers, body }) {
    const responseHeaders = Object.entries({ "Content-Type": "text/plain", ...headers }).map(([name, value]) => ({ name, value }));
    return this.ask("Fetch.fulfillRequest", { requestId, responseCode: status, responsePhrase: phrase || " ", responseHeaders, body: Buffer.from(body).toString("base64") });
  }

  /** What one sees, or what there is of it in a box of the screen, as the bytes of a PNG. */
  async screenshot(box) {
    const clip = box && { x: box.x, y: box.y, width: box.width, height: box.height, scale: 1 };
    const { result } = await this.ask("Page.captureScreenshot", { format: "png", ...(clip && { clip }) });
    return Buffer.from(result.data, "base64");
  }
}

/** The pieces of work of a trace of one thread: `whole`, and `script` of those events that lie in no other one of their kind. */
function piecesOf(events) {
  const MICROSECONDS = 1000;
  const pieces = [];
  let end = 0;
  for (const { name, ts, dur, tdur } of events.sort((a, b) => a.ts - b.ts || b.dur - a.dur)) {
    if (PIECE.test(name)) {
      pieces.push({ whole: tdur / MICROSECONDS, script: 0, end: ts + dur });
    } else if (SCRIPT.test(name) && ts >= end && ts < pieces.at(-1)?.end) {
      pieces.at(-1).script += tdur / MICROSECONDS;
      end = ts + dur;
    }
  }
  return pieces.sort((a, b) => b.whole - a.whole);
}

/** The pixels of a PNG of 8 bits a sample that is not interlaced: `at(x, y)` gives red, green and blue. */
export function pixelsOf(png) {
  const width = png.readUInt32BE(16);
  const samples = { 2: 3, 6: 4 }[png[25]];
  const parts = [];
  for (let at = 8; at < png.length; at += 12 + png.readUInt32BE(at)) {
    if (png.toString("latin1", at + 4, at + 8) === "IDAT") parts.push(png.subarray(at + 8, at + 8 + png.readUInt32BE(at)));
  }
  const bytes = inflateSync(Buffer.concat(parts));
  const stride = width * samples;
  const height = bytes.length / (stride + 1);
  const rows = Buffer.alloc(height * stride);
  for (let y = 0; y < height; y++) {
    const filter = bytes[y * (stride + 1)];
    for (let i = 0; i < stride; i++) {
      const left = i < samples ? 0 : rows[y * stride + i - samples];
      const up = y === 0 ? 0 : rows[(y - 1) * stride + i];
      const corner = y === 0 || i < samples ? 0 : rows[(y - 1) * stride + i - samples];
      rows[y * stride + i] = bytes[y * (stride + 1) + 1 + i] + predicted(filter, left, up, corner);
    }
  }
  const at = (x, y) => [0, 1, 2].map((sample) => rows[y * stride + x * samples + sample]);
  return { width, height, at };
}

function predicted(filter, left, up, corner) {
  if (filter === 4) {
    const [l, u, c] = [left, up, corner].map((it) => Math.abs(left + up - corner - it));
    return l <= u && l <= c ? left : u <= c ? up : corner;
  }
  return [0, left, up, (left + up) >> 1][filter];
}
