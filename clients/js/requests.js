// How a page asks one map: its address, what goes with each request, how many texts are asked for at a time, and that a call can be given up.

import { Unreachable, sentenceOf } from "./errors.js";

/** So many texts are asked for at a time: a front server lets one address have three (deploy/nginx.conf). */
export const TEXTS_AT_ONCE = 3;

const HISTORY = "Tgap-History";
const TEXT = /^(slice|packet|window|window-packet|topo)\//;

/** The address of a map with a slash at its end. One that is relative begins at the page, or at the script where there is no page. */
export function addressOf(root) {
  const address = new URL(root, globalThis.document?.baseURI ?? globalThis.location?.href);
  if (!/^https?:$/.test(address.protocol)) throw new TypeError(`a map is asked by http or https, and not by ${address.protocol}`);
  if (address.username || address.password) throw new TypeError("the address of a map has no name and no password in it: headers or credentials send them");
  if (address.search) throw new TypeError("the address of a map has no query");
  address.hash = "";
  if (!address.pathname.endsWith("/")) address.pathname += "/";
  return address.href;
}

/** Lets so many in at a time; the others wait in the order in which they came. */
export class Gate {
  #inside = 0;
  #waiting = [];

  constructor(most) {
    this.most = most;
  }

  /** Whoever gives up while he waits is in the row no more. */
  enter(signal) {
    if (this.#inside < this.most) {
      this.#inside += 1;
      return Promise.resolve();
    }
    return new Promise((resolve, reject) => {
      const giveUp = () => {
        this.#waiting.splice(this.#waiting.indexOf(letIn), 1);
        reject(signal.reason);
      };
      const letIn = () => {
        signal?.removeEventListener("abort", giveUp);
        resolve();
      };
      signal?.addEventListener("abort", giveUp, { once: true });
      this.#waiting.push(letIn);
    });
  }

  leave() {
    const next = this.#waiting.shift();
    if (next) next();
    else this.#inside -= 1;
  }
}

/** One signal that is given where any of these is, which may be missing, and what lets go of them. */
export function joined(...signals) {
  const given = signals.filter(Boolean);
  if (given.length < 2) return { signal: given[0], letGo: () => {} };
  const both = new AbortController();
  const abort = ({ target }) => both.abort(target.reason);
  for (const signal of given) {
    if (signal.aborted) both.abort(signal.reason);
    else signal.addEventListener("abort", abort, { once: true });
  }
  return { signal: both.signal, letGo: () => given.forEach((signal) => signal.removeEventListener("abort", abort)) };
}

/** The headers of several lists, of which any may be missing; the later ones stand in place of the earlier. */
function headersOf(...lists) {
  const all = new Headers();
  for (const list of lists) new Headers(list).forEach((value, name) => all.set(name, value));
  return Object.fromEntries(all);
}

export class Requests {
  #gate = new Gate(TEXTS_AT_ONCE);

  constructor(root, { fetch = (...words) => globalThis.fetch(...words), headers, credentials, signal, editing = {} } = {}) {
    this.root = addressOf(root);
    Object.assign(this, { fetch, headers, credentials, signal, editing });
  }

  /** `history` is the one that an edit was made for, null where none is named; a request without it is no edit. */
  #options(method, { body, history, signal }) {
    const editing = history === undefined ? {} : this.editing;
    const credentials = editing.credentials ?? this.credentials;
    const headers = headersOf(this.headers, editing.headers, history ? { [HISTORY]: history } : {});
    return { method, body, headers, cache: "no-store", ...(credentials && { credentials }), ...(signal && { signal }) };
  }

  /**
   * The answer to a request, whatever its status is. Where the call is given up, the reason of its signal is thrown. `mustBeSent` is called just before it is sent,
   * and throws where it shall not be.
   */
  async ask(method, path, { body, history, signal: own, mustBeSent } = {}) {
    const { signal, letGo } = joined(this.signal, own);
    const isText = TEXT.test(path);
    try {
      signal?.throwIfAborted();
      if (isText) await this.#gate.enter(signal);
      try {
        mustBeSent?.();
        return await this.#fetched(path, this.#options(method, { body, history, signal }));
      } finally {
        if (isText) this.#gate.leave();
      }
    } finally {
      letGo();
    }
  }

  async #fetched(path, options) {
    const { fetch } = this;
    let response;
    let text;
    try {
      response = await fetch(new URL(path, this.root).href, options);
      text = await response.text();
    } catch (error) {
      options.signal?.throwIfAborted();
      throw new Unreachable(error.message);
    }
    const { status, headers } = response;
    const said = sentenceOf(text);
    if (Unreachable.isTold(status)) throw Unreachable.told(status, said);
    return { status, text, said, version: Number(headers.get("Tgap-Version") ?? NaN), history: headers.get(HISTORY) || null };
  }
}
