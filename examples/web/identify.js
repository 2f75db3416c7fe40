// What lies where the reader clicks: face, class, area and version.

import { areaOf } from "./clients/js/places.js";

const L = window.L;
// A second click within this time is a double click, which zooms.
const MILLISECONDS_OF_A_DOUBLE_CLICK = 250;

// So many attributes of an area are told at most.
const MOST_ATTRIBUTES = 8;

export class Identify {
  /** `isWanted` tells whether a click asks what is there, and `failed` is told where an area cannot be had. */
  constructor(sheet, detail, known, { isWanted, failed }) {
    Object.assign(this, { sheet, detail, known, failed });
    this.popup = L.popup({ minWidth: 160 });
    this.waiting = null;
    sheet.map.on("click", ({ latlng }) => {
      clearTimeout(this.waiting);
      if (isWanted()) this.waiting = setTimeout(() => this.#ask(latlng), MILLISECONDS_OF_A_DOUBLE_CLICK);
    });
    sheet.map.on("dblclick", () => clearTimeout(this.waiting));
  }

  /** What was told of one picture does not stand over another one, unless it is of the same step of the same map. */
  show(picture) {
    const { told } = this;
    if (told && ["step", "version", "history"].some((name) => told[name] !== picture[name])) this.popup.remove();
  }

  async #ask(latlng) {
    const { picture } = this.sheet;
    if (!picture) return;
    const face = picture.faceAt(latlng.lng, latlng.lat);
    const place = this.sheet.told([latlng.lng, latlng.lat]);
    this.told = picture;
    const rows = { Place: place, Step: picture.step, Version: picture.version };
    if (face === 0) return this.#open(latlng, { Face: "none: outside the map", ...rows });
    const known = { ...this.#named(face), Class: this.known.nameOfClass(picture.faces.get(face)) };
    this.#open(latlng, { ...known, Area: "\u2026", ...rows });
    try {
      const area = this.known.area(areaOf(face, await this.detail.edgesOf(face)));
      if (this.told === picture && this.popup.isOpen()) this.#open(latlng, { ...known, Area: area, ...rows });
    } catch (error) {
      this.popup.remove();
      this.failed(error);
    }
  }

  /** The name of a face, or its number where it has none, and its attributes, but for the one that its class is of. */
  #named(face) {
    const { name, attributes } = this.known.areaOf(face);
    const told = Object.entries(attributes).filter(([key, value]) => value !== null && key !== this.known.property).slice(0, MOST_ATTRIBUTES);
    return { [name === null ? "Face" : "Name"]: name ?? face, ...Object.fromEntries(told) };
  }

  #open(latlng, rows) {
    const list = document.createElement("dl");
    for (const [name, value] of Object.entries(rows)) {
      const [term, words] = ["dt", "dd"].map((tag) => document.createElement(tag));
      term.textContent = name;
      words.textContent = String(value);
      list.append(term, words);
    }
    this.popup.setLatLng(latlng).setContent(list).openOn(this.sheet.map);
  }
}
