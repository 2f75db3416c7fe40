// The sheet that a picture is drawn on: a Leaflet map of the plane. A point (x, y) of the grid is Leaflet's [y, x].

import { holdsBox } from "./clients/js/places.js";

const L = window.L;
// Zoom levels: a grid unit has 2 to the power of them pixels.
const CLOSEST = 8;
const FARTHEST = -30;
const STEPS_BACK = 3;
const BORDER = { color: "#333", weight: 1.5, smoothFactor: 0, interactive: false };

// Fills that stay apart for most readers, after Okabe and Ito; further classes take lighter ones of them.
const FILLS = ["#e69f00", "#56b4e9", "#009e73", "#f0e442", "#0072b2", "#d55e00", "#cc79a7", "#999999"];

export function fillOf(number) {
  const fill = FILLS[number % FILLS.length];
  const light = Math.min(Math.floor(number / FILLS.length) * 0.2, 0.8);
  if (light === 0) return fill;
  const parts = [1, 3, 5].map((at) => parseInt(fill.slice(at, at + 2), 16));
  return `rgb(${parts.map((part) => Math.round(part + (255 - part) * light)).join(",")})`;
}

const flip = ([x, y]) => [y, x];

/** A text as Leaflet takes it, which is HTML. */
function textOf(words) {
  const element = document.createElement("span");
  element.textContent = words;
  return element.innerHTML;
}

const boundsOf = ({ x0, y0, x1, y1 }) => L.latLngBounds(flip([x0, y0]), flip([x1, y1]));

/** A grid may have other units along y than along x: what is as long in the source is drawn as long. */
function planeOf([sx, sy]) {
  return L.extend({}, L.CRS.Simple, {
    transformation: new L.Transformation(Math.sign(sx), 0, -sy / Math.abs(sx), 0),
    distance: (a, b) => Math.hypot((a.lng - b.lng) * sx, (a.lat - b.lat) * sy),
  });
}

/** The greatest of 1, 2, 5 and their tenfolds and tenths that is not above a length. */
function roundLength(length) {
  const ten = 10 ** Math.floor(Math.log10(length));
  return [5, 2, 1].find((digit) => digit * ten <= length) * ten;
}

/** Leaflet's scale, in the units of the map, whatever they are. */
const Scale = L.Control.Scale.extend({
  _updateMetric(most) {
    const length = roundLength(most);
    this._updateScale(this._mScale, this.options.known.length(length), length / most);
  },
});

function corner(position, element) {
  const control = new L.Control({ position });
  control.onAdd = () => element;
  return control;
}

export class Sheet {
  /** `known` is what is known of the map, `moved` is called after each move of the view, and `home` is the box of the whole map. */
  constructor(element, known, moved) {
    this.known = known;
    this.home = null;
    this.picture = null;
    const crs = planeOf(known.scale);
    // A picture is never stretched to another scale on the way to it. Leaflet's own look-out for the size would take it for a move of the reader's.
    this.map = L.map(element, { crs, trackResize: false, zoomControl: false, zoomAnimation: false, zoomSnap: 0.25, maxZoom: CLOSEST, minZoom: FARTHEST, wheelPxPerZoomLevel: 100 });
    // What is drawn beyond the view costs time in each frame.
    this.canvas = L.canvas({ padding: 0.1 });
    this.map.attributionControl.addAttribution(textOf(known.attribution));
    L.control.zoom({ position: "topright" }).addTo(this.map);
    this.#addHome();
    this.scale = new Scale({ imperial: false, position: "bottomleft", known }).addTo(this.map);
    this.#addCoordinates();
    this.map.on("move moveend", moved);
    this.map.on("moveend", () => this.#moved());
    window.addEventListener("hashchange", () => this.#readAddress());
    new ResizeObserver(() => this.#resize()).observe(element);
  }

  /** The part of the plane that is seen, in grid units. */
  get box() {
    const bounds = this.map.getBounds();
    return { x0: bounds.getWest(), y0: bounds.getSouth(), x1: bounds.getEast(), y1: bounds.getNorth() };
  }

  /** How many square pixels a square grid unit has. */
  get density() {
    const [sx, sy] = this.known.scale;
    return 4 ** this.map.getZoom() * Math.abs(sy / sx);
  }

  /** The grid box of the whole map. It is shown at the beginning, unless the address names another place, and stays shown until the reader moves. */
  setHome(box) {
    const first = this.home === null;
    if (!first && holdsBox(this.home, box)) return;
    this.home = box;
    this.map.setMinZoom(this.map.getBoundsZoom(boundsOf(box)) - STEPS_BACK);
    if (this.all || (first && !this.#readAddress())) this.showAll();
  }

  showAll() {
    this.#place(() => this.map.fitBounds(boundsOf(this.home), { padding: [12, 12], animate: false }));
    this.all = true;
    this.#writeAddress();
  }

  /** Draws a picture in place of the one before. */
  show(picture) {
    const { canvas: renderer } = this;
    const fill = { stroke: false, fill: true, fillOpacity: 1, smoothFactor: 0, interactive: false, renderer };
    const fills = [...picture.fills].map(([ofClass, rings]) => L.polygon(rings.map((ring) => ring.map(flip)), { ...fill, fillColor: fillOf(ofClass) }));
    const borders = L.polyline(picture.lines.map(({ points }) => points.map(flip)), { ...BORDER, renderer });
    this.layers?.remove();
    this.layers = L.layerGroup([...fills, borders]).addTo(this.map);
    this.picture = picture;
  }

  /** A place of the grid as it is told, with as many decimals as the view can show. */
  told(place) {
    return this.known.place(place, 2 ** this.map.getZoom()).join(", ");
  }

  /** More is known of the map. */
  tellAnew() {
    this.scale._update();
  }

  #addHome() {
    const button = L.DomUtil.create("button", "home");
    Object.assign(button, { type: "button", id: "all", textContent: "\u25a1", title: "Show the whole map" });
    button.setAttribute("aria-label", "Show the whole map");
    const bar = L.DomUtil.create("div", "leaflet-bar");
    bar.append(button);
    L.DomEvent.disableClickPropagation(bar);
    button.addEventListener("click", () => this.home && this.showAll());
    corner("topright", bar).addTo(this.map);
  }

  #addCoordinates() {
    const place = L.DomUtil.create("div", "coordinates");
    this.map.on("mousemove", ({ latlng }) => {
      place.textContent = this.told([latlng.lng, latlng.lat]);
    });
    this.map.on("mouseout", () => place.replaceChildren());
    corner("bottomleft", place).addTo(this.map);
  }

  /** The position stands in the address, as zoom/x/y in grid units, unless all of the map is shown. */
  #writeAddress() {
    const { lat: y, lng: x } = this.map.getCenter();
    const place = `#${this.map.getZoom()}/${x.toFixed(2)}/${y.toFixed(2)}`;
    history.replaceState(null, "", this.all ? location.pathname + location.search : place);
  }

  /** Goes to the place that the address names, if it names one. */
  #readAddress() {
    const numbers = location.hash.slice(1).split("/").map(Number);
    if (numbers.length !== 3 || location.hash === "" || !numbers.every(Number.isFinite)) return false;
    const [zoom, x, y] = numbers;
    this.map.setView([y, x], zoom, { animate: false });
    return true;
  }

  /** Moves the view without the reader: what was shown whole stays so. */
  #place(move) {
    this.placing = true;
    move();
    this.placing = false;
  }

  #moved() {
    if (this.placing) return;
    this.all = false;
    this.#writeAddress();
  }

  #resize() {
    if (this.home === null) return;
    this.#place(() => this.map.invalidateSize({ animate: false }));
    if (this.all) this.showAll();
  }
}
