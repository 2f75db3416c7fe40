// What is drawn over the map while it is edited: vertices, what is held, what was changed, a line that is begun, and where something is wrong.

const L = window.L;
// Vertices are drawn where no more than so many are seen.
const MOST_VERTICES = 400;

const STYLES = {
  vertex: { radius: 3, color: "#333", weight: 1, fillColor: "#fff", fillOpacity: 1 },
  held: { radius: 7, color: "#fff", weight: 2, fillColor: "#c00", fillOpacity: 1 },
  changed: { color: "#c00", weight: 3 },
  chosen: { color: "#0050d0", weight: 5, opacity: 0.8 },
  line: { color: "#c00", weight: 3, dashArray: "7 5" },
  wrong: { radius: 16, color: "#c00", weight: 4, fill: true, fillColor: "#fff", fillOpacity: 0.35 },
};

const flip = ([x, y]) => [y, x];

export class Marks {
  constructor(map) {
    this.map = map;
    const pane = map.createPane("marks");
    pane.classList.add("marks");
    this.renderer = L.svg({ pane: "marks", padding: 0.5 });
    this.layers = new Map();
  }

  /** Draws marks of a kind in the place of those that are there: rows of points as lines, or points. */
  #draw(kind, layers) {
    this.layers.get(kind)?.remove();
    this.layers.set(kind, L.layerGroup(layers).addTo(this.map));
  }

  #style(kind) {
    return { ...STYLES[kind], interactive: false, smoothFactor: 0, renderer: this.renderer, className: `mark-${kind}` };
  }

  lines(kind, rows) {
    this.#draw(kind, rows.length === 0 ? [] : [L.polyline(rows.map((row) => row.map(flip)), this.#style(kind))]);
  }

  points(kind, points) {
    this.#draw(kind, points.map((point) => L.circleMarker(flip(point), this.#style(kind))));
  }

  /** The vertices of the borders that are seen, unless they are too many to be of use. */
  vertices(edges, { x0, y0, x1, y1 }) {
    const seen = new Map();
    for (const { points } of edges) {
      for (const point of points) if (point[0] >= x0 && point[0] <= x1 && point[1] >= y0 && point[1] <= y1) seen.set(String(point), point);
      if (seen.size > MOST_VERTICES) return this.points("vertex", []);
    }
    return this.points("vertex", [...seen.values()]);
  }

  clear(...kinds) {
    for (const kind of kinds.length === 0 ? [...this.layers.keys()] : kinds) this.#draw(kind, []);
  }
}
