// What is known of a map beside itself: names of classes and areas, attributes, and the unit of its coordinates.

const DIGITS = new Intl.NumberFormat("en", { maximumSignificantDigits: 6 });
const FEW_DIGITS = new Intl.NumberFormat("en", { maximumSignificantDigits: 4 });
const METRES_OF_A_KILOMETRE = 1000;

export class Known {
  /** `title`, `attribution`, the names of the `classes`, and `scale` and `translate`, which lead from grid units to the coordinates of the map. */
  constructor({ title, attribution = "", classes = [], scale, translate }) {
    Object.assign(this, { title, attribution, classes, scale, translate, metadata: null });
  }

  /** That of an archive, by what `map.json` tells: the metadata without faces and areas, which may be none. */
  static ofArchive(outline, { archive, transform }) {
    const { name, attribution, classes = [] } = outline ?? {};
    const known = new Known({ title: name || archive, attribution, classes: classes.map(([it]) => it), ...transform });
    known.metadata = outline;
    return known;
  }

  /** Takes the metadata, which may come later; null where there are none. */
  add(metadata) {
    this.metadata = metadata ?? this.metadata;
  }

  /** Whether the coordinates are metres: then the table of steps has scales. */
  get isMetric() {
    return this.metadata?.steps?.some(({ scale }) => scale !== null) ?? false;
  }

  /** The attribute that tells the class of an area; undefined where it is not known. */
  get property() {
    return this.metadata?.property;
  }

  nameOfClass(number) {
    return this.classes[number] ?? `class ${number}`;
  }

  /** The name and the attributes of a face of the map itself; none of those of a face that was merged, or of one that is not known. */
  areaOf(face) {
    const { areas, faces } = this.metadata ?? {};
    return areas?.[faces?.[face - 1]] ?? { name: null, attributes: {} };
  }

  /** A place of the grid in the coordinates of the map, told so exactly as a number of pixels for a grid unit can show. */
  place([x, y], pixels) {
    const told = [x, y].map((z, axis) => {
      const decimals = Math.max(0, Math.min(9, Math.ceil(-Math.log10(Math.abs(this.scale[axis]) / pixels))));
      return (z * this.scale[axis] + this.translate[axis]).toFixed(decimals);
    });
    return this.isMetric ? told.map((it) => `${it} m`) : told;
  }

  /** A length of the map. */
  length(length) {
    if (!this.isMetric) return String(Number(length.toPrecision(1)));
    return length >= METRES_OF_A_KILOMETRE ? `${Number((length / METRES_OF_A_KILOMETRE).toPrecision(1))} km` : `${Number(length.toPrecision(1))} m`;
  }

  /** An area in square grid units, as one of the map. */
  area(size) {
    const inMap = size * Math.abs(this.scale[0] * this.scale[1]);
    if (!this.isMetric) return DIGITS.format(inMap);
    const square = METRES_OF_A_KILOMETRE ** 2;
    return inMap >= square ? `${FEW_DIGITS.format(inMap / square)} km\u00b2` : `${FEW_DIGITS.format(inMap)} m\u00b2`;
  }
}
