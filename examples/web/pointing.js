// How the reader points at the map while it is edited: by a mouse, a finger or a pen, or by the keys, which move a cross over the map. What is pressed and let go at
// one place is a tap; what is pressed where a tool takes it up is a drag of the tool's; every other drag moves the map.

const L = window.L;
// A pointer that has moved no farther than this between press and release has tapped, and a vertex is taken up from so many pixels away.
const FINE = { slack: 4, reach: 14 };
const COARSE = { slack: 10, reach: 22 };
// The cross goes by so many pixels, and by one with Shift; so near to the frame the map moves under it.
const PIXELS_A_KEY = 16;
const MARGIN = 40;

const ARROWS = { ArrowLeft: [-1, 0], ArrowRight: [1, 0], ArrowUp: [0, -1], ArrowDown: [0, 1] };

const kindOf = ({ pointerType }) => (pointerType === "touch" ? COARSE : FINE);

export class Pointing {
  /**
   * `to` is told of it: `takes(place, reach, isFinger)` whether a press there begins a drag of its own; then it `drags(place)` and `drops(place, reach)`; it `taps(place, reach)`
   * and `hovers(place, reach)`; it `letsGo` where nothing comes of a drag; `presses(key)` says whether it knows a key.
   */
  constructor(map, to) {
    Object.assign(this, { map, to, pointers: new Set(), pressed: null, isOn: false, areKeysUsed: false, at: null });
    const container = map.getContainer();
    const options = { capture: true };
    container.addEventListener("pointerdown", (event) => this.isOn && this.#down(event), options);
    container.addEventListener("pointermove", (event) => this.isOn && this.#move(event), options);
    for (const end of ["pointerup", "pointercancel"]) window.addEventListener(end, (event) => this.#up(event), options);
    container.addEventListener("keydown", (event) => this.isOn && this.#key(event), options);
    window.addEventListener("keydown", ({ ctrlKey, metaKey }) => (this.areKeysUsed ||= !ctrlKey && !metaKey), options);
    window.addEventListener("pointerdown", () => this.#useNoKeys(), options);
    for (const change of ["focus", "blur"]) container.addEventListener(change, () => this.#showCross());
    this.cross = L.DomUtil.create("div", "cross", container);
    this.cross.hidden = true;
  }

  turn(isOn) {
    this.giveUp();
    this.isOn = isOn;
    this.map.doubleClickZoom[isOn ? "disable" : "enable"]();
    this.#showCross();
  }

  #placeOf(event) {
    return this.map.mouseEventToContainerPoint(event);
  }

  /** A press on a button over the map is none on the map. */
  #isOnMap({ target }) {
    return !target.closest(".leaflet-control");
  }

  #down(event) {
    if (!this.#isOnMap(event) || (event.pointerType === "mouse" && event.button !== 0)) return;
    this.pointers.add(event.pointerId);
    // With a second finger the reader moves the map.
    if (this.pointers.size > 1) return this.giveUp();
    const [place, { reach, slack }] = [this.#placeOf(event), kindOf(event)];
    const isTaken = this.to.takes(place, reach, event.pointerType === "touch");
    if (isTaken) this.map.dragging.disable();
    this.pressed = { place, reach, slack, isTaken, hasMoved: false };
  }

  #useNoKeys() {
    this.areKeysUsed = false;
    this.at = null;
    this.#showCross();
  }

  /** Nothing comes of a press that is held. */
  giveUp() {
    if (this.pressed?.isTaken) this.to.letsGo();
    this.pressed = null;
    this.map.dragging.enable();
  }

  #move(event) {
    const place = this.#placeOf(event);
    const { pressed } = this;
    if (pressed === null) {
      if (event.pointerType !== "touch" && this.pointers.size === 0) this.to.hovers(place, kindOf(event).reach);
      return;
    }
    if (!pressed.hasMoved && place.distanceTo(pressed.place) <= pressed.slack) return;
    pressed.hasMoved = true;
    if (pressed.isTaken) this.to.drags(place);
  }

  #up(event) {
    if (!this.pointers.delete(event.pointerId) || this.pressed === null) return;
    const { pressed } = this;
    if (event.type === "pointercancel") return this.giveUp();
    this.pressed = null;
    // Leaflet has seen the end of it by then.
    setTimeout(() => this.map.dragging.enable());
    const place = this.#placeOf(event);
    if (!pressed.hasMoved) this.to.taps(pressed.place, pressed.reach);
    else if (pressed.isTaken) this.to.drops(place, pressed.reach);
  }

  #key(event) {
    if (event.ctrlKey || event.metaKey || event.altKey || !this.#isOnMap(event)) return;
    const arrow = ARROWS[event.key];
    if (arrow) this.#go(arrow.map((z) => z * (event.shiftKey ? 1 : PIXELS_A_KEY)));
    else if (event.key === "Enter" || event.key === " ") this.to.keys(this.#cross(), FINE.reach);
    else if (!this.to.presses(event.key)) return;
    event.preventDefault();
    event.stopPropagation();
  }

  /** Where the cross is: in the middle of the map at first. */
  #cross() {
    this.at ??= this.map.getSize().divideBy(2).round();
    return this.at;
  }

  #go(by) {
    const size = this.map.getSize();
    const to = this.#cross().add(by);
    const isWithin = ["x", "y"].every((axis) => to[axis] >= MARGIN && to[axis] <= size[axis] - MARGIN);
    if (isWithin) this.at = to;
    else this.map.panBy(by, { animate: false });
    this.#showCross();
    this.to.hovers(this.#cross(), FINE.reach, true);
  }

  /** The cross is seen while the keys are used, and are the map's. */
  #showCross() {
    const isSeen = this.isOn && this.areKeysUsed && document.activeElement === this.map.getContainer();
    this.cross.hidden = !isSeen;
    if (isSeen) L.DomUtil.setPosition(this.cross, this.#cross());
  }
}
