// The buttons of who edits, over the map.

import { fillOf } from "./sheet.js";

const element = (id) => document.getElementById(id);

export class Toolbar {
  /** `to` is told which tool the reader `takes`, and that he `undoes`, `redoes`, `removes`, `publishes` or `closes`. */
  constructor(to) {
    for (const button of document.querySelectorAll("#tools [data-tool]")) button.addEventListener("click", () => to.takes(button.dataset.tool));
    const buttons = { undo: to.undoes, redo: to.redoes, remove: to.removes, publish: to.publishes, close: to.closes };
    for (const [id, act] of Object.entries(buttons)) element(id).addEventListener("click", act);
    element("class").addEventListener("change", () => this.#showClass());
  }

  get ofClass() {
    return Number(element("class").value);
  }

  /** Shows the buttons, with these classes to choose from. */
  open(classes, known) {
    const box = element("class");
    const { value } = box;
    box.replaceChildren(...classes.map((number) => new Option(known.nameOfClass(number), number)));
    if (value) box.value = value;
    this.#showClass();
    const isThere = !element("tools").hidden;
    element("tools").hidden = false;
    element("edit").hidden = true;
    // The keys go on from the button that is gone.
    if (!isThere) document.querySelector("#tools [data-tool]").focus();
  }

  close() {
    element("tools").hidden = true;
    element("edit").hidden = false;
    element("edit").focus();
  }

  #showClass() {
    element("swatch").style.background = fillOf(this.ofClass);
  }

  /** What can be done at the moment. */
  tell({ tool, draft, isBusy }) {
    for (const button of document.querySelectorAll("#tools [data-tool]")) button.setAttribute("aria-pressed", button.dataset.tool === tool?.name);
    element("edit").disabled = isBusy;
    element("undo").disabled = isBusy || !draft?.canUndo;
    element("redo").disabled = isBusy || !draft?.canRedo;
    element("publish").disabled = isBusy || !draft?.canUndo;
    element("remove").hidden = tool?.name !== "points";
    element("remove").disabled = !tool?.chosen;
    element("choice").hidden = tool?.name !== "classes";
  }

  hint(words) {
    element("hint").textContent = words;
    this.place("");
  }

  place(words) {
    element("here").textContent = words;
  }
}
