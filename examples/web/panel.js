// What stands beside the map: its title, what is shown, the classes, and messages.

import { fillOf } from "./sheet.js";

const element = (id) => document.getElementById(id);

/** A message with a row of buttons under it. */
function withActions(words, actions) {
  const [block, row] = ["div", "div"].map((tag) => document.createElement(tag));
  row.className = "actions";
  for (const [name, act] of actions) {
    const button = Object.assign(document.createElement("button"), { type: "button", textContent: name });
    button.addEventListener("click", act);
    row.append(button);
  }
  block.append(words, row);
  return block;
}

export class Panel {
  constructor(known) {
    this.known = known;
    this.notices = new Map();
    document.title = known.title;
    element("title").textContent = known.title;
  }

  /** Tells what is shown, of all steps that there are, and whether it is a part of the map. */
  tell(picture, steps, isPart) {
    const where = isPart ? "in this part" : "";
    const faces = picture.faces.size;
    element("state").textContent = `Step ${picture.step} of ${steps}: ${faces} ${faces === 1 ? "face" : "faces"} ${where}`.trim() + ".";
    element("version").textContent = `Version ${picture.version}`;
    this.#tellClasses(picture);
  }

  #tellClasses({ faces }) {
    const classes = [...new Set(faces.values())].sort((a, b) => a - b);
    // Most pictures on the way to a finer step have the classes of the one before.
    if (classes.join() === this.legend) return;
    this.legend = classes.join();
    element("legend").replaceChildren(...classes.map((ofClass) => this.#legendRow(ofClass)));
  }

  #legendRow(ofClass) {
    const [row, box, name] = ["li", "i", "span"].map((tag) => document.createElement(tag));
    box.style.background = fillOf(ofClass);
    name.textContent = this.known.nameOfClass(ofClass);
    row.append(box, name);
    return row;
  }

  /** Tells that a draft is edited, in place of what else is shown. */
  tellDraft(draft) {
    const { faces, version, steps } = draft;
    this.#tellClasses(draft);
    const changes = steps.length === 0 ? "nothing is changed yet" : `${steps.length} ${steps.length === 1 ? "step" : "steps"} to publish`;
    element("state").textContent = `Editing at full detail, ${faces.size} faces: ${changes}.`;
    element("version").textContent = `Version ${version}`;
  }

  /** The steps that are not published, in words, or null where nothing is edited; the number of the one that was refused, or null. */
  tellSteps(steps, refused = null) {
    element("steps").hidden = steps === null;
    element("steps").replaceChildren(...(steps ?? []).map((words, i) => {
      const row = document.createElement("li");
      // Some of them are not shown on a small screen.
      row.value = i + 1;
      row.textContent = words;
      row.classList.toggle("error", i === refused);
      return row;
    }));
  }

  /** A bar while something is on its way: `part` from 0 to 1, or null where it is not known. */
  showProgress(working, part) {
    const bar = element("progress");
    bar.hidden = !working;
    if (part === null) bar.removeAttribute("value");
    else bar.value = part;
  }

  /** A message, which stays until the reader dismisses it or `settle` is called: one for each cause. `actions` are what he may do: words, and what they do. */
  note(cause, text, isError = false, actions = []) {
    const known = this.notices.get(cause);
    if (known?.text === text && actions.length === 0) return;
    const [row, words, button] = ["li", "span", "button"].map((tag) => document.createElement(tag));
    row.classList.toggle("error", isError);
    row.dataset.cause = cause;
    words.textContent = text;
    Object.assign(button, { type: "button", textContent: "\u00d7", title: "Dismiss" });
    button.setAttribute("aria-label", "Dismiss");
    button.addEventListener("click", () => this.settle(cause));
    row.append(actions.length === 0 ? words : withActions(words, actions), button);
    if (known) known.row.replaceWith(row);
    else element("notices").append(row);
    this.notices.set(cause, { text, row });
  }

  complain(cause, text, actions) {
    this.note(cause, text, true, actions);
  }

  /** The cause of a message is gone. */
  settle(cause) {
    this.notices.get(cause)?.row.remove();
    this.notices.delete(cause);
  }
}
