// The page: what is seen decides what is asked for, and what is asked for is drawn.

import { holdsBox } from "./clients/js/places.js";
import { Editing } from "./editing.js";
import { Identify } from "./identify.js";
import { opened } from "./opening.js";
import { Panel } from "./panel.js";
import { Sheet } from "./sheet.js";
import { wordsOf, wordsOfEdit } from "./words.js";

// How often a newer version is asked for while the page is seen.
const SECONDS_BETWEEN_NEWS = 10;

const element = (id) => document.getElementById(id);

// Where nothing can be opened, it is tried again.
const SECONDS_TO_WAIT = 3;

/** What the page shows, as soon as it can be opened. */
async function openedInTheEnd() {
  for (;;) {
    try {
      return await opened();
    } catch (error) {
      element("state").textContent = wordsOf(error);
      await new Promise((resolve) => setTimeout(resolve, SECONDS_TO_WAIT * 1000));
    }
  }
}

const { client, known, Detail, isArchive } = await openedInTheEnd();
const panel = new Panel(known);
const sheet = new Sheet(element("map"), known, look);
const ofAnother = isArchive ? "Another archive of the map is there, of version" : "The server was started anew, with version";

const detail = new Detail(client, {
  begins: begin,
  shows: show,
  works: () => panel.showProgress(detail.working && !detail.complete, detail.progress),
  fails: (error) => panel.complain("server", wordsOf(error)),
  heals: () => panel.settle("server"),
  hears: (version) => tellNews(`Version ${version} of the map is there.`),
  published: (version) => tellNews(`Somebody else has published version ${version}.`, " It is shown now."),
  restarted: (version) => tellNews(`${ofAnother} ${version}.`, " It is shown now."),
});

const editing = new Editing({ client, sheet, panel, known }, {
  published: tellPublished,
  refused: tellOfEdit,
  failed: tellFailure,
  ended: () => detail.picture && show(detail.picture),
  coarse: () => detail.picture && sheet.picture !== detail.picture && sheet.show(detail.picture),
  renews: () => detail.catchUp(),
});
const identify = new Identify(sheet, detail, known, { isWanted: () => !editing.isOn, failed: tellFailure });
element("editing").hidden = isArchive;

/** The view has changed. */
function look() {
  detail.look(sheet.box, sheet.density);
  editing.look();
}

/** A version begins: what else is known of it is asked for beside it. */
async function begin(bounds) {
  sheet.setHome(bounds);
  try {
    known.add(await client.metadata());
    sheet.tellAnew();
  } catch {
    // The map is shown by numbers then.
  }
}

function show(picture) {
  identify.show(picture);
  // Who edits sees what he edits.
  if (editing.isOn && !editing.isFar) return;
  sheet.show(picture);
  if (editing.isOn) return;
  panel.tell(picture, detail.info.steps, picture.area !== null && !holdsBox(picture.area, detail.bounds));
  // Last, since a wider view may want another picture.
  sheet.setHome(detail.bounds);
}

/** A request of the reader's own has failed. */
function tellFailure(error) {
  if (!detail.follows(error)) panel.complain("request", wordsOf(error, "asking"));
}

/** What an editor may do where the map is another one than he has edited. */
const waysOn = () => [["Carry my edits over", () => goOn(true)], ["Discard them", () => goOn(false)]];

/** Who edits goes on with the newest version. */
function goOn(withEdits) {
  for (const cause of ["news", "edit"]) panel.settle(cause);
  return editing.goOn(withEdits);
}

/** The map has another version: who edits is asked what shall become of his edits, and where he has none, he goes on with the newer one. */
function tellNews(words, shown = "") {
  if (!editing.isOn) return panel.note("news", words + shown);
  if (editing.isChanged) return panel.note("news", `${words} Your edits are on version ${editing.draft.version}.`, false, waysOn());
  if (!editing.isOutdated(client)) return panel.note("news", words, false, [["Show it", () => goOn(false)]]);
  panel.note("news", words + shown);
  return editing.goOn(false);
}

async function tellPublished({ version, foreseen }, count) {
  const what = count === 1 ? "Your edit is" : `Your ${count} edits are`;
  if (foreseen) panel.note("edit", `${what} published as version ${version}.`);
  else panel.complain("edit", `${what} published as version ${version}, but on top of version ${version - 1}, which you had not seen. See whether it is still what you meant.`);
  await detail.renew();
}

function tellOfEdit(error) {
  const isOther = ["OtherVersion", "OtherHistory"].includes(error.name);
  panel.complain("edit", wordsOfEdit(error), isOther && editing.isChanged ? waysOn() : []);
  if (error.name === "RefusedBatch") editing.mark(error);
  if (!detail.follows(error) && error.name === "Unreachable") detail.listen();
}

async function catchUp() {
  panel.settle("news");
  try {
    await detail.catchUp();
  } catch (error) {
    tellFailure(error);
  }
}

element("newest").addEventListener("click", () => (editing.isOn ? goOn(editing.isChanged) : catchUp()));
element("edit").addEventListener("click", () => editing.open());
setInterval(() => document.visibilityState === "visible" && detail.listen(), SECONDS_BETWEEN_NEWS * 1000);
window.addEventListener("focus", () => detail.listen());

// For the tests, and for whoever looks behind the page.
window.tgap = { client, detail, sheet, known, editing };
detail.work();
