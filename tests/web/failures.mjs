// What a reader is told when something fails: refusals, a server that is gone, and one that was started anew.
import { writeFileSync } from "node:fs";
import path from "node:path";
import { setTimeout as pause } from "node:timers/promises";
import { boxOf } from "../../clients/js/places.js";
import { sliceText } from "../../clients/js/wire.js";
import { KINDS, REFUSALS } from "./refusals.mjs";
import { BATCH, EDITING, IDLE, NOTICES, PICTURE_TEXT, beginsEditing, dragsNear, editsNear, endsEditing, goesNear, loadsAnew, otherVertex, placeOf, presses, shown, text, vertexToMove } from "./served.mjs";

const MIDDLE = [420, 330];
const FOCUS = "window.dispatchEvent(new Event('focus'))";

export async function tellsOfFailures(on) {
  await tellsOfARefusedEdit(on);
  await tellsEachRefusal(on);
  await tellsOfEditsThatAreRefused(on);
  await tellsOfAServerThatIsGone(on);
  await wakesUpInAnotherHistory(on);
  await editsInAnotherHistory(on);
  await dragsIntoAnotherHistory(on);
  await comparesNumbersWithoutAToken(on);
}

async function dismiss(tab, cause) {
  await tab.value(`document.querySelector('#notices li[data-cause=${cause}] button').click()`);
}

async function tellsOfARefusedEdit({ tab, tally, served }) {
  await tab.value("document.getElementById('all').click()");
  await tab.until(IDLE);
  const slice = await served.slice(0);
  const box = boxOf(slice.edges.values());
  const [vertex] = vertexToMove(slice);
  await beginsEditing(tab);
  const at = await placeOf(tab, vertex);
  await tab.drag(at, await placeOf(tab, [(box.x0 + box.x1) / 2, (box.y0 + box.y1) / 2]));
  await presses(tab, "publish");
  tally.holds("a refused edit is told", await tab.until(`(${NOTICES}).includes('Your edits are not published. The map would not be sound: borders would meet where they must not (refused 15')`));
  await pause(1000);
  tally.holds("it stands until it is dismissed", (await tab.value(NOTICES)).includes("refused 15"));
  await dismiss(tab, "edit");
  tally.holds("and not longer", !(await tab.value(NOTICES)).includes("edit:"));
  await endsEditing(tab);
}

/** An answer of the front server, or of the program behind it, as it reaches the page. */
const answerOf = ([status, body], { phrase, headers }, history) => ({ status, body, phrase, headers: "Tgap-Version" in headers ? { ...headers, "Tgap-History": history } : headers });

/** Each refusal of a reader's request, with each kind of headers. */
async function tellsEachRefusal({ tab, tally, folder }) {
  const history = await tab.value("window.tgap.client.history");
  tally.holds(`the page knows the history: ${history}`, /^[0-9a-f]{16}$/.test(history));
  for (const row of REFUSALS) {
    for (const kind of KINDS) {
      const name = `the page tells of status ${row[0]} with the body ${JSON.stringify(row[1].slice(0, 20))}, ${JSON.stringify(kind)}`;
      const answer = answerOf(row, { ...kind, phrase: kind.phrase ?? "Some Words" }, history);
      await tab.intercepting("*/map/info", ({ requestId }) => tab.fulfill(requestId, answer), async () => {
        await tab.value("window.tgap.detail.listen()");
        const told = await tab.value(NOTICES);
        tally.holds(`${name}: ${told}`, told.includes(`server: ${row[3]}`) && told.includes(row[4]) && !told.includes("<"));
        if (folder && answer.status === 503) writeFileSync(path.join(folder, "map_refused.png"), await tab.screenshot());
      });
      await tab.value("window.tgap.detail.listen()");
      tally.holds(`${name}: and no longer than it stands`, !(await tab.value(NOTICES)).includes("server:"));
    }
  }
}

/** Some refusals of an edit, over HTTP/2 and with none of the program's headers. */
async function tellsOfEditsThatAreRefused({ tab, tally, served }) {
  const vertex = otherVertex(await served.slice(0));
  await beginsEditing(tab);
  await dragsNear(tab, vertex, [6, 2]);
  for (const [status, said] of [[401, ""], [403, "not from here"], [503, "busy, try again"], [507, "versions full 4"]]) {
    const row = REFUSALS.find((it) => it[0] === status && it[2] === said);
    await tab.intercepting("*/map/edit", ({ requestId }) => tab.fulfill(requestId, answerOf(row, KINDS.at(-2))), async () => {
      await presses(tab, "publish");
      tally.holds(`an editor is told of status ${status}`, await tab.until(`${EDITING} && (${NOTICES}).includes(${JSON.stringify(`edit: Your edits are not published. ${row[3]}`)})`));
    });
    await dismiss(tab, "edit");
  }
  tally.holds("and has the edit still", /^move /.test(await tab.value(BATCH)));
  await endsEditing(tab);
}

/** Watches a message: `window.missed` counts how often it is not there. */
function watch(tab, cause) {
  return tab.value(`(() => {
    window.missed = 0;
    window.watch = new MutationObserver(() => { if (!document.querySelector('#notices li[data-cause=${cause}]')) window.missed += 1; });
    window.watch.observe(document.getElementById('notices'), { childList: true, subtree: true, characterData: true });
  })()`);
}

/** Whatever the reader does meanwhile, he is told that the server is gone until it is back, and not longer. */
async function tellsOfAServerThatIsGone({ tab, tally, served, folder }) {
  await tab.value("document.getElementById('all').click()");
  await tab.until(IDLE);
  served.endProgram();
  await tab.wheel(MIDDLE, -200);
  tally.holds("a server that is gone is told", await tab.until(`(${NOTICES}).includes('server: The server cannot be reached (the map is not served at the moment).')`));
  await watch(tab, "server");
  if (folder) writeFileSync(path.join(folder, "map_gone.png"), await tab.screenshot());
  for (const turn of [300, -100, 200, -300, 400]) {
    await tab.wheel(MIDDLE, turn);
    await pause(500);
    await tab.drag(MIDDLE, MIDDLE.map((z) => z + turn / 10));
    await pause(700);
    tally.holds(`for as long as it is gone, after a turn of ${turn}`, (await tab.value(NOTICES)).includes("server: The server cannot be reached"));
  }
  tally.equal("at no moment it is told less", await tab.value("window.missed"), 0);
  await tab.value("window.watch.disconnect()");
  await tab.value("document.getElementById('all').click()");
  await served.startProgramAnew();
  tally.holds("it is told no more when it is back", await tab.until(`!(${NOTICES}).includes('server:')`));
  await isShownAnew({ tab, tally, served }, 0, "after that");
}

/** The page tells that the server was started anew, and shows its map. */
async function isShownAnew({ tab, tally, served }, version, name) {
  const words = `news: The server was started anew, with version ${version}. It is shown now.`;
  tally.holds(`${name}, a server that was started anew is told: ${words}`, await tab.until(`(${NOTICES}).includes(${JSON.stringify(words)})`));
  tally.holds(`${name}, its map is shown`, await tab.until(`${text("version")} === 'Version ${version}' && ${IDLE}`));
  const { step, wanted } = await shown(tab);
  tally.equal(`${name}, at the step of the view`, step, wanted);
  tally.equal(`${name}, the map is the server's`, await tab.value(PICTURE_TEXT), sliceText(await served.slice(step)));
}

/** Another editor moves a vertex. */
function somebodyMoves(served, vertex, by) {
  return served.edit(`move ${vertex.join(" ")} ${vertex.map((z, axis) => z + by[axis]).join(" ")}\n`);
}

/** While the page hears nothing, the server is started anew and comes to the version that the page shows, with another map under the same numbers. */
async function wakesUpInAnotherHistory({ tab, tally, served }) {
  const vertex = otherVertex(await served.slice(0));
  await goesNear(tab, vertex);
  await somebodyMoves(served, vertex, [6, 2]);
  await tab.value("document.getElementById('newest').click()");
  await tab.until(`${text("version")} === 'Version 1' && ${IDLE} && !(${NOTICES}).includes('news:')`);
  const [before, numbers] = [await tab.value(PICTURE_TEXT), await served.info()];
  await tab.click(MIDDLE);
  await tab.until("document.querySelector('.leaflet-popup') !== null");
  await tab.cutOff(true);
  served.endProgram();
  await served.startProgramAnew();
  await somebodyMoves(served, vertex, [-6, 2]);
  tally.equal("the numbers are those of before", await served.info(), numbers);
  await tab.cutOff(false);
  await tab.value(FOCUS);
  await isShownAnew({ tab, tally, served }, 1, "under the same number");
  tally.holds("which is another one", (await tab.value(PICTURE_TEXT)) !== before);
  tally.holds("what a click told of the other map is taken away", await tab.until("document.querySelector('.leaflet-popup') === null"));
}

/** The server is started anew while an edit is on its way. */
async function editsInAnotherHistory({ tab, tally, served }) {
  await beginsEditing(tab);
  const vertex = otherVertex(await served.slice(0));
  const take = async ({ requestId }) => {
    served.endProgram();
    await served.startProgramAnew();
    await tab.ask("Fetch.continueRequest", { requestId });
  };
  await tab.intercepting("*/map/edit", take, async () => {
    await editsNear(tab, vertex, [6, 2]);
    const words = "edit: Your edits are not published: the server was started anew, and may have another map.";
    tally.holds("an edit that meets another history is told", await tab.until(`(${NOTICES}).includes(${JSON.stringify(words)})`));
  });
  tally.holds("with what the editor may do", await tab.until(`(${NOTICES}).includes('news: The server was started anew, with version 0. Your edits are on version 1.')`));
  tally.holds("and nothing was published", (await served.info()).startsWith("version 0 "));
  await tab.value("document.querySelector('#notices li[data-cause=edit] .actions button').click()");
  tally.holds("the edit does not fit the other map, and is told", await tab.until(`${EDITING} && (${NOTICES}).includes('edit: 0 of 1 steps are made again on version 0. Look at the map, and publish. Left out: A vertex is moved')`));
  await editsNear(tab, otherVertex(await served.slice(0)), [6, 2]);
  tally.holds("made again, it is published", await tab.until(`${text("version")} === 'Version 1' && ${EDITING}`));
  await endsEditing(tab);
}

/** The server is started anew, and its map shown, while a vertex is dragged. */
async function dragsIntoAnotherHistory({ tab, tally, served }) {
  const vertex = otherVertex(await served.slice(0));
  await beginsEditing(tab);
  await goesNear(tab, vertex);
  const from = await placeOf(tab, vertex);
  const to = from.map((z) => z + 6);
  await tab.mouse("mouseMoved", from);
  await tab.mouse("mousePressed", from, { button: "left", buttons: 1, clickCount: 1 });
  for (const place of [from.map((z) => z + 4), to]) await tab.mouse("mouseMoved", place, { button: "left", buttons: 1 });
  served.endProgram();
  await served.startProgramAnew();
  await tab.value(FOCUS);
  tally.holds("while a vertex is dragged, a server that was started anew is told", await tab.until(`(${NOTICES}).includes('news: The server was started anew, with version 0. It is shown now.')`));
  tally.holds("and its map is edited", await tab.until(`${text("version")} === 'Version 0' && ${EDITING}`));
  await tab.mouse("mouseReleased", to, { button: "left", clickCount: 1 });
  tally.equal("nothing comes of the drag", await tab.value(BATCH), "");
  tally.equal("and no line of it stays", await tab.value("document.querySelectorAll('.mark-line').length"), 0);
  await editsNear(tab, otherVertex(await served.slice(0)), [6, 2]);
  tally.holds("an edit is, when it is made on the map that is there", await tab.until(`${text("version")} === 'Version 1' && ${EDITING}`));
  await endsEditing(tab);
}

/** Behind a front server that names no history, lower numbers tell. */
async function comparesNumbersWithoutAToken({ tab, tally, served }) {
  await served.changeFront((text) => text.replace(/add_header Tgap-History.*\n/, ""));
  await loadsAnew(tab);
  await tab.until(`${text("version")} === 'Version 1' && ${IDLE}`);
  tally.equal("without a token there is none", await tab.value("window.tgap.client.history"), null);
  served.endProgram();
  await served.startProgram();
  await tab.value(FOCUS);
  await isShownAnew({ tab, tally, served }, 0, "without a token");
}
