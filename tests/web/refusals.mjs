// What is told of an answer that is no success: each status, by a front server or by the program, with each kind of headers.
import { createServer } from "node:http";
import { Client, OtherHistory, OtherVersion, Refused, Unreachable } from "../../clients/js/client.js";
import { RefusedBatch, faultIn } from "../../clients/js/errors.js";
import { wordsOf, wordsOfEdit } from "../../examples/web/words.js";
import { thrown } from "./lib.mjs";

const PAGE = (status) => `<html>\r\n<head><title>${status} Some Error</title></head>\r\n<body>\r\n<h1>${status}</h1>\r\n</body>\r\n</html>\r\n`;

/** Status, body, what it says, and what a reader is told of it: the beginning, and what to do. */
export const REFUSALS = [
  [401, PAGE(401), "", "The server wants a name and a password.", "Load the page again and give them."],
  [403, "not from here\n", "not from here", "The server does not allow this from here (not from here).", "Use the map's own page"],
  [403, PAGE(403), "", "The server does not allow this from here.", "Use the map's own page"],
  [404, "no route\n", "no route", "The server does not know what was asked for (no route).", "Load the page again"],
  [404, PAGE(404), "", "The server does not know what was asked for.", "Load the page again"],
  [405, "wrong method\n", "wrong method", "The server refuses, with status 405 (wrong method).", "Load the page again"],
  [409, "stale 3\n", "stale 3", "Somebody else has published version 3 meanwhile (stale 3).", "make the edit again"],
  [409, "behind 3\n", "behind 3", "The server has another version than the one that is shown (behind 3).", "Load the page again"],
  [409, "", "", "The server has another version than the one that is shown.", "Load the page again"],
  [412, "another history\n", "another history", "The server was started anew meanwhile (another history).", "Load the page again"],
  [413, "too long\n", "too long", "What was sent is too long (too long).", "Send less of it at a time."],
  [413, PAGE(413), "", "What was sent is too long.", "Send less of it at a time."],
  [422, "edit line 1 cause 3\n", "edit line 1 cause 3", "The edit does not fit the map that is there (edit line 1 cause 3).", "make another edit"],
  [422, "refused 15 meets 0 2 1000 1200 120\n", "refused 15 meets 0 2 1000 1200 120", "The map would not be sound (refused 15 meets 0 2 1000 1200 120).", "Move the vertex to another place"],
  [500, PAGE(500), "", "The server refuses, with status 500.", "tell the operator"],
  [502, "the map is not served at the moment\n", "the map is not served at the moment", "The server cannot be reached (the map is not served at the moment).", "It is tried again."],
  [502, PAGE(502), "", "The server cannot be reached.", "It is tried again."],
  [503, "busy, try again\n", "busy, try again", "The server is busy, with many readers at your address or with another edit (busy, try again).", "It is tried again."],
  [503, "memory\n", "memory", "The server has too little memory for this at the moment (memory).", "It is tried again."],
  [503, PAGE(503), "", "The server cannot answer this at the moment.", "It is tried again."],
  [504, "no reply in time\n", "no reply in time", "The server has not answered in time (no reply in time).", "It is tried again."],
  [504, "", "", "The server has not answered in time.", "It is tried again."],
  [507, "versions full 4\nand more\n", "versions full 4", "The server has as many versions as it may have (versions full 4).", "It takes no edit until the operator has started it anew. Tell him."],
];

/** With status text as HTTP/1.1 has it and without, with the version that the program names and without. */
export const KINDS = [undefined, ""].flatMap((phrase) => [{}, { "Tgap-Version": "0" }].map((headers) => ({ phrase, headers })));

const OF_A_FRONT_SERVER = [502, 504];

/** Words of one line, which hold no tag. */
const areWords = (words) => !/[<>\n]/.test(words) && words.endsWith(".");

function holdsErrors(tally, name, error, [status, , said]) {
  const isUnreachable = OF_A_FRONT_SERVER.includes(status);
  tally.holds(`${name}: its kind`, error instanceof (isUnreachable ? Unreachable : Refused) && error.status === status);
  tally.equal(`${name}: what it said`, error.said, said);
  tally.holds(`${name}: in a sentence: ${error.message}`, said === "" ? /^[a-z]/.test(error.message) && !/[<>\n]/.test(error.message) : error.message === said);
}

/** A server that answers what `answers` has for a path, and the numbers of version 0 to all else. */
async function serveAnswers(answers) {
  const info = { status: 200, headers: { "Tgap-Version": "0" }, body: "version 0 steps 1 faces 2 arcs 3 points 10\n" };
  const server = createServer((asked, reply) => {
    const { status, phrase, headers, body } = answers.get(asked.url) ?? info;
    asked.resume();
    reply.writeHead(status, ...(phrase === undefined ? [headers] : [phrase, headers])).end(body);
  });
  await new Promise((resolve) => server.listen(0, "127.0.0.1", resolve));
  const stop = () => server.close() && server.closeAllConnections();
  return { root: `http://127.0.0.1:${server.address().port}/`, stop };
}

async function clientTells(tally) {
  const answers = new Map();
  const { root, stop } = await serveAnswers(answers);
  const client = new Client(root);
  await client.info();
  for (const row of REFUSALS) {
    const [status, body] = row;
    for (const { phrase, headers } of KINDS) {
      const name = `status ${status} with the body ${JSON.stringify(body.slice(0, 20))}, ${JSON.stringify({ phrase, headers })}`;
      for (const path of ["/slice/0", "/pin", "/edit"]) answers.set(path, { status, phrase, headers, body });
      for (const call of [() => client.slice(0), () => client.pin()]) holdsErrors(tally, name, await thrown(call()), row);
      const error = await thrown(client.edit(""));
      if (body.startsWith("stale")) tally.holds(`${name}: an edit that is stale`, error instanceof OtherVersion && error.version === 3);
      else holdsErrors(tally, `${name}, of an edit`, error, row);
    }
  }
  answers.set("/slice/0", { status: 200, headers: {}, body: "slice 0\n" });
  tally.equal("a success that names no version", (await thrown(client.slice(0))).message, "the answer names no version");
  stop();
}

const batch = (said, more) => new RefusedBatch(said, { fault: faultIn(said), ...more });

function pageTells(tally) {
  for (const [status, body, said, words, next] of REFUSALS) {
    const name = `status ${status} with the body ${JSON.stringify(body.slice(0, 20))}`;
    const error = OF_A_FRONT_SERVER.includes(status) ? Unreachable.told(status, said) : new Refused(status, said);
    const told = wordsOf(error);
    tally.holds(`${name} is told: ${told}`, told.startsWith(words) && told.includes(next) && areWords(told));
    const asked = wordsOf(error, "asking");
    tally.holds(`${name} is told to who asks: ${asked}`, asked.startsWith(words) && areWords(asked) && !asked.includes("It is tried again"));
    const edited = wordsOfEdit(error);
    const isOpen = error instanceof Unreachable;
    tally.holds(`${name} is told to an editor: ${edited}`, edited.startsWith(isOpen ? `No answer came (${error.message})` : `Your edits are not published. ${words}`) && areWords(edited));
    tally.holds(`${name}: an editor is not told that his edit is tried again`, !edited.includes("It is tried again"));
  }
  const others = [
    [new OtherVersion(3), "Your edits are not published: somebody else has published another version."],
    [new OtherHistory(3, "x"), "Your edits are not published: the server was started anew, and may have another map."],
    [new OtherHistory(3, "x", 3), "Your edits are published as version 3, but of a map that you had not seen: the server was started anew. See whether it is what you meant."],
    [new Unreachable("fetch failed"), "No answer came (fetch failed). The edits may be published or not: the map tells, once it is there again."],
    [batch("edit line 2 cause 3", { step: 1 }), "Your edits are not published. Step 2 does not fit the map that is there: no point of a border is there (edit line 2 cause 3). Undo it, or load the page again."],
    [batch("edit line 1 cause 1", { step: 0, isUnknown: true }), "Your edits are not published. Step 1 needs a newer server: this one neither splits areas nor joins them (edit line 1 cause 1). Undo it, and publish the others."],
    [batch("refused 15 meets 0 1 5 5 2"), "Your edits are not published. The map would not be sound: borders would meet where they must not (refused 15 meets 0 1 5 5 2). The place is marked; move a vertex there, or undo."],
    [batch("refused 16 node 1 2 0 1 2 1"), "Your edits are not published. The map would not be sound: the faces round a point would not agree (refused 16 node 1 2 0 1 2 1). The place is marked; move a vertex there, or undo."],
  ];
  for (const [error, words] of others) tally.equal(`an editor is told of ${error}`, wordsOfEdit(error), words);
  tally.equal("no answer at all is told", wordsOf(new Unreachable("fetch failed")), "The server cannot be reached. It is tried again. See whether you are connected.");
}

export async function refusals(tally) {
  await clientTells(tally);
  pageTells(tally);
}
