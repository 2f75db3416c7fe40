// What an error means to a reader, and what he should do next. The server's own words stand beside it, where it has any.

/** How it goes on where a while may help, by what asked: the page for what it shows, the reader, or an editor. */
const LATER = { reading: "It is tried again.", asking: "Try again in a moment.", editing: "Publish again in a moment." };

const PASSWORD = { reading: "Load the page again", asking: "Load the page again", editing: "Publish again" };

const OPERATOR = "If it stays so, tell the operator.";

/** What a status says, and what to do. */
const BY_STATUS = {
  401: (_said, by) => ["The server wants a name and a password", `${PASSWORD[by]} and give them. The operator has them.`],
  403: () => ["The server does not allow this from here", "Use the map's own page, at the address that the operator names."],
  404: () => ["The server does not know what was asked for", "Load the page again, since it may be older than the server."],
  409: ofOtherVersion,
  412: () => ["The server was started anew meanwhile", "Load the page again."],
  413: () => ["What was sent is too long", "Send less of it at a time."],
  422: ofAnEdit,
  502: (_said, by) => ["The server cannot be reached", `${LATER[by]} ${OPERATOR}`],
  503: ofAWhile,
  504: (_said, by) => ["The server has not answered in time", `${LATER[by]} ${OPERATOR}`],
  507: () => ["The server has as many versions as it may have", "It takes no edit until the operator has started it anew. Tell him."],
};

function ofOtherVersion(said) {
  const stale = /^stale ([0-9]+)$/.exec(said);
  if (stale) return [`Somebody else has published version ${stale[1]} meanwhile`, "Look at it, and make the edit again."];
  return ["The server has another version than the one that is shown", "Load the page again."];
}

function ofAnEdit(said) {
  if (said.startsWith("refused")) return ["The map would not be sound", "Move the vertex to another place, or not so far."];
  if (said.startsWith("edit line")) return ["The edit does not fit the map that is there", "Look at the map, and make another edit."];
  return ["The server cannot do this with the map that is there", "Ask for something else."];
}

function ofAWhile(said, by) {
  if (said.startsWith("busy")) return ["The server is busy, with many readers at your address or with another edit", LATER[by]];
  if (said.startsWith("memory")) return ["The server has too little memory for this at the moment", `${LATER[by]} ${OPERATOR}`];
  return ["The server cannot answer this at the moment", `${LATER[by]} ${OPERATOR}`];
}

function ofStatus({ status, said }, by) {
  const known = BY_STATUS[status] ?? (() => [`The server refuses, with status ${status}`, "Load the page again. If that does not help, tell the operator."]);
  const [what, next] = known(said, by);
  return `${what}${said ? ` (${said})` : ""}. ${next}`;
}

/** `by` tells what asked: "reading", "asking" or "editing". */
export function wordsOf(error, by = "reading") {
  const words = {
    Unreachable: () => (error.status === null ? `The server cannot be reached. ${LATER[by]} See whether you are connected.` : ofStatus(error, by)),
    Refused: () => ofStatus(error, by),
    BadText: () => `The server's answer cannot be read: ${error.message}.`,
    Unfit: () => `A refinement does not fit: ${error.message}.`,
    BadArchive: () => `The map cannot be shown: ${error.message}. Load the page again. If that does not help, tell whoever published it.`,
  };
  return (words[error.name] ?? (() => `The page has failed: ${error.message}.`))();
}

function ofAnotherHistory({ published }) {
  if (published === null) return "Your edits are not published: the server was started anew, and may have another map.";
  return `Your edits are published as version ${published}, but of a map that you had not seen: the server was started anew. See whether it is what you meant.`;
}

/** A batch that the server refuses: one of its lines, or the map that would come of it. */
function ofABatch({ fault, said, step, isUnknown, message }) {
  const which = step === null ? "An edit" : `Step ${step + 1}`;
  if (isUnknown) return `${which} needs a newer server: this one neither splits areas nor joins them (${said}). Undo it, and publish the others.`;
  if (fault.kind === "line") return `${which} does not fit the map that is there: ${message} (${said}). Undo it, or load the page again.`;
  return `The map would not be sound: ${message} (${said}). The place is marked; move a vertex there, or undo.`;
}

/** What became of edits for which no success was told. */
export function wordsOfEdit(error) {
  const words = {
    OtherVersion: () => "Your edits are not published: somebody else has published another version.",
    OtherHistory: () => ofAnotherHistory(error),
    Unreachable: () => `No answer came (${error.said || error.message}). The edits may be published or not: the map tells, once it is there again.`,
    RefusedBatch: () => `Your edits are not published. ${ofABatch(error)}`,
  };
  return (words[error.name] ?? (() => `Your edits are not published. ${wordsOf(error, "editing")}`))();
}

/** Why a step cannot be made, by the cause, in the words of who edits on the screen. */
export function wordsOfFault({ cause, message }) {
  const words = {
    4: "There is a vertex already.",
    6: "Borders meet there: this vertex cannot be removed.",
    7: "This vertex cannot be removed: the border would double back.",
    9: "The line has to lead through one area, from its border to its border.",
    10: "The line comes to one place twice, or meets a border on its way.",
    12: "The line has to begin and end at borders that hang together: an island has none in common with what is round it.",
    13: "The two areas have no border with each other.",
    14: "Nothing would be left of the border round the two areas.",
  };
  return words[cause] ?? `This cannot be done: ${message}.`;
}

/** What a step of a draft does. */
export function wordsOfStep(edits, known) {
  // A cut and its vertices are one step.
  const edit = edits.at(-1);
  const words = {
    class: ({ face, ofClass }) => `Area ${face} becomes ${known.nameOfClass(ofClass)}`,
    move: () => "A vertex is moved",
    add: () => "A vertex is added",
    drop: () => "A vertex is removed",
    node: () => "A vertex becomes a node",
    cut: ({ face }) => `Area ${face} is split`,
    fuse: ({ kept, gone }) => `Area ${gone} is joined to area ${kept}`,
  };
  return words[edit.kind](edit);
}
