// Holds clients/js/wire.js and replay.js against the texts of the built program: at every step of each map, and over broken packets.
// usage: node tests/web/texts.mjs EXECUTABLE. Last line: 'N passed, N failed, N skipped'.
import { execFileSync } from "node:child_process";
import { mkdtempSync, rmSync, writeFileSync } from "node:fs";
import { tmpdir } from "node:os";
import path from "node:path";
import { Refined, Unfit } from "../../clients/js/replay.js";
import { BadText, packetText, readPacket, readSlice, sliceText } from "../../clients/js/wire.js";
import { Tally, examples, tgap as ask } from "./lib.mjs";

const executable = process.argv[2];
const room = mkdtempSync(path.join(tmpdir(), "web-texts-"));
const tally = new Tally();
const tgap = (...words) => ask(executable, ...words);

const MAPS = [
  ["two_squares.tgap"],
  ["two_squares_ratio_0.tgap"],
  ["three_squares.tgap"],
  ["four_squares.tgap"],
  ["hole_with_face.tgap"],
  ["notch_with_island.tgap"],
  ["two_squares.json", "land", "two_squares.rules.json"],
  ["columbus.json", "areas", "columbus.rules.json"],
];

function lastStep([map, ...rules]) {
  return Number(tgap("slice", map, "4294967295", ...rules).text.match(/^step too high ([0-9]+)\n$/)[1]);
}

/** Each slice and packet is read and written as it was, and the packets lead from slice to slice. */
function followsTheProgram(words) {
  const [map, ...rules] = words;
  const last = lastStep(words);
  const slices = [...Array(last + 1).keys()].map((step) => tgap("slice", map, String(step), ...rules).text);
  const whole = tgap("packet", map, String(last), "0", ...rules).text;
  tally.equal(`${map}: a packet is read and written`, packetText(readPacket(whole)), whole);
  const refined = new Refined(readSlice(slices[last]));
  for (const record of readPacket(whole).records) {
    tally.equal(`${map}: the slice at step ${refined.step}`, sliceText(refined), slices[refined.step]);
    refined.undo(record);
  }
  tally.equal(`${map}: the slice at step 0`, sliceText(refined), slices[0]);
  const middle = Math.floor(last / 2);
  const onward = new Refined(readSlice(slices[last]));
  onward.replay(readPacket(tgap("packet", map, String(last), String(middle), ...rules).text));
  onward.replay(readPacket(tgap("packet", map, String(middle), "0", ...rules).text));
  tally.equal(`${map}: two packets in a row`, sliceText(onward), slices[0]);
}

/** What is said of a slice and a packet: in the words of the program's `replay`. */
function told(sliceBytes, packetBytes) {
  const read = (reader, name, text) => {
    try {
      return reader(text);
    } catch (error) {
      if (!(error instanceof BadText)) throw error;
      throw new Error(`unfit ${name} line ${error.line}\n`);
    }
  };
  try {
    const refined = new Refined(read(readSlice, "slice", sliceBytes));
    refined.replay(read(readPacket, "packet", packetBytes));
    return sliceText(refined);
  } catch (error) {
    return error instanceof Unfit ? `unfit step ${error.step} rule ${error.rule}\n` : error.message;
  }
}

/** Texts that differ from a good one in one place. */
function* broken(text) {
  const lines = text.split("\n");
  for (let i = 0; i < lines.length - 1; i++) {
    const others = [...lines.slice(0, i), ...lines.slice(i + 1)];
    yield others.join("\n");
    const words = lines[i].split(" ");
    for (let j = 1; j < Math.min(words.length, 10); j++) {
      for (const word of [String(Number(words[j]) + 1), "0", "01", "-5", ""]) {
        yield [...lines.slice(0, i), [...words.slice(0, j), word, ...words.slice(j + 1)].join(" "), ...lines.slice(i + 1)].join("\n");
      }
    }
  }
  yield text.slice(0, -1);
  yield `${text}\n`;
  yield text.replace(" ", "  ");
}

function refusesLikeTheProgram(map) {
  const last = lastStep([map]);
  const slice = tgap("slice", map, String(last)).text;
  const packet = tgap("packet", map, String(last), "0").text;
  const [sliceFile, packetFile] = [path.join(room, "slice"), path.join(room, "packet")];
  const differ = [...broken(packet)].map((text) => [slice, text]).concat([...broken(slice)].map((text) => [text, packet]));
  for (const [sliceBytes, packetBytes] of differ) {
    writeFileSync(sliceFile, sliceBytes);
    writeFileSync(packetFile, packetBytes);
    tally.equal(`${map}: a broken text`, told(sliceBytes, packetBytes), tgap("replay", sliceFile, packetFile).text);
  }
}

try {
  execFileSync(executable, ["check", path.join(examples, "two_squares.tgap")]);
  MAPS.forEach(followsTheProgram);
  ["two_squares.tgap", "four_squares.tgap", "hole_with_face.tgap"].forEach(refusesLikeTheProgram);
} finally {
  rmSync(room, { recursive: true });
}
tally.end();
