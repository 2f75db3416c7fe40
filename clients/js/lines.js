// The lines of a text, read one after the other: the first one that is not of its form is told.

const MAX_COUNT = 0xffffffff;
export const MAX_COORDINATE = 2 ** 31;

/** A text that is none of its kind: `line` is the first line, from 1, that is not what must come there. */
export class BadText extends Error {
  constructor(line) {
    super(`line ${line} is not what must come there`);
    this.name = "BadText";
    this.line = line;
  }
}

/** A number as it is written: the shortest way, in decimal, from `least` to `most`; null for any other word. */
export function numberOf(word, least, most) {
  if (!/^(0|-?[1-9][0-9]*)$/.test(word ?? "")) return null;
  const number = Number(word);
  return number >= least && number <= most ? number : null;
}

/** The lines of a text, one after the other, each cut into words. */
export class Lines {
  constructor(text) {
    this.lines = text.split("\n");
    this.number = 0;
  }

  fail() {
    throw new BadText(this.number);
  }

  /** The words of the next line, which must begin with `first` and have `count` words after it, or any number. */
  next(first, count) {
    this.number += 1;
    // What stands behind the last line feed is no line.
    if (this.number >= this.lines.length) this.fail();
    const words = this.lines[this.number - 1].split(" ");
    if (words.shift() !== first || (count !== undefined && words.length !== count)) this.fail();
    return words;
  }

  bounded(word, least, most) {
    const number = numberOf(word, least, most);
    if (number === null) this.fail();
    return number;
  }

  count(word) {
    return this.bounded(word, 0, MAX_COUNT);
  }

  coordinate(word) {
    return this.bounded(word, -MAX_COORDINATE, MAX_COORDINATE);
  }

  point(words, at) {
    return [this.coordinate(words[at]), this.coordinate(words[at + 1])];
  }

  /** Whether the next line begins with this word. */
  begins(first) {
    const line = this.lines[this.number];
    return line === first || Boolean(line?.startsWith(`${first} `));
  }

  /** The line `end`, and nothing after it. */
  end() {
    this.next("end", 0);
    if (this.lines.length !== this.number + 1 || this.lines[this.number] !== "") {
      this.number += 1;
      this.fail();
    }
  }
}
