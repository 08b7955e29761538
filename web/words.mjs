// Reads the words of the command line as the program `pycheck` does: the same requests, and the same messages for
// mistakes. The program reads its words with a library, whose order of steps is followed here.

const HELP = `Checks the types of a module of the profile, and prints the report

Usage: pycheck [OPTIONS] <FILE>

Arguments:
  <FILE>  The module to check

Options:
      --json        Write the report as JSON
      --types       List the types of expressions and of bound names, without a report
      --details     Say in the report what is wrong at each finding
      --format <N>  The report's format: 1, or 2 with the types of each dynamic flow [default: 2]
  -h, --help        Print help
  -V, --version     Print version
`;
const VERSION = "pycheck 1.0.0\n";
const MORE = "For more information, try '--help'.\n";
// Each option by its name, as messages show it
const SHOWN = {
  json: "--json", types: "--types", details: "--details", format: "--format <N>", help: "--help", version: "--version",
};
// The options that exclude one another, in the order in which they are compared
const APART = [["types", "details"], ["types", "format"], ["details", "format"]];
const REQUESTS = { help: HELP, version: VERSION, h: HELP, V: VERSION };
// The least likeness of a name that may be meant
const ALIKE = 0.7;

/** Ends the reading of words, with the text of `help`, or of a `mistake`. */
class Ended extends Error {
  constructor(answer) {
    super();
    this.answer = answer;
  }
}

const mistaken = (said) => new Ended({ mistake: `error: ${said}\n\n${MORE}` });
const withUsage = (said, given) => mistaken(`${said}\n\n${usage(given)}`);

/** Returns the line of usage, with the options that were given, or with all if none was. */
function usage(given) {
  const options = [...new Set(given)].filter((name) => name !== "file").map((name) => `${SHOWN[name]} `);
  return `Usage: pycheck ${given.length === 0 ? "[OPTIONS] " : options.join("")}<FILE>`;
}

/** Returns the characters of `left` that `right` has at nearly the same place, and the places of `right` they take. */
function matching(left, right, range) {
  const kept = [], taken = right.map(() => false);
  left.forEach((letter, at) => {
    const end = Math.min(right.length, at + range + 1);
    for (let place = Math.max(0, at - range); place < end; place++) {
      if (right[place] === letter && !taken[place]) {
        taken[place] = true;
        kept.push(letter);
        return;
      }
    }
  });
  return { kept, other: right.filter((_, place) => taken[place]) };
}

/** Returns how alike two texts are, from 0 to 1: the similarity of Jaro. */
function likeness(word, name) {
  const left = [...word], right = [...name];
  const range = Math.max(0, Math.floor(Math.max(left.length, right.length) / 2) - 1);
  const { kept, other } = matching(left, right, range), found = kept.length;
  if (found === 0) return 0;
  const moved = Math.floor(kept.filter((letter, at) => letter !== other[at]).length / 2);
  return (found / left.length + found / right.length + (found - moved) / found) / 3;
}

/** Returns the option that a name may mean; of two that are equally alike the later one. */
function similar(word) {
  let best, most = ALIKE;
  for (const name of Object.keys(SHOWN)) {
    const alike = likeness(word, name);
    if (alike > ALIKE && alike >= most) [best, most] = [name, alike];
  }
  return best;
}

/** Reads the words in their order. An option counts as given once the next word shows that it has its value. */
class Reader {
  given = [];
  values = {};
  pending;
  isPlain = false;

  /** Counts the option or file that waits for the end of its values as given. */
  settle() {
    const name = this.pending;
    this.pending = undefined;
    if (name === undefined) return;
    if (name === "format" && this.values.format === undefined) {
      throw mistaken(`a value is required for '${SHOWN.format}' but none was supplied`);
    }
    this.give(name);
  }

  /** Does the same as `settle`, before a message that is given in any case. */
  settleQuietly() {
    try {
      this.settle();
    } catch (ended) {
      if (!(ended instanceof Ended)) throw ended;
    }
  }

  /** Records an option or the file as given, which is allowed once. */
  give(name) {
    if (this.given.includes(name)) {
      throw withUsage(`the argument '${SHOWN[name]}' cannot be used multiple times`, []);
    }
    this.given.push(name);
  }

  /** Reads a word that begins with two dashes: `name` is before the first `=`, `value` after it. */
  takeLong(name, value) {
    if (!Object.hasOwn(SHOWN, name)) throw this.unknownLong(name);
    if (name === "format") {
      this.settle();
      this.pending = name;
      this.values.format = value;
      if (value !== undefined) this.settle();
    } else if (value !== undefined) {
      const others = this.given.filter((it) => it !== "file");
      throw withUsage(`unexpected value '${value}' for '${SHOWN[name]}' found; no more were expected`, [...others, name]);
    } else {
      this.settle();
      if (name in REQUESTS) throw new Ended({ help: REQUESTS[name] });
      this.give(name);
    }
  }

  /** Reports a word with two dashes that is no option. */
  unknownLong(name) {
    this.settleQuietly();
    const meant = similar(name), said = `unexpected argument '--${name}' found`;
    if (meant === undefined) return withUsage(`${said}\n\n  tip: to pass '--${name}' as a value, use '-- --${name}'`, this.given);
    return withUsage(`${said}\n\n  tip: a similar argument exists: '--${meant}'`, [...this.given, meant]);
  }

  /** Reads a word of one dash and letters, of which the first decides. */
  takeShort(letter) {
    if (Object.hasOwn(REQUESTS, letter)) {
      this.settle();
      throw new Ended({ help: REQUESTS[letter] });
    }
    throw withUsage(`unexpected argument '-${letter}' found\n\n  tip: to pass '-${letter}' as a value, use '-- -${letter}'`, []);
  }

  /** Reads a word that is no option: the number of a format that waits for one, or the file. */
  takePlain(word) {
    if (!this.isPlain && this.pending === "format" && this.values.format === undefined) {
      this.values.format = word;
    } else if (this.values.file !== undefined) {
      throw withUsage(`unexpected argument '${word}' found`, []);
    } else {
      this.settle();
      this.pending = "file";
      this.values.file = word;
    }
  }

  /** Reads any word. */
  take(word) {
    const [, name, value] = /^--([^=]*)(?:=(.*))?$/s.exec(word) ?? [];
    if (this.isPlain || !/^-./s.test(word)) this.takePlain(word);
    else if (word === "--") this.isPlain = true;
    else if (name !== undefined) this.takeLong(name, value);
    else this.takeShort([...word][1]);
  }

  /** Returns the request of all words together. */
  end() {
    this.settle();
    if (this.values.file === undefined) {
      throw withUsage("the following required arguments were not provided:\n  <FILE>", [...this.given, "file"]);
    }
    for (const [one, other] of APART) {
      if (!this.given.includes(one) || !this.given.includes(other)) continue;
      throw mistaken(`the argument '${SHOWN[one]}' cannot be used with '${SHOWN[other]}'`);
    }
    const [json, types, details] = ["json", "types", "details"].map((name) => this.given.includes(name));
    const format = this.values.format ?? "2";
    if (format !== "1" && format !== "2") {
      throw mistaken(`invalid value '${format}' for '${SHOWN.format}'\n  [possible values: 1, 2]`);
    }
    return { json, types, details, format: Number(format), file: this.values.file };
  }
}

/** Returns the form, whether types are listed or details told, the format and the file of the words; or `help`, or a `mistake`. */
export function asked(words) {
  const reader = new Reader();
  try {
    for (const word of words) reader.take(word);
    return reader.end();
  } catch (ended) {
    if (ended instanceof Ended) return ended.answer;
    throw ended;
  }
}
