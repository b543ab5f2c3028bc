"use strict";
// answers.js MODULE FUNCTION: what the page's module and scripts give of each input, of which a line of standard
// input has the bytes in hexadecimal, or of both sides of a connection with a comma between; and then, if there is
// one, a match rule. A line of JSON answers it, as web/test.py compares it with what dbus-wire writes; the text of
// its function makes it of the rows. Node runs it, by --experimental-wasm-memory64 where that is still an experiment.

const fs = require("node:fs");

// The page's scripts but page.js, as build.py puts them together.
const read = (it) => fs.readFileSync(`${__dirname}/${it}`, "utf8");
const source = ["reader.js", "tables.js", "side.js", "rule.js"].map(read).join("\n");
const { Reader, Rows, leavesOfLine, matchesRule, readRule, answersOf } = new Function(
  `${source}\nreturn { Reader, Rows, leavesOfLine, matchesRule, readRule, answersOf: ${process.argv[3]} };`,
)();
const compiled = new WebAssembly.Module(fs.readFileSync(process.argv[2]));

// The numbers of the messages that match, or why the rule is none.
function matching(rows, whole, text) {
  try {
    const pairs = readRule(text);
    return whole.filter((it) => matchesRule(pairs, rows, it)).map((it) => it.number);
  } catch (fault) {
    return fault.message;
  }
}

function answer(files, rule) {
  const readers = files.map((it) => new Reader(compiled, it.length)), rows = new Rows(readers);
  readers.forEach((it, at) => it.bytes.set(files[at], it.text));
  if (!readers.every((it) => it.open())) {
    return null;
  }
  Array.from(rows.adding());
  for (const row of rows.learning()) {
    rows.learn(row);
  }
  const whole = [...rows.ordered()].map((it) => rows.at(it)).filter((it) => it.isWhole);
  const tied = whole.map((it) => leavesOfLine(it.reader.items(it.offset, it.length), rows.time(it.index) !== null));
  return { ...answersOf(rows), tied, matching: rule === undefined ? null : matching(rows, whole, rule) };
}

for (const line of fs.readFileSync(0, "latin1").split("\n").slice(0, -1)) {
  const [files, rule] = line.split(" "), bytes = (it) => Buffer.from(it, "hex");
  console.log(JSON.stringify(answer(files.split(",").map(bytes), rule && bytes(rule).toString())));
}
