"use strict";
// node try-tests.js [PROGRAM ..]: does the page find that each solution of an exercise gives what its table of runs
// says, as tools/grade does, and that the program which is to be mended doesn't? Prints the counts, and ends with
// status 1 where anything differs. The program is the one that ./idc runs, or the one of these words.

const fs = require("fs"), path = require("path"), { execFileSync, spawnSync } = require("child_process");
const read = (...parts) => fs.readFileSync(path.join(__dirname, ...parts), "utf8");
const code = ["report.js", "tests.js"].map((name) => read(name)).join("\n");
const { readReport, readTests, givenOf } = new Function(`${code}; return { readReport, readTests, givenOf };`)();
const named = () => execFileSync(path.join(__dirname, "../program"), { encoding: "utf8" }).split("\n").slice(0, -1);
const program = process.argv.length > 2 ? process.argv.slice(2) : named();
const FOLDER = path.join(__dirname, "../../examples/exercises");

// How many runs of a table a text gives right, of how many.
function rightOf(table, text) {
  const tests = readTests(read("../../examples/exercises", table + ".tests"));
  const file = path.join(FOLDER, text + ".id");
  const given = ({ words }) => {
    const { stdout } = spawnSync(program[0], [...program.slice(1), "run", file, ...words], { encoding: "utf8" });
    return givenOf(readReport(stdout));
  };
  return { right: tests.filter((it) => !it.bad && given(it) === it.wanted).length, of: tests.length };
}

const tables = fs.readdirSync(FOLDER).filter((name) => name.endsWith(".tests")).map((name) => name.slice(0, -6));
const bad = tables.map((name) => ({ name, ...rightOf(name, name) })).filter(({ right, of }) => right < of || of === 0);
bad.forEach(({ name, right, of }) => console.log(`${name}: ${right} of ${of}`));
const unmended = rightOf("mended", "broken");
if (unmended.right > 0) console.log(`broken: ${unmended.right} of ${unmended.of}, and none is right`);
console.log(`try-tests: ${tables.length - bad.length} of ${tables.length} solutions give what they should`);
process.exit(bad.length || unmended.right || !tables.length ? 1 : 0);
