"use strict";
// A table of runs and what they are to give, as tools/grade has it: a line for each, `n=4 -> 10`.

const KINDS = "overflow|division by zero|out of bounds|bad bounds|second store";
const GIVEN = new RegExp(`^(?:-?\\d+|true|false|none|stopped|\\[.*\\]|fault (?:${KINDS}))$`);

// The lines of a table: each with its words, and what it is to give or, where it is none, what is wrong with it.
function readTests(text) {
  const lines = text.split("\n").map((line) => line.trim()).filter((line) => line && !line.startsWith("%"));
  return lines.map((line) => {
    const at = line.indexOf("->"), words = line.slice(0, Math.max(at, 0)).split(/\s+/).filter(Boolean);
    const wanted = line.slice(at + 2).trim().replace(/\s*([[,\]])\s*/g, "$1").replaceAll(",", ", ");
    if (at < 0) return { line, words, wanted: null, bad: "no `->`, as in `n=4 -> 10`" };
    return { line, words, wanted, bad: GIVEN.test(wanted) ? null : `no run gives \`${wanted}\`` };
  });
}

// What a run gives, as a table has it.
function givenOf(report) {
  if (report.fault) return "fault " + report.fault.kind;
  return report.isStopped ? "stopped" : givenValue(report.answer, report);
}

function givenValue(value, report) {
  const array = report.arrays.get(value);
  if (!array) return value === undefined || value === null ? "none" : value;
  const cells = indexesOf(array, 100000).map((index) => givenValue(array.cells.get(index), report));
  return `[${cells.join(", ")}]`;
}

// ---- the tab

// The field for the table.
function testsField(text, changed) {
  const tells = { rows: "7", spellcheck: "false", autocapitalize: "off", autocomplete: "off", wrap: "off" };
  const more = { placeholder: "n=4 -> 10\nn=0 -> none\nn=-1 -> fault bad bounds", class: "tests" };
  const field = made("textarea", { ...tells, ...more, oninput: () => changed(field.value) });
  field.value = text;
  const told = "A line for each run: its inputs, ->, and what it is to give: a number, true, false, a list as "
    + "[1, none, 3], none, stopped, or a fault by its kind. A link keeps them.";
  return made("label", { class: "whole" }, told, field);
}

// A row for each run, with what it gave; `show` goes to the run.
function testsView(tests, show) {
  const isRight = (it) => !it.bad && it.given === it.wanted, right = tests.filter(isRight).length;
  const heads = ["run", "is to give", "gives", ""].map((it) => made("th", { scope: "col", class: "left" }, it));
  const cell = (...parts) => made("td", { class: "left" }, ...parts);
  const rows = tests.map((it) => {
    const title = "shows this run", run = it.words.join(" ") || "no input";
    const button = made("button", { type: "button", class: "place", title, onclick: () => show(it.words) }, run);
    if (it.bad) return rowOf(cell(it.line), cell(it.bad), cell(""), cell("?"));
    const mark = made("b", { class: isRight(it) ? "good" : "bad" }, isRight(it) ? "\u2713 right" : "\u2717 wrong");
    return rowOf(cell(button), cell(it.wanted), cell(it.given), cell(mark));
  });
  const told = `${right} of ${tests.length} runs give what they should.`;
  const isAll = right === tests.length;
  return [made("p", { class: "answer " + (isAll ? "good" : "bad") }, told), scrolled(rowOf(...heads), ...rows)];
}

// What each run of the table gives.
async function showTests(files, number) {
  const tests = readTests(settings.tests);
  for (const it of tests.filter((one) => !one.bad)) {
    const { printed, refused } = await runner.ask(["run", FILE, ...it.words], files);
    if (number !== performed) return;
    it.given = refused.trim() || givenOf(readReport(printed));
  }
  const show = (words) => {
    setWords(words);
    choose("run", true);
  };
  by("view").replaceChildren(...(tests.length ? testsView(tests, show) : []));
}

function setTests(text) {
  settings.tests = text;
  keepText();
  markOlder();
}
