"use strict";
// node try-page.js: does the page read texts and reports as it should? The wanted values are worked by hand. Prints the
// counts, and ends with status 1 where anything differs.

const fs = require("fs"), path = require("path");
const read = (name) => fs.readFileSync(path.join(__dirname, name), "utf8");
const code = ["text.js", "report.js", "orders.js", "tests.js"].map(read).join("\n");
const ofTexts = "tokensOf, parametersOf, namesOf, arrayNames, placeOf, indexOf, tokenAt";
const ofReports = "whereOf, readReport, outermost, indexesOf", ofOrders = "ranOf, toldOfOrders, eventOfColumns";
const ofTests = "readTests, givenOf";
const page = new Function(`${code}; return { ${ofTexts}, ${ofReports}, ${ofOrders}, ${ofTests} };`)();
const COLOURS = { definition: ["def"], type: ["int", "bool"], array: ["array"], repeat: ["for", "do", "next"] };
const tokens = (text) => page.tokensOf(text, COLOURS);
const report = (...lines) => page.readReport(lines.join("\n") + "\n");
const matrix = ["answer @1:7", "array @1:7 1..2", "cell @1:7[1] = /2:3#0@2:9", "cell @1:7[2] = /2:3#1@2:9",
  "array /2:3#0@2:9 1..1", "cell /2:3#0@2:9[1] = 5", "array /2:3#1@2:9 0..-1"];

const CASES = [
  ["classes of tokens", tokens("def f(n: int) % c\n= 12a<-b;").map((it) => it.kind).join(" "),
    "definition procedure delimiter name operator type delimiter comment operator number name operator name delimiter"],
  ["parameters of main", page.parametersOf(tokens("def f(z: int): int = z; def main(n: int, p: bool): int = n;")),
    [{ name: "n", kind: "int" }, { name: "p", kind: "bool" }]],
  ["parameters of a nested array", page.parametersOf(tokens("def main(a: array array, n: int): int = n;")),
    [{ name: "a", kind: "array" }]],
  ["main in a comment", page.parametersOf(tokens("% def main(q: int)\ndef main(): int = 1;")), []],
  ["a call of main", page.parametersOf(tokens("def f(): int = main(1);")), []],
  ["names of binders",
    page.namesOf(...both("def f(n: int): int = { x = 1; in { for i <- x to n do next s = i; finally x } };")),
    { "1:5": "def f", "1:7": "n", "1:24": "x", "1:40": "i", "1:55": "s" }],
  ["a comparison is no binding", page.namesOf(...both("def f(): bool = a == b;")), { "1:5": "def f" }],
  ["names of arrays", page.arrayNames(...both("{ a = array(1, 2); b[1] = array(1, 2); c = array array(1, 2); }")),
    { "1:7": "a", "1:44": "c" }],
  ["a place behind two bytes", page.placeOf("\u00e4 x\ny", [0, 4], 2), "1:4"],
  ["a place on the second line", page.placeOf("\u00e4 x\ny", [0, 4], 4), "2:1"],
  ["an index behind four bytes", page.indexOf("%\u{1f600}$", 1, 6), 3],
  ["an index behind the end", page.indexOf("ab", 3, 1), 2],
  ["the token at an index", page.tokenAt("a <- b", 2), "<-"],
  ["a path and a place", page.whereOf("/3:25/2:48#7@2:7"), { path: "/3:25/2:48#7", place: "2:7" }],
  ["a number is no place", page.whereOf("12"), null],
  ["an answer", report("answer -3").answer, "-3"],
  ["events", report("1 0 token c0.0#0 1.0 signal", "2 0 read s0.0[1] c0.0#0 7", "answer none").events, 2],
  ["a fault", report("fault division by zero at /2:31#3@2:41").fault,
    { kind: "division by zero", at: ["/2:31#3@2:41"] }],
  ["a second store", report("fault second store of @1:7[-2] at @1:9 and /2:3@1:9").fault,
    { kind: "second store", array: "@1:7", index: "-2", at: ["@1:9", "/2:3@1:9"] }],
  ["a fetch that waits", report("answer none", "waiting /1:2@5:14 of @3:7[2]").waiting,
    [{ at: "/1:2@5:14", array: "@3:7", index: "2" }]],
  ["a stopped run", report("stopped", "answer none").isStopped, true],
  ["the outermost arrays", page.outermost(report(...matrix)).map((it) => [it.name, it.isNested]), [["@1:7", true]]],
  ["an array in itself", page.outermost(report("array @1:7 1..1", "cell @1:7[1] = @1:7")).length, 1],
  ["indexes at the end of the numbers",
    page.indexesOf({ low: 9223372036854775806n, high: 9223372036854775807n }, 5),
    ["9223372036854775806", "9223372036854775807"]],
  ["an order's events", ran("1 0 token c0.0#0 12.1 3", "2 1 read s0.1[2] c0.0#0 7",
    "3 0 write s0.1[2] 5 c0.0#1 9 fault", "fault overflow at @1:2").instrs, [12, 7, 9]],
  ["an order's report", ran("1 0 token c0.0#0 0.0 3", "answer 3", "array @1:2 1..0").report,
    "answer 3\narray @1:2 1..0"],
  ["orders that print the same", page.toldOfOrders([ran("1 0 token c0.0#0 0.0 3", "answer 3"),
    ran("1 0 token c0.0#0 0.0 3", "answer 3")]), "2 orders, each with 1 event: all print the same: answer 3."],
  ["orders that print the same lines", page.toldOfOrders([ran("answer @1:2", "array @1:2 1..0")]),
    "1 order: all print the same: answer @1:2, and 1 more line."],
  ["orders of two faults", page.toldOfOrders([ran("fault a"), ran("1 0 token c0.0#0 4.0 3", "fault b")]),
    "2 orders, with 0 to 1 event: 2 reports. A run stops at the first fault that it comes to; each that is named " +
    "here is one of the program."],
  ["orders that stop", page.toldOfOrders([ran("stopped", "answer none"), ran("stopped", "answer 1")]),
    "2 orders: none came to its end; give them more steps."],
  ["three events in six columns, of a run of two", page.eventOfColumns(2, 3, 6), [0, 0, 1, 1, -1, -1]],
  ["four events in two columns", page.eventOfColumns(4, 4, 2), [0, 2]],
  ["tests", page.readTests("% n\n\n a=-3  b=1 -> -2\n -> [ 1,none ]\nn=1 -> fault  overflow\nn=1").map(
    ({ words, wanted, bad }) => [words, wanted, bad]),
    [[["a=-3", "b=1"], "-2", null], [[], "[1, none]", null],
      [["n=1"], "fault  overflow", "no run gives `fault  overflow`"], [[], null, "no `->`, as in `n=4 -> 10`"]]],
  ["what runs give", [["answer 3"], ["answer none"], ["stopped", "answer 3"], ["fault bad bounds at @1:2"], matrix].map(
    (lines) => page.givenOf(report(...lines))), ["3", "none", "stopped", "fault bad bounds", "[[5], []]"]],
  ["a cell without a value", page.givenOf(report("answer @1:7", "array @1:7 0..2", "cell @1:7[1] = true")),
    "[none, true, none]"],
  ["a line that is none", report("answer 1", "what is this").other, ["what is this"]],
];

function ran(...lines) {
  return page.ranOf("order 7", "7", lines.join("\n") + "\n");
}

function both(text) {
  return [text, tokens(text)];
}

const bad = CASES.filter(([, got, wanted]) => JSON.stringify(got) !== JSON.stringify(wanted));
for (const [what, got, wanted] of bad) {
  console.log(`${what}:\n  wanted ${JSON.stringify(wanted)}\n  got    ${JSON.stringify(got)}`);
}
console.log(`try-page: ${CASES.length - bad.length} of ${CASES.length} as they should be`);
process.exit(bad.length ? 1 : 0);
