"use strict";
// The language on one screen, and what the page can do.

const SYNTAX = [
  ["def f(n: int, p: bool): int = E;", "a procedure; kinds are int, bool, array, array array; a run begins with main"],
  ["{ x = E; y = x + 1; in x * y }", "a block: names for values, in any order, and behind in what it gives"],
  ["if P then E else E", "one of two arms; both stand there always"],
  ["f(1, x)", "a call, which may answer before its arguments are there"],
  ["{ while i < n do next i = i + 1; next s = s + i; finally s }",
    "a loop: a variable has its first value from outside, and its next one by next; behind finally what it gives"],
  ["{ for i <- 1 to n do next s = s + i; finally s }", "the same, by an index that counts up by itself"],
  ["a = array(1, n); a[i] = E; a[i]", "an array, a store, a fetch; a fetch waits for its store, and a cell has one"],
  ["m = array array(1, n); m[i] = array(1, n); m[i][j]", "an array of arrays"],
  ["+ - * div rem   == <> < <= > >=   and or not", "operators; each waits for both sides, and and or too"],
  ["% to the end of the line", "a comment"],
];
const MEANT = [
  ["answer none", "nothing is left to do, and the answer waits for something that never comes; below stands for what"],
  ["fault", "overflow, division by zero, out of bounds, bad bounds, second store; below stand the values"],
  ["stopped", "the limit of steps was reached; the run may be long, or without end"],
];
const DOES = [
  ["Ctrl-Enter", "runs; in the walk arrows go one event, page keys ten"],
  ["Walk", "the same run, event by event, forth and back; what it prints is hidden until it is there"],
  ["Orders", "whether many orders of the same run print the same, and which events came when"],
  ["Profile", "how many events could go on at once"],
  ["Tests", "which runs give what they should, as those of an exercise, or of a task of one's own"],
  ["Link", "the text, its inputs and its tests as a link; on the tab Walk with the event too"],
  ["?embed", "behind the page's address, before a #, leaves out head and foot, for a page of a course"],
];

function helpView() {
  const table = (rows, code) => {
    const cell = (it) => made("td", {}, code ? made("code", {}, it) : made("b", {}, it));
    return made("table", {}, ...rows.map(([it, told]) => rowOf(cell(it), made("td", {}, told))));
  };
  const part = (head, it) => [made("h3", {}, head), it];
  const box = made("div", { class: "help" }, ...part("The language", table(SYNTAX, true)),
    ...part("What a run comes to", table(MEANT)), ...part("The page", table(DOES)));
  const more = "The repository has a tutorial, docs/TUTORIAL.md, exercises, docs/EXERCISES.md, and all rules of the "
    + "language, docs/LANGUAGE.md.";
  return [box, dimmed(more)];
}
