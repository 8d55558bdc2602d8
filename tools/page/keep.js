"use strict";
// What the page keeps for its reader: the text that is typed, files, colours and the size of letters.

const KEPT = "idc playground";

// What is kept, or nothing where the browser keeps nothing for a page.
function kept() {
  try {
    return JSON.parse(localStorage.getItem(KEPT)) || {};
  } catch (error) {
    return {};
  }
}

function keep(more) {
  try {
    localStorage.setItem(KEPT, JSON.stringify({ ...kept(), ...more }));
  } catch (error) {
    console.warn("nothing is kept: " + error.message);
  }
}

// Keeps the text and its words as one's own, unless it is an example's.
function keepText() {
  if (isExample() || !textNow().trim()) return;
  keep({ text: textNow(), words: allWords().join(" "), exercise: exercise && exercise.name, tests: settings.tests });
  by("own").hidden = false;
}

function loadOwn() {
  const { text = "", words = "", exercise: name, tests = null } = kept();
  load(text, wordsIn(words), exerciseOf(EXAMPLES.get(name)), tests);
}

// What stood there before an example, a file or a link was chosen, for the button that undoes it.
let undone = null;

function remember() {
  undone = { text: textNow(), words: allWords(), exercise, tests: settings.tests };
  by("undo").hidden = false;
}

function undo() {
  if (!undone) return;
  const { text, words, exercise: of, tests } = undone;
  remember();
  load(text, words, of, tests);
  perform();
}

async function open(file) {
  if (!file) return;
  if (file.size >= MOST.text) {
    by("told").textContent = `${file.name} is too long for a text.`;
    return;
  }
  remember();
  load(await file.text(), []);
  keepText();
  perform();
}

// Hands a text to the browser as a file of this name.
function save(name, text, type) {
  const url = URL.createObjectURL(new Blob([text], { type }));
  made("a", { href: url, download: name }).click();
  setTimeout(() => URL.revokeObjectURL(url), 10000);
}

// ---- colours and letters

const DARK = "(prefers-color-scheme: dark)", LOOKS = ["as the system has it", "light", "dark"];
const darkRules = () => [...document.styleSheets].flatMap((sheet) => [...sheet.cssRules]).filter((rule) =>
  rule instanceof CSSMediaRule && (rule.isOfDark || rule.media.mediaText.includes("prefers-color-scheme")));

// The look: 0 as the system has it, 1 light, 2 dark.
function look(which) {
  for (const rule of darkRules()) {
    rule.isOfDark = true;
    rule.media.mediaText = [DARK, "not all", "all"][which];
  }
  document.documentElement.style.colorScheme = ["light dark", "light", "dark"][which];
  by("look").title = `colours: ${LOOKS[which]}`;
  by("look").dataset.look = which;
  keep({ look: which });
}

function letters(size) {
  const now = Math.max(0.8, Math.min(2, size));
  document.documentElement.style.setProperty("--letters", now);
  by("larger").dataset.size = now;
  keep({ letters: now });
  paint();
}

function listenToKeeping() {
  const chosen = by("file"), size = () => Number(by("larger").dataset.size);
  by("open").onclick = () => chosen.click();
  chosen.onchange = () => {
    open(chosen.files[0]);
    chosen.value = "";
  };
  by("save").onclick = () => save((isExample() || { name: "text" }).name + ".id", textNow(), "text/plain");
  by("undo").onclick = undo;
  by("look").onclick = () => look((Number(by("look").dataset.look) + 1) % 3);
  by("smaller").onclick = () => letters(size() - 0.1);
  by("larger").onclick = () => letters(size() + 0.1);
  document.addEventListener("dragover", (event) => event.preventDefault());
  document.addEventListener("drop", (event) => {
    if (!event.dataTransfer || !event.dataTransfer.files.length) return;
    event.preventDefault();
    open(event.dataTransfer.files[0]);
  });
  const { look: looks = 0, letters: large = 1, text } = kept();
  look(Number(looks) % 3 || 0);
  letters(Number(large) || 1);
  by("own").hidden = !text;
}

// The indent of the line in which that was opened which this part of a text closes, or null where it closes nothing that
// stands before it.
function indentOfOpening(text, start, end) {
  const plain = text.slice(0, end).replace(/%.*/g, (it) => " ".repeat(it.length));
  const turn = (at) => ("{([".includes(plain[at]) ? 1 : "})]".includes(plain[at]) ? -1 : 0);
  let depth = 0, at = -1;
  for (let i = start; i < end; i++) {
    depth += turn(i);
    if (depth < 0) [depth, at] = [0, i];
  }
  if (at < 0) return null;
  for (depth = -1; at > 0 && depth < 0; ) depth += turn(--at);
  return depth < 0 ? null : /^[ \t]*/.exec(plain.slice(plain.lastIndexOf("\n", at) + 1))[0];
}

// Enter takes the indent of its line, and two blanks more behind what opens a block or a loop; behind what closes one it
// takes the indent with which that began. A closing brace that begins its line takes two away.
function indented(event) {
  const field = by("text"), { selectionStart: at, selectionEnd: end, value } = field;
  if (event.ctrlKey || event.metaKey || event.isComposing) return;
  const line = value.slice(value.lastIndexOf("\n", at - 1) + 1, at), opens = /(?:[{(=]|\b(?:do|then|else|in))\s*$/;
  let from = at, put = null;
  if (event.key === "Enter" && !event.shiftKey) {
    const more = opens.test(line.replace(/%.*/, "")) ? "  " : "";
    const first = more ? null : indentOfOpening(value, at - line.length, at), own = /^[ \t]*/.exec(line)[0];
    const indent = first === null ? own + more : first;
    if (indent || first !== null) put = "\n" + indent;
  } else if (event.key === "}" && /^ {2,}$/.test(line) && at === end) [from, put] = [at - 2, "}"];
  if (put === null) return;
  event.preventDefault();
  field.setSelectionRange(from, end);
  // so that the browser's own undo knows of it
  if (document.execCommand("insertText", false, put)) return;
  field.setRangeText(put, from, end, "end");
  field.dispatchEvent(new Event("input"));
}
