"use strict";
// The source: the text in colours, what is refused and warned of at its place, and the way to a place.

let tokens = [], marks = [];

const textNow = () => by("text").value;

// The text in colours, with what is marked: {index, length, kind}.
function paint() {
  const text = textNow(), plain = text.length > MOST.colours, parts = [];
  by("text").classList.toggle("plain", plain);
  tokens = tokensOf(text, CLASSES);
  let at = 0;
  const put = (from, to, kind) => {
    if (from > at) parts.push(text.slice(at, from));
    const mark = marks.find((it) => it.index < to && it.index + Math.max(1, it.length) > from);
    const span = made(mark ? "mark" : "span", { class: `${kind} ${mark ? mark.kind : ""}` }, text.slice(from, to));
    parts.push(span);
    at = to;
  };
  if (!plain) {
    for (const token of tokens) put(token.index, token.index + token.word.length, token.kind);
    for (const mark of marks) if (mark.index >= at) put(mark.index, mark.index + Math.max(1, mark.length), "");
    parts.push(text.slice(at), "\n");
  }
  by("colours").replaceChildren(...parts);
  const starts = lineStarts(text), bad = new Map();
  marks.forEach((mark) => bad.set(Number(placeOf(text, starts, mark.index).split(":")[0]), mark.kind));
  const numbers = [];
  let run = "";
  starts.forEach((_, number) => {
    const kind = bad.get(number + 1);
    if (!kind) run += number + 1 + "\n";
    else {
      numbers.push(run, made("span", { class: kind }, String(number + 1)), "\n");
      run = "";
    }
  });
  by("lines").replaceChildren(...numbers, run);
  follow();
}

// The colours and the numbers stand where the field shows its text.
function follow() {
  const field = by("text");
  by("colours").style.transform = `translate(${-field.scrollLeft}px, ${-field.scrollTop}px)`;
  by("lines").scrollTop = field.scrollTop;
}

// Puts the caret on a place `L:C`, and marks its token.
function goTo(place) {
  const [line, column] = place.split(":").map(Number), text = textNow(), field = by("text");
  const index = indexOf(text, line, column), high = parseFloat(getComputedStyle(field).lineHeight);
  field.focus();
  field.setSelectionRange(index, index + tokenAt(text, index).length);
  const top = (line - 1) * high;
  if (top < field.scrollTop || top > field.scrollTop + field.clientHeight - 2 * high) {
    field.scrollTop = Math.max(0, top - field.clientHeight / 2);
  }
}

// A place that can be gone to.
function placeButton(place) {
  const tells = { type: "button", class: "place", title: "goes to this place of the text" };
  return made("button", { ...tells, onclick: () => goTo(place) }, place);
}

// A line of the text with a caret below what stands at an index, both as they are shown.
function pointed(index, length = 1) {
  const text = textNow(), start = text.lastIndexOf("\n", index - 1) + 1;
  const line = text.slice(start).split("\n")[0], from = Math.max(0, index - start - 60);
  const before = [...line.slice(from, index - start)].map((it) => (it === "\t" ? it : " ")).join("");
  const marked = Math.max(1, Math.min(length, line.length - (index - start)));
  return `${line.slice(from, from + 120)}\n${before}${"^".repeat(marked)}`;
}

// explain.js with its table, where the page has them.
function explainer() {
  if (typeof idExplain !== "object") return null;
  idExplain.hints = idExplain.hints || dataOf("hints");
  return idExplain;
}

// What a refusal says, {line, column, at, length, message, lines}: of explain.js, or plainly its own line.
function explained(said) {
  const text = textNow(), place = / at (\d+):(\d+)/.exec(said);
  try {
    const found = explainer() && explainer().explain(text, said);
    if (found) return found;
  } catch (error) {
    console.error(error);
  }
  if (!place) return { line: null, message: said, lines: [] };
  const line = Number(place[1]), column = Number(place[2]), at = indexOf(text, line, column);
  return { line, column, at, length: tokenAt(text, at).length, message: said, lines: [] };
}

// What in an accepted text is surely not meant, as explain.js has it.
function warned() {
  try {
    return explainer() && textNow().length < MOST.colours ? explainer().warnings(textNow()) : [];
  } catch (error) {
    console.error(error);
    return [];
  }
}

// A refusal or a warning: its message, its line with a caret, what else there is to say, and the program's own line.
function saying(it, kind, said = "") {
  const box = made("div", { class: `said ${kind}` }), head = made("p", {}, it.message);
  box.append(head);
  if (it.line) {
    head.prepend("Line ", placeButton(`${it.line}:${it.column}`), ": ");
    box.append(made("pre", {}, pointed(it.at, it.length)));
  }
  it.lines.forEach((line) => box.append(made("p", {}, line.slice(0, 1).toUpperCase() + line.slice(1))));
  if (said && said !== it.message) box.append(made("p", { class: "dim" }, made("code", {}, said)));
  return box;
}

const markOf = (it, kind) => ({ index: it.at, length: it.length, kind });

const checker = new Caller();
let asked = 0;

// Asks whether the text is accepted, and shows where it isn't, beside what explain.js warns of.
async function check() {
  const number = ++asked, text = textNow();
  if (!compiled) return;
  const answer = await checker.ask(["check", FILE], { [FILE]: text }).catch(() => null);
  if (!answer || number !== asked) return;
  const said = answer.status === 0 ? "" : answer.refused.trim();
  const found = said ? explained(said) : null, others = said ? [] : warned();
  marks = [...(found && found.line ? [markOf(found, "bad")] : []), ...others.map((it) => markOf(it, "warned"))];
  by("refused").replaceChildren(...(found ? [saying(found, "bad", said)] : []));
  by("warned").replaceChildren(...others.slice(0, 5).map((it) => saying(it, "warned")));
  paint();
}

