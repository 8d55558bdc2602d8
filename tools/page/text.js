"use strict";
// A text of the language as the page reads it: its tokens, its places, what `main` takes. The program alone decides
// what is refused; this only colours, and names what stands where.

const TOKEN = /[ \t\r\n]+|%[^\n]*|[A-Za-z_][A-Za-z_0-9]*|[0-9]+|==|<>|<=|>=|<-|[^]/gu;

// The tokens without blanks: each with its word, its place as an index of the text, and its class for colours, which is
// that of editors/vim. `colours` has the reserved words by class.
function tokensOf(text, colours) {
  const classOf = new Map(Object.entries(colours).flatMap(([name, words]) => words.map((word) => [word, name])));
  const found = [];
  for (const { 0: word, index } of text.matchAll(TOKEN)) {
    if (/^\s/.test(word)) continue;
    const kind = word[0] === "%" ? "comment" : /^[0-9]/.test(word) ? "number" : classOf.get(word)
      || (/^[A-Za-z_]/.test(word) ? "name" : /^[-+*=:<>]/.test(word) ? "operator" : "delimiter");
    found.push({ word, index, kind });
  }
  found.forEach((token, number) => {
    const behind = found[number + 1];
    if (token.kind === "name" && behind && behind.word === "(") token.kind = "procedure";
  });
  return found;
}

// ---- places: a line and a column, both from 1, of which the column counts bytes

const byteLength = (text) => new TextEncoder().encode(text).length;

// Where each line of a text begins.
function lineStarts(text) {
  const found = [0];
  for (let at = text.indexOf("\n"); at >= 0; at = text.indexOf("\n", at + 1)) found.push(at + 1);
  return found;
}

// The place `L:C` of an index.
function placeOf(text, starts, index) {
  let low = 0, high = starts.length;
  while (high - low > 1) {
    const middle = (low + high) >> 1;
    if (starts[middle] <= index) low = middle;
    else high = middle;
  }
  return low + 1 + ":" + (byteLength(text.slice(starts[low], index)) + 1);
}

// The index of a line and a column; the text's end where it has fewer.
function indexOf(text, line, column) {
  const starts = lineStarts(text);
  if (line > starts.length) return text.length;
  let index = starts[line - 1];
  for (let left = column - 1; left > 0 && index < text.length; ) {
    const character = String.fromCodePoint(text.codePointAt(index));
    left -= byteLength(character);
    index += character.length;
  }
  return index;
}

// The token at an index, or one character.
function tokenAt(text, index) {
  const [word] = /^(?:[A-Za-z_][A-Za-z_0-9]*|[0-9]+|==|<>|<=|>=|<-|[^])/u.exec(text.slice(index, index + 200)) || [""];
  return word === "\n" ? "" : word;
}

// ---- what stands in a text

// The parameters of the first procedure called main: each with its name and kind.
function parametersOf(tokens) {
  const all = tokens.filter((token) => token.kind !== "comment"), words = all.map((token) => token.word);
  const isHead = (word, number) => word === "main" && words[number - 1] === "def" && words[number + 1] === "(";
  const start = words.findIndex(isHead);
  const found = [];
  for (let at = start + 2; start >= 0 && /^[A-Za-z_]/.test(words[at] || "") && words[at + 1] === ":"; at += 4) {
    found.push({ name: words[at], kind: words[at + 2] });
    if (words[at + 3] !== ",") break;
  }
  return found;
}

// The name of each binder, and `def NAME` of each procedure, by place.
function namesOf(text, tokens) {
  const all = tokens.filter((token) => token.kind !== "comment"), starts = lineStarts(text), found = {};
  const isName = (token) => token && (token.kind === "name" || token.kind === "procedure");
  let inHead = false;
  all.forEach((token, number) => {
    const before = all[number - 1], behind = all[number + 1], next = behind ? behind.word : "";
    if (token.word === "def") inHead = true;
    if (token.word === ")") inHead = false;
    if (!isName(token)) return;
    const put = (at, name) => (found[placeOf(text, starts, at.index)] = name);
    if (before && before.word === "def") put(token, "def " + token.word);
    else if (before && before.word === "next" && next === "=") put(before, token.word);
    else if (before && before.word === "for" && next === "<-") put(token, token.word);
    else if (next === "=" || (inHead && next === ":")) put(token, token.word);
  });
  return found;
}

// The name that an array's place has in the text: that of the binding or of the cell which it is the whole value of.
function arrayNames(text, tokens) {
  const all = tokens.filter((token) => token.kind !== "comment"), starts = lineStarts(text), found = {};
  all.forEach((token, number) => {
    const is = all[number - 1], name = all[number - 2];
    if (token.word === "array" && is && is.word === "=" && name && name.kind === "name") {
      found[placeOf(text, starts, token.index)] = name.word;
    }
  });
  return found;
}
