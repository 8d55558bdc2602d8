// Why a text is refused, and what in an accepted one surely isn't meant, in words, for a page: as tools/explain says.
//
// A plain script: it makes one global, `idExplain`, with
//
//   idExplain.explain(text, said)   of one line of refusal that idc printed, as `refused 7 NoMain`;
//                                   null where the line is no such line
//   idExplain.warnings(text)        of an accepted text: a list, empty where all is well, or where it isn't accepted
//
// Each gives things { line, column, at, length, message, hint, lines }:
//
//   line, column   the place as idc prints it, from 1, columns in bytes; null where the refusal has no place
//   at, length     what to mark: an index in the string `text`, and how many of its units; length is 0 between tokens
//   message        the cause, in one sentence
//   hint           what to write, or null; several hints are joined by "; "
//   lines          all further lines that tools/explain prints below the picture, hints among them
//
// Both take the table of tools/hints.json as a last argument, and else use `idExplain.hints`, which the page sets to it
// once; under node it is read from the file. Nothing here is proved. Words of the text stand in messages as they are,
// so a page shows them as text and never as HTML. tools/page/try-explain compares this with tools/explain.
"use strict";
var idExplain = (function () {
  const isPage = typeof idReading !== "undefined";
  const reading = isPage ? idReading : require("./reading.js");
  const { Needs } = isPage ? idNeeding : require("./needing.js");
  const { END, RESERVED, COMPARISONS, KINDS, BINDERS, EACH, Refused, tokensOf, node, treeOf, expected } = reading;
  const { outerOf, roundIt, things, isLoop, scopesOf, below, lineCol, placeIn } = reading;

  // ---- hints, as tools/hints.py has them

  function filled(hint, words) {
    for (const [name, word] of Object.entries(words)) hint = hint.split("{" + name + "}").join(word);
    return hint;
  }

  // A comment that looks like an operand behind an operator `%`: a number or a name with what goes on behind it.
  const OPERAND = new RegExp(
    "^(?:%[ \\t]*(?:[0-9]+|[A-Za-z_][A-Za-z_0-9]*(?:\\[[^\\]]*\\])?)[ \\t]*" +
      "(?:;|\\)|\\]|==|<>|[<>+*=]|then\\b|do\\b|and\\b|or\\b)" +
      "|%[ \\t]*(?:[0-9]+[ \\t\\r]*$|\\([^()]*\\)[ \\t]*[;)]))"
  );

  // What is open before a token: `def(`, `array(`, `name(`, `[`, `{while` and so on, or nothing.
  function openAt(tokens, number) {
    const opened = [], kindAt = (i) => (tokens[i] ? tokens[i].kind : "");
    for (let i = 0; i < number; i++) {
      const { kind } = tokens[i];
      if (kind === "(") {
        const before = kindAt(i - 1), isHead = before === "name" && kindAt(i - 2) === "def";
        opened.push((isHead ? "def" : ["array", "name"].includes(before) ? before : "") + "(");
      } else if (kind === "{") {
        const behind = kindAt(i + 1);
        opened.push("{" + (["while", "for"].includes(behind) && i + 1 < number ? behind : ""));
      } else if (kind === "[") {
        opened.push("[");
      } else if ([")", "]", "}"].includes(kind)) {
        opened.pop();
      }
    }
    return opened.length ? opened[opened.length - 1] : "";
  }

  // The comment behind the token before, on its line, where it looks like an operand, or nothing.
  function commentBehind(text, tokens, number) {
    if (!number) return "";
    const start = tokens[number - 1].at + tokens[number - 1].text.length;
    const between = text.slice(start, tokens[number].at).split("\n")[0];
    return OPERAND.test(between.replace(/^[ \t]+/, "")) ? between.trim() : "";
  }

  // The hint of a token at which a text is refused, or null; rows that say what is said already are left out.
  function ofToken(table, text, tokens, number, may, said) {
    const around = { first: number - 2, before: number - 1, at: number, behind: number + 1 };
    const words = {};
    for (const [name, i] of Object.entries(around)) words[name] = tokens[i] ? tokens[i].text : "";
    words.comment = commentBehind(text, tokens, number);
    const inside = openAt(tokens, number);
    const isOne = (it, wanted) =>
      it !== undefined && (wanted.includes(it.kind) || wanted.includes(it.text) ||
        (wanted.includes("reserved") && RESERVED.has(it.kind)));
    const row = table.tokens.find(
      (it) =>
        (!said || it.says !== said) &&
        Object.entries(around).every(([name, i]) => !it[name] || isOne(tokens[i], it[name])) &&
        (it.may || []).every((kind) => may.includes(kind)) &&
        !(it.not || []).some((kind) => may.includes(kind)) &&
        (!it.in || it.in.includes(inside)) &&
        (!it.comment || words.comment)
    );
    return row ? filled(row.hint, words) : null;
  }

  // The hint of a character that begins no token; `sign` has what follows it too.
  function ofCharacter(table, sign) {
    const signs = table.characters, code = sign[0].codePointAt(0).toString(16).toUpperCase().padStart(4, "0");
    for (const it of [sign.join(""), sign[0], "U+" + code]) {
      if (Object.prototype.hasOwnProperty.call(signs, it)) return signs[it];
    }
    return /^\p{L}$/u.test(sign[0]) ? signs.letter : null;
  }

  function ofUnknown(table, name, isCall) {
    const row = table.unknown.find((it) => it.names.includes(name) && (isCall || !it.call));
    return row ? row.hint : null;
  }

  // The hint of an expression that has another kind than is wanted of it.
  function ofKind(table, wanted, found, it, outer, program) {
    let role = outer.form;
    if (outer.form === "binary") role = outer.name;
    if (outer.form === "store" && it === outer.parts[2]) role = "value";
    if (outer.form === "definition") role = "body";
    const left = outer.form === "binary" ? outer.parts[0] : null;
    const callee = role === "call" ? program.parts.find((one) => one.name === outer.name) : null;
    const params = callee ? callee.params : [];
    const row = table.kinds.find(
      (at) =>
        (at.wanted === undefined || at.wanted === wanted) && (at.found === undefined || at.found === found) &&
        (!at.as || at.as.includes(role)) && (!at.is || at.is.includes(it.form)) &&
        (!at.left || (left && left.form === at.left)) && (!at.other || params.some((one) => one.kind === found))
    );
    const told = params.map((one) => one.name + ": " + one.kind).join(", ");
    const words = { left: left ? left.name : "", callee: callee ? callee.name : "", params: told };
    return row ? filled(row.hint, words) : null;
  }

  // What gives an expression its value: of a block its body, of a loop its last expression, of an `if` its arm.
  function valuePart(it) {
    if (it.form === "conditional") return valuePart(it.parts[1]);
    return it.form === "block" || isLoop(it) ? valuePart(it.parts[it.parts.length - 1]) : it;
  }

  function ofSecond(table, first, second) {
    const row = table.second.find((it) => it.first === first.form && it.second === second.form);
    return row ? filled(row.hint, { name: second.name }) : null;
  }

  function ofUnseen(table, binder, above, useAbove) {
    const loop = above[above.length - 1];
    if (binder.form === "index") return table.seen.index;
    const isBeside = isLoop(loop) && useAbove.includes(loop) && binder.form === "binding";
    return isBeside ? filled(table.seen.body, { name: binder.name }) : null;
  }

  // The words of a binding's value, on one line, where they are few.
  function valueOf(text, binding) {
    const tokens = tokensOf(text), first = tokens.findIndex((it) => it.at === binding.at) + 2;
    let end = first, depth = 0;
    while (tokens[end].kind !== ";" || depth) {
      depth += ["{", "(", "["].includes(tokens[end].kind) - ["}", ")", "]"].includes(tokens[end].kind);
      end += 1;
    }
    return wordsOf(text, tokens[first].at, tokens[end].at);
  }

  // A part of a text on one line, where that is short.
  function wordsOf(text, start, end) {
    const words = text.slice(start, end).split(/\s+/).filter((it) => it).join(" ");
    return words.length <= 40 && !words.includes("%") ? words : "..";
  }

  // The words of a loop's last expression, where they are few.
  function lastOf(text, loop) {
    const tokens = tokensOf(text);
    let depth = 0, start = 0;
    for (const { kind, at } of tokens.slice(tokens.findIndex((it) => it.at === loop.at))) {
      depth += (kind === "{") - (kind === "}");
      if (kind === "finally" && depth === 1) start = at + kind.length;
      if (depth === 0) return wordsOf(text, start, at);
    }
    return "..";
  }

  // ---- names that are near (Python's difflib, which tools/explain asks)

  // How alike two words are, from 0 to 1: twice the length of what is found in both, in one order, over both lengths.
  function ratio(a, b) {
    function matched(alo, ahi, blo, bhi) {
      let besti = alo, bestj = blo, best = 0, lengths = new Map();
      for (let i = alo; i < ahi; i++) {
        const now = new Map();
        for (let j = blo; j < bhi; j++) {
          if (a[i] !== b[j]) continue;
          const length = (lengths.get(j - 1) || 0) + 1;
          now.set(j, length);
          if (length > best) [besti, bestj, best] = [i - length + 1, j - length + 1, length];
        }
        lengths = now;
      }
      if (!best) return 0;
      return best + matched(alo, besti, blo, bestj) + matched(besti + best, ahi, bestj + best, bhi);
    }
    return a.length + b.length ? (2 * matched(0, a.length, 0, b.length)) / (a.length + b.length) : 1;
  }

  function near(name, names) {
    const alike = names.find((it) => it.toLowerCase() === name.toLowerCase() && it !== name);
    if (alike) return alike;
    let best = null, most = 0.6;
    for (const it of [...new Set(names)].sort()) {
      const found = it === name ? 0 : ratio(it, name);
      if (found >= most) [best, most] = [it, found];
    }
    return best;
  }

  // ---- what is said of a refusal, as tools/explain says it

  const FORMS = [
    ["an expression", ["name", "number", "true", "false", "(", "{", "array", "-", "not", "if"]],
    ["an operand", ["name", "number", "true", "false", "(", "{", "array", "-", "not"]],
    ["an operand", ["name", "number", "true", "false", "(", "{", "array", "-"]],
    ["a comparison", COMPARISONS],
    ["an operator", ["+", "-", "*", "div", "rem", "and", "or"]],
    ["a kind", KINDS],
  ];
  const VALUES = { int: "a whole number from -9223372036854775808 to 9223372036854775807", bool: "`true` or `false`" };

  // What may stand there, in words.
  function listed(kinds) {
    let left = EACH.filter((it) => kinds.includes(it));
    const found = [];
    for (const [word, of] of FORMS) {
      if (!of.every((it) => left.includes(it))) continue;
      found.push(word);
      left = left.filter((it) => !of.includes(it));
    }
    const named = { name: "a name", number: "a number", [END]: "the end of the text" };
    for (const kind of left) found.push(named[kind] || "`" + kind + "`");
    return found.length === 1 ? found[0] : found.slice(0, -1).join(", ") + " or " + found[found.length - 1];
  }

  // What is told of one refusal: its cause, and further lines.
  class Said {
    constructor(table, text, at) {
      Object.assign(this, { table, text, at, message: "", lines: [], length: 0, mark: at });
      if (at === null) return;
      const token = tokensOf(text).find((it) => it.at === at);
      const sign = at < text.length ? [...text.slice(at, at + 2)][0].length : 0;
      this.length = token && token.text ? token.text.length : sign;
    }

    cause(words) {
      this.message = words;
    }

    line(words) {
      this.lines.push(words);
    }

    tip(words) {
      if (words) this.lines.push("hint: " + words);
    }

    where(at) {
      return lineCol(this.text, at).join(":");
    }

    result() {
      const [line, column] = this.at === null ? [null, null] : lineCol(this.text, this.at);
      const tips = this.lines.filter((it) => it.startsWith("hint: ")).map((it) => it.slice(6));
      const { message, lines, length, mark: at } = this;
      return { line, column, at, length, message, hint: tips.length ? tips.join("; ") : null, lines };
    }
  }

  function explainToken(said) {
    const { text, at, table } = said, tokens = tokensOf(text), number = tokens.findIndex((it) => it.at === at);
    if (number < 0) return said.cause("no program goes on with this");
    const token = tokens[number], before = tokens[number - 1], may = expected(tokens, number);
    const isEnd = token.kind === END;
    const kind = isEnd ? "the text ends here" : "no program goes on with `" + token.text + "` here";
    const ends = before && text.slice(before.at, at).includes("\n");
    const isMissing = may.includes(";") && (ends || isEnd);
    said.cause(isMissing ? kind + ": a `;` is missing before it" : kind);
    if (isMissing) [said.mark, said.length] = [before.at + before.text.length, 0];
    said.line("here may stand " + listed(may));
    said.tip(ofToken(table, text, tokens, number, may, isMissing ? ";" : null));
  }

  function explainName(said) {
    const { text, at, table } = said, program = treeOf(text), outer = outerOf(program), all = [...outer.keys()];
    const it = all.find((one) => one.at === at && ["name", "next", "call"].includes(one.form));
    if (!it) return said.cause("a name without binder");
    const { name } = it, { seen } = table, above = roundIt(it, outer);
    const inSight = scopesOf(it, above).flat(), binders = all.filter((one) => BINDERS.includes(one.form));
    let names = inSight.map((one) => one.name);
    if (it.form === "call") {
      said.cause("no definition is of a procedure " + name);
      names = program.parts.map((one) => one.name);
      if (inSight.some((one) => one.name === name)) said.tip(filled(seen.cell, { name }));
      else if (binders.some((one) => one.name === name)) {
        said.tip("names of values are apart from those of procedures");
      }
    } else {
      if (it.form === "next") {
        said.cause("the variable " + name + " has no first value: none is bound outside of the loop");
        said.tip(filled(seen.first, { name }));
      } else {
        said.cause("no " + name + " is bound that is seen here");
      }
      const other = binders.find((one) => one.name === name && one !== it);
      if (other) {
        said.tip("the " + name + " of " + said.where(other.at) + " is not seen here");
        said.tip(ofUnseen(table, other, roundIt(other, outer), above));
      } else if (program.parts.some((one) => one.name === name)) {
        said.tip(filled(seen.call, { name }));
      }
    }
    const meant = near(name, names), tip = ofUnknown(table, name, it.form === "call");
    said.tip(tip);
    if (meant && !tip) said.tip(meant + " is in sight");
  }

  function explainSecond(said) {
    const outer = outerOf(treeOf(said.text)), forms = [...BINDERS, "definition"];
    const it = [...outer.keys()].find((one) => one.at === said.at && forms.includes(one.form));
    if (!it) return said.cause("a second binder of one name");
    const first = below(outer.get(it)).find((one) => one.name === it.name && one.form !== "store");
    const what = { definition: "procedure", parameter: "parameter" }[it.form] || "binder";
    said.cause("a second " + what + " of the name " + it.name + ": the first stands at " + said.where(first.at));
    said.tip(ofSecond(said.table, first, it));
  }

  function explainCount(said) {
    const program = treeOf(said.text);
    const found = things(program).find((it) => it.at === said.at && it.form === "call");
    const callee = found && program.parts.find((it) => it.name === found.name);
    if (!callee) return said.cause("a call with another number of arguments than its procedure has parameters");
    const { name, params, at } = callee, plural = params.length === 1 ? "" : "s";
    const wants = name + " takes " + params.length + " argument" + plural;
    said.cause(wants + ", and here has " + found.parts.length);
    const told = params.map((it) => it.name + ": " + it.kind).join(", ");
    said.line("it is defined at " + said.where(at) + ": " + name + "(" + told + ")");
  }

  function explainKind(said, wanted, found) {
    said.cause(wanted + " is wanted here, and this is " + found);
    const program = treeOf(said.text), outer = outerOf(program);
    const it = [...outer.keys()].find((one) => one.at === said.at && outer.get(one));
    if (!it) return;
    if (valuePart(it) !== it) said.line("its value is what stands at " + said.where(valuePart(it).at));
    said.tip(ofKind(said.table, wanted, found, it, outer.get(it), program));
  }

  function mainParams(text) {
    try {
      const main = treeOf(text).parts.find((it) => it.name === "main");
      return main ? main.params : [];
    } catch (error) {
      return [];
    }
  }

  function explainInput(said, name, word) {
    const params = mainParams(said.text), cut = word.indexOf("=");
    const given = cut < 0 ? word : word.slice(0, cut), value = cut < 0 ? "" : word.slice(cut + 1);
    const param = params.find((it) => it.name === given), kind = param ? param.kind : "int";
    const wanted = "wanted is " + (VALUES[kind] || kind);
    if (name === "MissingInput") {
      said.cause("the parameter " + word + " of main has no input: a word " + word + "=VALUE gives it one");
      said.line(wanted);
    } else if (name === "UnknownInput") {
      said.cause(cut < 0 ? "`" + word + "` is no word NAME=VALUE" : "main has no parameter " + given);
      const told = params.map((it) => it.name + ": " + it.kind).join(", ");
      said.line(params.length ? "its parameters are " + told : "it has no parameters, and so takes no words");
      const meant = near(given, params.map((it) => it.name));
      said.tip(meant && "perhaps " + meant + "=" + value);
    } else if (name === "RepeatedInput") {
      said.cause("a second word for the parameter " + given + ": `" + word + "`");
    } else {
      said.cause("`" + value + "` is no value of the parameter " + given + ": " + kind);
      said.line(wanted);
      const lower = value.toLowerCase();
      if (kind === "bool" && ["true", "false"].includes(lower)) said.tip("it is written " + lower);
    }
  }

  function explainCharacter(said) {
    const sign = [...said.text.slice(said.at, said.at + 4)].slice(0, 2);
    if (!sign.length) return said.cause("no token begins with this character");
    const shown = /^[\p{C}\p{Z}]$/u.test(sign[0]) ? "this character" : "`" + sign[0] + "`";
    const number = sign[0].codePointAt(0).toString(16).toUpperCase().padStart(4, "0");
    said.cause("no token begins with " + shown + (sign[0] > " " && sign[0] <= "~" ? "" : ", U+" + number));
    said.tip(ofCharacter(said.table, sign));
  }

  const BY_NAME = {
    Unexpected: explainToken, Unknown: explainName, Duplicate: explainSecond, WrongCount: explainCount,
    BadByte: explainCharacter,
  };

  function explain(text, line, hints) {
    const heard = /^refused (?:\d+ )?([A-Za-z]+)(?: (.*))?$/.exec(line.replace(/\r?\n$/, ""));
    if (!heard) return null;
    const table = hints || api.hints, [, name, rest = ""] = heard;
    const place = /^at (\d{1,9}):(\d{1,9})(?: wanted (.+) found (.+))?$/.exec(rest);
    const said = new Said(table, text, place ? placeIn(text, Number(place[1]), Number(place[2])) : null);
    const known = Object.prototype.hasOwnProperty.call(table.causes, name) ? table.causes[name] : null;
    try {
      if (name === "File") {
        said.cause("the file can't be read, or isn't UTF-8");
      } else if (name.endsWith("Input")) {
        explainInput(said, name, rest);
      } else if (name === "NoMain") {
        said.cause(known);
        const meant = near("main", treeOf(text).parts.map((it) => it.name));
        said.tip(meant && "perhaps " + meant + " is meant");
      } else if (said.at === null) {
        said.cause(known || line);
      } else if (name === "WrongKind") {
        explainKind(said, place[3] || "another kind", place[4] || "none such");
      } else if (Object.prototype.hasOwnProperty.call(BY_NAME, name)) {
        BY_NAME[name](said);
      } else {
        said.cause(known || line);
      }
    } catch (error) {
      if (!(error instanceof Refused)) throw error;
      said.cause(line + ", but that was said of another text");
      [said.at, said.mark, said.length, said.lines] = [null, null, 0, []];
    }
    return said.result();
  }

  function warnings(text, hints) {
    const table = hints || api.hints, words = table.warnings, found = [];
    let program;
    try {
      program = treeOf(text);
    } catch (error) {
      if (error instanceof Refused) return [];
      throw error;
    }
    const needs = new Needs(program), told = new Set(), outer = outerOf(program);
    const others = (circle) => {
      const names = circle.slice(1, 6).map((it) => it.name + " (" + lineCol(text, it.at).join(":") + ")");
      return names.concat(circle.length > 6 ? [circle.length - 6 + " more"] : []).join(" and ");
    };
    const add = (at, message, hint) => {
      const said = new Said(table, text, at);
      said.cause(message);
      said.tip(hint);
      found.push(said.result());
    };
    for (const circle of needs.circles()) {
      circle.forEach((it) => told.add(it));
      const it = circle[0], above = roundIt(it, outer), loops = isLoop(above[above.length - 1]);
      const fill = { name: it.name, where: loops ? "iteration" : "block", others: others(circle) };
      const outside = scopesOf(node("next", it.at, it.name), above);
      const variable = loops && outside.some((scope) => scope.some((one) => one.name === it.name));
      let hint = variable ? filled(words.next, { value: valueOf(text, it) }) : words.other;
      if (circle.length > 1) hint = loops ? words["others next"] : words.others;
      add(it.at, filled(circle.length > 1 ? words.circle : words.itself, fill), filled(hint, fill));
    }
    for (const circle of needs.endless()) {
      const fill = { name: circle[0].name, others: others(circle) };
      add(circle[0].at, filled(circle.length > 1 ? words["endless circle"] : words.endless, fill), words.base);
    }
    for (const [loop, outside] of needs.sameInEach()) {
      const isTold = (it) => told.has(it) && outside.some((name) => name.name === it.name);
      if (!loop.statements.some(isTold)) add(loop.at, words.same, filled(words.turn, { name: outside[0].name }));
    }
    for (const [it, loop, first, use] of needs.lost()) {
      const line = (at) => String(lineCol(text, at.at)[0]), holder = outer.get(loop);
      const fill = { name: it.name, last: lastOf(text, loop), first: line(first), use: line(use) };
      fill.bound = holder.form === "binding" ? holder.name : words.bound;
      add(it.at, filled(words.lost, fill), filled(words["hand out"], fill));
    }
    for (const it of outer.keys()) {
      if (it.form === "loop" && it.parts[0].name === "true") add(it.at, words.always, words.until);
    }
    return found.sort((a, b) => a.at - b.at);
  }

  const api = { explain, warnings, hints: null };
  return api;
})();

if (typeof module !== "undefined") {
  idExplain.hints = JSON.parse(require("fs").readFileSync(require("path").join(__dirname, "..", "hints.json"), "utf8"));
  module.exports = idExplain;
}
