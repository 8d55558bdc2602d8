// A text's tokens and tree, by the grammar of docs/LANGUAGE.md, as tools/reading.py has them; the program alone decides
// what is refused. A plain script: it makes one global, `idReading`. Places are indexes of a string.
"use strict";
var idReading = (function () {
  const END = "the end";
  const RESERVED = new Set(
    "def if then else while do next finally in true false int bool array div rem and or not for to".split(" ")
  );
  const COMPARISONS = ["==", "<>", "<", "<=", ">", ">="];
  const KINDS = ["int", "bool", "array"];
  const LEVELS = [["or"], ["and"], null, COMPARISONS, ["+", "-"], ["*", "div", "rem"]];
  const BINDERS = ["binding", "next", "parameter", "index"];
  const EACH = [...RESERVED].sort().concat(
    "( ) { } [ ] , ; : = == <> < <= > >= <- + - *".split(" "), ["name", "number", END]
  );

  // ---- tokens and trees, as tools/reading.py has them

  class Refused extends Error {
    constructor(number) {
      super("refused");
      this.number = number;
    }
  }

  // The tokens up to the end, or up to the first character that begins none.
  function tokensOf(text) {
    const piece = /[ \t\r\n]+|%[^\n]*|[A-Za-z_][A-Za-z_0-9]*|[0-9]+|==|<>|<=|>=|<-|[(){}[\],;:=<>+*-]/y;
    const found = [];
    let at = 0;
    while (at < text.length) {
      piece.lastIndex = at;
      const match = piece.exec(text);
      if (!match) break;
      const word = match[0];
      if (!/^[ \t\r\n%]/.test(word)) {
        let kind = /^[0-9]/.test(word) ? "number" : word;
        if (!RESERVED.has(word) && /^[A-Za-z_]/.test(word)) kind = "name";
        found.push({ kind, text: word, at });
      }
      at += word.length;
    }
    found.push({ kind: END, text: "", at });
    return found;
  }

  function node(form, at, name = null, parts = [], statements = [], params = [], kind = null) {
    return { form, at, name, parts, statements, params, kind };
  }

  const below = (it) => it.params.concat(it.statements, it.parts);

  // One function for each production; each stops at the first token after which no program goes on.
  class Parser {
    constructor(tokens) {
      this.tokens = tokens;
      this.number = 0;
    }

    get kind() {
      return this.tokens[this.number].kind;
    }

    take(...kinds) {
      if (!kinds.includes(this.kind)) throw new Refused(this.number);
      this.number += 1;
      return this.tokens[this.number - 1];
    }

    program() {
      const found = [];
      while (this.kind === "def" || (!found.length && this.kind === END)) {
        if (this.kind === END) return node("program", 0);
        found.push(this.definition());
      }
      this.take(END);
      return node("program", 0, null, found);
    }

    definition() {
      this.take("def");
      const name = this.take("name"), params = [];
      this.take("(");
      if (this.kind !== ")") {
        params.push(this.param());
        while (this.kind === ",") {
          this.take(",");
          params.push(this.param());
        }
      }
      this.take(")");
      this.take(":");
      const kind = this.kindWord();
      this.take("=");
      const body = this.expr();
      this.take(";");
      return node("definition", name.at, name.text, [body], [], params, kind);
    }

    param() {
      const name = this.take("name");
      this.take(":");
      return node("parameter", name.at, name.text, [], [], [], this.kindWord());
    }

    kindWord() {
      const kind = this.take(...KINDS).text;
      if (kind !== "array" || this.kind !== "array") return kind;
      this.take("array");
      return "array array";
    }

    expr() {
      if (this.kind !== "if") return this.level(0);
      const head = this.take("if"), predicate = this.expr();
      this.take("then");
      const chosen = this.expr();
      this.take("else");
      return node("conditional", head.at, "if", [predicate, chosen, this.expr()]);
    }

    level(depth) {
      if (depth === LEVELS.length) return this.unary();
      if (LEVELS[depth] === null) {
        if (this.kind !== "not") return this.level(depth + 1);
        const head = this.take("not");
        return node("unary", head.at, "not", [this.level(depth)]);
      }
      let left = this.level(depth + 1);
      while (LEVELS[depth].includes(this.kind)) {
        const sign = this.take(...LEVELS[depth]);
        left = node("binary", sign.at, sign.text, [left, this.level(depth + 1)]);
        if (depth === 3) break;
      }
      return left;
    }

    unary() {
      if (this.kind === "-") {
        const head = this.take("-");
        return node("unary", head.at, "-", [this.unary()]);
      }
      let found = this.atom();
      while (this.kind === "[") {
        const head = this.take("[");
        found = node("fetch", head.at, "[", [found, this.expr()]);
        this.take("]");
      }
      return found;
    }

    atom() {
      const head = this.take("number", "true", "false", "name", "array", "(", "{");
      if (["number", "true", "false"].includes(head.kind)) return node("literal", head.at, head.text);
      if (head.kind === "(") {
        const found = this.expr();
        this.take(")");
        return found;
      }
      if (head.kind === "array") {
        if (this.kind === "array") this.take("array");
        this.take("(");
        const low = this.expr();
        this.take(",");
        const high = this.expr();
        this.take(")");
        return node("array", head.at, "array", [low, high]);
      }
      if (head.kind === "{") {
        if (this.kind === "while") return this.loop(head);
        return this.kind === "for" ? this.count(head) : this.block(head);
      }
      if (this.kind !== "(") return node("name", head.at, head.text);
      this.take("(");
      const found = [];
      if (this.kind !== ")") {
        found.push(this.expr());
        while (this.kind === ",") {
          this.take(",");
          found.push(this.expr());
        }
      }
      this.take(")");
      return node("call", head.at, head.text, found);
    }

    block(head) {
      const statements = [];
      while (this.kind === "name") statements.push(this.statement());
      this.take("in");
      const body = this.expr();
      this.take("}");
      return node("block", head.at, "{", [body], statements);
    }

    loop(head) {
      this.take("while");
      const predicate = this.expr(), [statements, last] = this.turns();
      return node("loop", head.at, "{", [predicate, last], statements);
    }

    count(head) {
      this.take("for");
      const name = this.take("name");
      this.take("<-");
      const low = this.expr();
      this.take("to");
      const high = this.expr(), [statements, last] = this.turns();
      return node("for", head.at, "{", [low, high, last], statements, [node("index", name.at, name.text)]);
    }

    // What a loop has behind its predicate or its bounds: its statements, and its last expression.
    turns() {
      const statements = [];
      this.take("do");
      while (["name", "next"].includes(this.kind)) {
        statements.push(this.kind === "next" ? this.next() : this.statement());
      }
      this.take("finally");
      const last = this.expr();
      this.take("}");
      return [statements, last];
    }

    next() {
      const head = this.take("next"), name = this.take("name").text;
      this.take("=");
      return this.ended(node("next", head.at, name, [this.expr()]));
    }

    statement() {
      const name = this.take("name");
      if (this.kind === "[") {
        let target = node("name", name.at, name.text), head = this.take("["), index = this.expr();
        this.take("]");
        if (this.kind === "[") {
          target = node("fetch", head.at, "[", [target, index]);
          head = this.take("[");
          index = this.expr();
          this.take("]");
        }
        this.take("=");
        return this.ended(node("store", head.at, "[", [target, index, this.expr()]));
      }
      this.take("=");
      return this.ended(node("binding", name.at, name.text, [this.expr()]));
    }

    ended(it) {
      this.take(";");
      return it;
    }
  }

  const treeOf = (text) => new Parser(tokensOf(text)).program();

  // The kinds of tokens with which a program goes on behind the first so many.
  function expected(tokens, number) {
    return EACH.filter((kind) => {
      const nothing = { kind: "nothing", text: "", at: 0 };
      try {
        new Parser([...tokens.slice(0, number), { kind, text: "", at: 0 }, nothing]).program();
        return true;
      } catch (error) {
        return !(error instanceof Refused) || error.number > number;
      }
    });
  }

  // Each thing of a tree, in the text's order but for operators, and the one that it stands in.
  function outerOf(tree) {
    const found = new Map(), left = [[tree, null]];
    while (left.length) {
      const [it, outer] = left.pop();
      found.set(it, outer);
      for (const part of below(it).reverse()) left.push([part, it]);
    }
    return found;
  }

  // The things round a thing, the innermost last.
  function roundIt(it, outer) {
    const found = [];
    for (let at = outer.get(it); at; at = outer.get(at)) found.push(at);
    return found.reverse();
  }

  const things = (tree) => [...outerOf(tree).keys()];

  const boundsOf = (it) => (it.form === "for" ? it.parts.slice(0, 2) : []);
  const isLoop = (it) => it.form === "loop" || it.form === "for";

  // The scopes of a use, innermost first: lists of the binders that are seen there.
  function scopesOf(use, above) {
    const found = [];
    let under = use;
    for (const outer of [...above].reverse()) {
      const isFirst = use.form === "next" && use === under;
      if (outer.form === "block") {
        found.push(outer.statements.filter((it) => it.form === "binding"));
      } else if (isLoop(outer) && !boundsOf(outer).includes(under) && !isFirst) {
        const body = outer.params.concat(outer.statements.filter((it) => it.form !== "store"));
        found.push(outer.statements.includes(under) ? body : outer.statements.filter((it) => it.form === "next"));
      } else if (outer.form === "definition") {
        found.push(outer.params);
      }
      under = outer;
    }
    return found;
  }

  // The binder, or null, that each use of a name, and the first value of each next, means.
  function usesOf(program) {
    const found = new Map();
    const seen = (binders) => new Map([...binders].reverse().map((it) => [it.name, it]));
    function meant(name, scopes) {
      for (let i = scopes.length - 1; i >= 0; i--) if (scopes[i].has(name)) return scopes[i].get(name);
      return null;
    }
    function go(it, scopes) {
      let inside = scopes;
      if (it.form === "name") found.set(it, meant(it.name, scopes));
      if (it.form === "definition") inside = scopes.concat([seen(it.params)]);
      if (it.form === "block") {
        inside = scopes.concat([seen(it.statements.filter((at) => at.form === "binding"))]);
      }
      if (isLoop(it)) {
        const turns = it.statements.filter((at) => at.form === "next"), bounds = boundsOf(it);
        for (const at of turns) found.set(at, meant(at.name, scopes));
        const body = scopes.concat([seen(it.params.concat(it.statements.filter((at) => at.form !== "store")))]);
        const outer = scopes.concat([seen(turns)]);
        for (const at of it.statements) go(at, body);
        for (const at of it.parts) go(at, bounds.includes(at) ? scopes : outer);
        return;
      }
      for (const at of it.statements.concat(it.parts)) go(at, inside);
    }
    for (const it of program.parts) go(it, []);
    return found;
  }

  // ---- places: idc counts bytes, a string has units of 16 bits

  const bytesOf = (sign) => {
    const code = sign.codePointAt(0);
    return code < 0x80 ? 1 : code < 0x800 ? 2 : code < 0x10000 ? 3 : 4;
  };

  // The line and column, in bytes, of an index.
  function lineCol(text, at) {
    const start = text.lastIndexOf("\n", at - 1) + 1;
    let column = 1;
    for (const sign of text.slice(at ? start : 0, at)) column += bytesOf(sign);
    return [text.slice(0, at).split("\n").length, column];
  }

  // The index of a line and column, or null where the text has no such place.
  function placeIn(text, line, column) {
    const lines = text.split("\n");
    if (line < 1 || line > lines.length) return null;
    let at = lines.slice(0, line - 1).reduce((sum, it) => sum + it.length + 1, 0), left = column - 1;
    for (const sign of lines[line - 1] + "\n") {
      if (left <= 0 || at >= text.length) break;
      left -= bytesOf(sign);
      at += sign.length;
    }
    const [row, col] = lineCol(text, at);
    return row === line && col === column ? at : null;
  }

  return {
    END, RESERVED, COMPARISONS, KINDS, BINDERS, EACH, Refused, tokensOf, node, treeOf, expected, outerOf, roundIt,
    things, boundsOf, isLoop, scopesOf, usesOf, below, lineCol, placeIn,
  };
})();

if (typeof module !== "undefined") module.exports = idReading;
