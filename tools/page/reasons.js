// What a run without an answer waits for, and the values of a fault, line by line, as tools/why and tools/at-fault say
// it: there stands what counts. A plain script: it makes one global, `idReasons`, with
//
//   idReasons.why(text, lines, ask)             of a run's report, in lines
//   idReasons.atFault(text, line, ask, depth)   of its first line, `fault ..`
//
// which promise lines of text, where ask(command, rounds) promises the lines of `idc why` and `idc facts`. Nothing here
// is proved.
"use strict";
var idReasons = (function () {
  const { Source, above, last } = typeof idSource !== "undefined" ? idSource : require("./source.js");
  const { BINDERS } = typeof idReading !== "undefined" ? idReading : require("./reading.js");
  const WIDE = 120, MOST = { rounds: 10000, fault: 8192, names: 12 };
  const HANDS_ON = ["name", "block", "call", "conditional", "loop", "for"];
  const OF = { conditional: " its predicate", loop: " its predicate", for: " its bounds" };
  const DECIDE = { conditional: 1, loop: 1, for: 2 }; // how many of the first parts
  const counted = (number) => String(number).replace(/\B(?=(\d{3})+$)/g, ",");

  // ---- what waits

  class Waits {
    constructor(source, lacks) {
      const reached = new Set([...source.on].map((site) => site.slice(site.indexOf("@") + 1)));
      const stores = [...source.nodes].filter(([, it]) => it.form === "store");
      const never = stores.filter(([place]) => !reached.has(place)).sort(([, a], [, b]) => a.at - b.at);
      Object.assign(this, { source, lacks, told: new Set(), chain: [], lines: [], never: never.map(([it]) => it) });
    }

    of(thing) {
      return this.lacks.get(this.source.key(thing));
    }

    // What a thing's value is handed on from without a change: behind names, blocks, calls, and decided arms.
    settled(thing) {
      for (;;) {
        const { node } = thing, { needs } = this.of(thing), decide = node.parts.slice(0, DECIDE[node.form] || 0);
        if (!HANDS_ON.includes(node.form) || needs.length !== 1 || decide.includes(needs[0].node)) return thing;
        thing = needs[0];
        if (node.form === "name") return thing;
      }
    }

    // Says what a thing without a value waits for, and of that the same; or that it closes a circle.
    follow(thing) {
      const { source } = this, key = source.key(thing), at = this.chain.findIndex((it) => source.key(it) === key);
      if (at >= 0) this.circle(this.chain.slice(at));
      else if (!this.told.has(key)) {
        this.told.add(key);
        this.chain.push(thing);
        for (const it of this.of(thing).cells ? this.cell(thing) : this.tell(thing)) this.follow(it);
        this.chain.pop();
      }
    }

    // Says what a thing waits for, and gives these.
    tell(thing) {
      const { source } = this, { node, path } = thing, tells = ["binary", "array", "fetch"].includes(node.form);
      const has = (tells ? node.parts : []).map((it) => source.value({ node: it, path })).filter(Boolean);
      const waits = this.of(thing).needs.map((it) => this.settled(it));
      const called = waits.map((it) => source.called(it, "", path)).join(" and "), given = has.join(" and ");
      const so = given ? ` has ${given}, and` : "";
      this.lines.push(`${source.called(thing)}${so} waits for${OF[node.form] || ""} ${called}`);
      return waits;
    }

    // Says of a fetch that its cell is empty, and gives the stores that are for this cell, or might be.
    * cell(thing) {
      const { source } = this, { cells, needs } = this.of(thing), name = source.called(thing);
      for (const store of needs) {
        const isOpen = this.of(store).needs.some((it) => store.node.parts.slice(0, 2).includes(it.node));
        const lacks = isOpen ? "may be for it, and has no index, or no array, yet" : "has no value to store";
        this.lines.push(`${name}: its store ${source.called(store, "", thing.path)} ${lacks}`);
        yield store;
      }
      if (!needs.length) this.lines.push(`${name}: no store for the cell ${cells} was reached${this.others()}`);
    }

    // The stores of the text that were reached at no path, in words.
    others() {
      const { never } = this, more = never.length > 3 ? ", .." : "", s = never.length > 1 ? "s" : "";
      return never.length ? `; the store${s} at ${never.slice(0, 3).join(" and ")}${more} never was` : "";
    }

    circle(circle) {
      const names = circle.map((it) => this.source.called(it));
      const line = names.length > 1 ? `a circle: ${names.join(", ")}` : `a circle: ${names[0]} waits for itself`;
      if (line.length <= WIDE) this.lines.push(line);
      else this.lines.push("a circle, each of the next:", ...names.map((it) => "  " + it));
    }
  }

  // Of a run that was stopped: what goes on, and its first paths, by the longest path of 60 rounds.
  async function endless(source, ask) {
    source.read(await ask("facts", 60));
    const order = (a, b) => a.split("/").length - b.split("/").length;
    const paths = [...new Set([...source.on].map((it) => it.slice(0, it.indexOf("@"))))].sort();
    const called = (place) => source.called({ node: source.nodes.get(place), path: "" });
    const inWords = (paths) => paths.slice(0, 3).map((it) => source.inWords(it)).join("; ");
    const said = (what, first) => [what, `its first paths: ${inWords(first)}`];
    const longest = paths.reduce((a, b) => (order(b, a) > 0 ? b : a), "").split("/").slice(1);
    const steps = longest.map((it) => it.split("#")[0]), often = (it) => steps.filter((one) => one === it).length;
    const most = [...new Set(steps)].sort().reduce((a, b) => (a && often(a) >= often(b) ? a : b), "");
    if (most && often(most) > 2) {
      const upTo = (at) => "/" + longest.slice(0, at + 1).join("/");
      const first = steps.flatMap((it, at) => (it === most ? [upTo(at)] : []));
      return said(`calls go on without end, it seems: ${called(most)} leads to itself`, first);
    }
    let turn = -1, furthest = "";
    for (const path of paths) {
      const number = Number(last(path).split("#")[1]);
      if (number > turn || (number === turn && order(path, furthest) > 0)) [turn, furthest] = [number, path];
    }
    if (turn < 0) return ["it may only be long: try more steps"];
    const loop = furthest.slice(0, furthest.lastIndexOf("#")), first = [0, 1, 2].map((it) => loop + "#" + it);
    const is = `is in iteration ${turn} after 60 rounds`;
    return said(`a loop goes on without end, it seems: ${called(last(loop))} ${is}`, first);
  }

  async function why(text, report, ask) {
    const source = new Source(text), isNone = report[0] === "answer none";
    if (report[0] === "stopped") return endless(source, ask);
    const fetches = report.map((line) => /^waiting (\S+) of /.exec(line)).filter(Boolean).map((it) => it[1]);
    if (!isNone && !fetches.length) return [];
    const lacks = await source.lacks(ask);
    if (!lacks) return [`its facts go on behind ${counted(MOST.rounds)} rounds, so what waits can't be told`];
    if (!lacks.size) return []; // a program without that command
    const waits = new Waits(source, lacks);
    if (isNone) {
      const root = waits.settled({ node: source.procedures.get("main").parts[0], path: "" });
      waits.lines.push(`the answer waits for ${source.called(root)}`);
      waits.follow(root);
    }
    for (const site of fetches) waits.follow(source.thing(site));
    return waits.lines;
  }

  // ---- the values of a fault

  // The names of a call or an iteration, `n = 3`, by place.
  function namesAt(source, path) {
    const here = [...source.has].filter(([site]) => site.slice(0, site.indexOf("@")) === path);
    const named = here.map(([site, value]) => [source.thing(site).node, value])
      .filter(([node]) => BINDERS.includes(node.form)).sort(([a], [b]) => a.at - b.at);
    const more = named.length > MOST.names ? [`${named.length - MOST.names} more`] : [];
    return [...named.slice(0, MOST.names).map(([node, value]) => `${node.name} = ${value}`), ...more].join(", ");
  }

  // A path with what it stands in, so many steps out: of an iteration, the one before it too.
  function outwards(path, depth) {
    const found = [path];
    for (; path && depth; depth -= 1) {
      const [step, turn] = last(path).split("#");
      if (Number(turn)) found.push(`${above(path)}/${step}#${turn - 1}`);
      found.push((path = above(path)));
    }
    return found;
  }

  // The lines of the expressions in a thing, with their values, but for names and what has its value in the text.
  function partsOf(source, { node, path }, deep = 1) {
    const told = node.parts.map((it) => ({ node: it, path })).filter((it) => source.value(it) !== undefined);
    return told.filter((it) => !["name", "literal"].includes(it.node.form)).flatMap((it) => {
      const line = source.called(it, ` = ${source.value(it)}`, path);
      return ["  ".repeat(deep) + line, ...partsOf(source, it, deep + 1)];
    });
  }

  // The line of a thing that fails: its operands' values; of one of two stores what is stored too.
  function failing(source, thing, isSecond) {
    const { node, path } = thing, values = node.parts.map((it) => source.value({ node: it, path }));
    if (["store", "fetch"].includes(node.form)) {
      const shape = source.shapes.get(values[0]), stored = isSecond ? ` stores ${values[2]}` : "";
      const bounds = shape ? `, and the array ${values[0]} has ${shape[0]}..${shape[1]}` : "";
      return `${source.called(thing, stored)}: its index is ${values[1]}${bounds}`;
    }
    if (node.form === "array") return `${source.called(thing)}: its bounds are ${values[0]} and ${values[1]}`;
    return source.called(thing, ` of ${values.join(" and ")}`);
  }

  // Reads the facts of the first round that has all values which failed, of two stores the stored ones; whether.
  async function firstRound(source, things, isSecond, ask) {
    const parts = (node) => node.parts.slice(0, isSecond ? 3 : 2);
    const wanted = things.flatMap(({ node, path }) => parts(node).map((it) => ({ node: it, path })));
    const areThere = async (rounds) => {
      source.read(await ask("facts", rounds));
      return wanted.every((it) => source.value(it) !== undefined);
    };
    let least = 0, most = 16;
    while (!(await areThere(most))) {
      [least, most] = [most, most * 2];
      if (most > MOST.fault) return false;
    }
    while (most - least > 1) {
      const middle = (least + most) >> 1;
      if (await areThere(middle)) most = middle;
      else least = middle;
    }
    source.read(await ask("facts", most));
    return true;
  }

  async function atFault(text, line, ask, depth = 3) {
    const source = new Source(text), found = /^fault .*? at (\S*@\d+:\d+)(?: and (\S*@\d+:\d+))?$/.exec(line);
    if (!found) return [];
    const things = found.slice(1).filter(Boolean).map((site) => source.thing(site)), isSecond = things.length === 2;
    if (!(await firstRound(source, things, isSecond, ask))) {
      return [`the values are not among the facts of ${counted(MOST.fault)} rounds`];
    }
    const lines = [], told = new Set();
    for (const thing of things) {
      lines.push(failing(source, thing, isSecond), ...partsOf(source, thing));
      for (const path of outwards(thing.path, depth)) {
        const names = namesAt(source, path), where = path === thing.path ? "there" : source.inWords(path) || "in main";
        if (names && !told.has(path)) lines.push(`  ${where}: ${names}`);
        told.add(path);
      }
    }
    return lines;
  }

  return { why, atFault };
})();

if (typeof module !== "undefined") module.exports = idReasons;
