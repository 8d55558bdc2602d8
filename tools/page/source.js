// A text's things by place, what `idc facts` and `idc why` print of them, and paths in words, as tools/sourced.py and
// tools/paths.py have them: there stands what counts. A plain script: it makes one global, `idSource`. Nothing here is
// proved.
//
// A thing is { node, path }: a part of the text at a path, as `/2:48/5:6#3`.
"use strict";
var idSource = (function () {
  const { treeOf, outerOf } = typeof idReading !== "undefined" ? idReading : require("./reading.js");
  const FACT = /^(?:on|has) (\S*@\d+:\d+)(?: = (.+))?$/, SHAPE = /^shape (\S+) (-?\d+)\.\.(-?\d+)$/;
  const LACK = /^waits (\S+) for(?: (.+?) of)? (.+)$/, ROUNDS = [300, 1000, 3000, 10000];
  const NAMES = { conditional: "if", loop: "the loop", for: "the loop", block: "the block", array: "array" };
  const MOST = 3; // steps of a path that are told one by one

  const above = (path) => path.slice(0, path.lastIndexOf("/"));
  const last = (path) => path.slice(path.lastIndexOf("/") + 1);
  const without = (path, count) => (count ? without(above(path), count - 1) : path);

  // The place of each thing of a text, `L:C`.
  function placesOf(text, nodes) {
    const found = new Map(), encoder = new TextEncoder();
    let line = 1, start = 0, at = 0;
    for (const node of [...nodes].sort((a, b) => a.at - b.at)) {
      for (; at < node.at; at++) if (text[at] === "\n") [line, start] = [line + 1, at + 1];
      found.set(node, `${line}:${encoder.encode(text.slice(start, node.at)).length + 1}`);
    }
    return found;
  }

  class Source {
    constructor(text) {
      this.outer = outerOf(treeOf(text));
      this.places = placesOf(text, this.outer.keys());
      this.nodes = new Map([...this.places].filter(([node]) => node.form !== "program").map(([it, at]) => [at, it]));
      const heads = [...this.outer.keys()].filter((it) => it.form === "definition");
      this.procedures = new Map(heads.reverse().map((it) => [it.name, it]));
      this.read([]);
    }

    // Takes the lines of some facts: what is on, the values, and the bounds of arrays.
    read(lines) {
      Object.assign(this, { on: new Set(), has: new Map(), shapes: new Map() });
      let it;
      for (const line of lines) {
        if ((it = FACT.exec(line))) {
          this.on.add(it[1]);
          if (it[2] && !this.has.has(it[1])) this.has.set(it[1], it[2]);
        } else if ((it = SHAPE.exec(line))) this.shapes.set(it[1], [it[2], it[3]]);
      }
    }

    // What lacks a value, as the program tells it, once no facts are new: of each thing, by its key, the cells that it
    // asks for, and what it waits for. Null where more rounds had more facts. Reads the facts of that round too.
    async lacks(ask) {
      for (const rounds of ROUNDS) {
        const lines = await ask("why", rounds);
        if (!lines.length) return new Map();
        if (lines[lines.length - 1].startsWith("more facts")) continue;
        this.read(await ask("facts", rounds));
        const every = (sites) => (sites === "none" ? [] : sites.split(" ").map((it) => this.thing(it)));
        const found = lines.map((line) => LACK.exec(line)).filter(Boolean);
        return new Map(found.map(([, site, cells, sites]) => [site, { cells, needs: every(sites) }]));
      }
      return null;
    }

    key({ node, path }) {
      return `${path}@${this.places.get(node)}`;
    }

    // The thing of a path and a place, as `/5:6#0@7:2`.
    thing(site) {
      const at = site.indexOf("@");
      return { path: site.slice(0, at), node: this.nodes.get(site.slice(at + 1)) };
    }

    // The value of a thing; of a store, of what it stores.
    value({ node, path }) {
      return this.has.get(this.key({ node: node.form === "store" ? node.parts[2] : node, path }));
    }

    nameOf({ node, path }) {
      if (!["fetch", "store"].includes(node.form)) return NAMES[node.form] || node.name;
      const target = node.parts[0].form === "name" ? node.parts[0].name : "(..)";
      return `${target}[${this.value({ node: node.parts[1], path }) || ".."}]`;
    }

    // A thing in words, and what is said of its value; without its path where that is the one given.
    called(thing, of = "", path = null) {
      if (thing.node.form === "literal") return thing.node.name + of;
      const words = thing.path === path ? "" : this.inWords(thing.path);
      return `${this.nameOf(thing)}${of} (${this.places.get(thing.node)})${words ? " " + words : ""}`;
    }

    // The last step of a path, in words.
    stepInWords(path) {
      const [place, turn] = last(path).split("#"), call = this.nodes.get(place);
      if (turn !== undefined) return `iteration ${turn} of the loop at line ${place.split(":")[0]}`;
      const { params } = this.procedures.get(call.name);
      const given = params.map((node) => [node.name, this.has.get(this.key({ node, path }))]);
      const shown = given.filter(([, value]) => value && !value.includes("@"));
      if (!shown.length) return `${call.name}(${params.length ? ".." : ""})`;
      if (params.length === 1) return `${call.name}(${given[0][1]})`;
      return `${call.name}(${shown.map(([name, value]) => `${name}=${value}`).join(", ")})`;
    }

    // A path in words, the inner step first; nothing of main's own.
    inWords(path) {
      const steps = path.split("/").slice(1);
      if (!steps.length) return "";
      if (steps.length <= MOST) return "in " + steps.map((_, up) => this.stepInWords(without(path, up))).join(", ");
      const inner = [this.stepInWords(path)], kind = path.includes("#") ? "steps" : "calls";
      if (last(path).includes("#")) inner.push(this.stepInWords(above(path)));
      return `in ${inner.join(", ")}, ${steps.length} ${kind} below main`;
    }
  }

  return { Source, above, last };
})();

if (typeof module !== "undefined") module.exports = idSource;
