// Names that surely never get a value, and variables that a loop does not hand out, as tools/needing.py has them: there
// stands what counts. A plain script: it makes one global, `idNeeding`.
"use strict";
var idNeeding = (function () {
  const reading = typeof idReading !== "undefined" ? idReading : require("./reading.js");
  const { outerOf, things, boundsOf, isLoop, usesOf } = reading;

  const union = (sets) => {
    const found = new Set();
    for (const set of sets) for (const it of set) found.add(it);
    return found;
  };
  const both = (one, other) => new Set([...one].filter((it) => other.has(it)));

  class Needs {
    constructor(program) {
      this.program = program;
      this.uses = usesOf(program);
      this.usesBy = new Map(); // where each binder is used
      for (const [it, binder] of this.uses) {
        if (!this.usesBy.has(binder)) this.usesBy.set(binder, []);
        this.usesBy.get(binder).push(it);
      }
      this.procedures = new Map([...program.parts].reverse().map((it) => [it.name, it]));
      this.callers = new Map([...this.procedures.keys()].map((name) => [name, new Set()]));
      for (const head of this.procedures.values()) {
        for (const it of things(head)) {
          if (it.form === "call" && this.callers.has(it.name)) this.callers.get(it.name).add(head.name);
        }
      }
      // the parameters that a procedure's body needs: all at first, and then fewer, until each stands by the others
      this.strict = new Map([...this.procedures].map(([name, head]) => [name, new Set(head.params)]));
      this.settle((name) => this.isLessStrict(name));
      this.memo = new Map();
    }

    // Asks of each procedure whether it changes, and, where one did, of its callers again.
    settle(changes) {
      const left = new Set(this.procedures.keys());
      while (left.size) {
        const name = left.values().next().value;
        left.delete(name);
        if (changes(name)) for (const it of this.callers.get(name)) left.add(it);
      }
    }

    isLessStrict(name) {
      this.memo = new Map();
      const before = this.strict.get(name), now = both(before, this.needs(this.procedures.get(name).parts[0]));
      this.strict.set(name, now);
      return now.size !== before.size;
    }

    // The binders that an expression needs, those of its own blocks among them.
    needs(it) {
      if (!this.memo.has(it)) this.memo.set(it, this.found(it));
      return this.memo.get(it);
    }

    all(nodes) {
      return union(nodes.map((it) => this.needs(it)));
    }

    found(it) {
      if (it.form === "literal") return new Set();
      if (it.form === "name") return new Set(this.uses.get(it) ? [this.uses.get(it)] : []);
      if (it.form === "conditional") {
        const [predicate, yes, no] = it.parts.map((part) => this.needs(part));
        return union([predicate, both(yes, no)]);
      }
      if (it.form === "call") {
        const head = this.procedures.get(it.name), strict = this.strict.get(it.name);
        return this.all(it.parts.filter((_, i) => head && strict.has(head.params[i])));
      }
      if (isLoop(it)) return this.loop(it);
      const found = this.all(it.parts);
      return it.form === "block" ? this.closed(found, it) : found;
    }

    // Binders, with what those of them need that are statements of a block or a loop.
    closed(binders, outer) {
      const own = new Set(outer.statements.filter((it) => it.form === "binding"));
      const found = new Set(binders), left = [...both(binders, own)];
      while (left.length) {
        for (const it of this.needs(left.pop().parts[0])) {
          if (found.has(it)) continue;
          found.add(it);
          if (own.has(it)) left.push(it);
        }
      }
      return found;
    }

    // What a loop needs of what stands outside of it.
    loop(it) {
      const inside = new Set(it.params.concat(it.statements));
      const turns = new Set(it.statements.filter((at) => at.form === "next"));
      const outer = (binders, kept) => {
        const found = new Set([...binders].filter((at) => !inside.has(at)));
        for (const at of binders) if (kept.has(at) && this.uses.get(at)) found.add(this.uses.get(at));
        return found;
      };
      const further = new Map([...turns].map((at) => [at, this.closed(this.needs(at.parts[0]), it)]));
      let keeps = turns, before = -1; // the variables each of whose values needs the first one
      while (keeps.size !== before) {
        before = keeps.size;
        const kept = keeps;
        keeps = new Set([...kept].filter((at) => outer(further.get(at), kept).has(this.uses.get(at))));
      }
      if (it.form === "for") return union([this.all(boundsOf(it)), outer(this.needs(it.parts[2]), keeps)]);
      return union([outer(this.needs(it.parts[0]), turns), outer(this.needs(it.parts[1]), keeps)]);
    }

    // The bindings that need themselves, in lists by circle, each by place, the lists too.
    circles() {
      const graph = new Map();
      for (const head of this.procedures.values()) {
        for (const it of things(head)) {
          if (it.form !== "binding") continue;
          graph.set(it, [...this.needs(it.parts[0])].filter((at) => at.form === "binding"));
        }
      }
      return byPlace(circlesOf(graph));
    }

    // The procedures that never give a value and lead to themselves, by place.
    endless() {
      const ends = new Set();
      const gives = (it) => {
        if (it.form === "conditional") return gives(it.parts[0]) && (gives(it.parts[1]) || gives(it.parts[2]));
        if (it.form === "call" && this.procedures.has(it.name)) {
          const { params } = this.procedures.get(it.name), strict = this.strict.get(it.name);
          return ends.has(it.name) && it.parts.every((part, i) => !strict.has(params[i]) || gives(part));
        }
        return it.parts.every(gives);
      };
      this.settle((name) => {
        if (ends.has(name) || !gives(this.procedures.get(name).parts[0])) return false;
        ends.add(name);
        return true;
      });
      const never = [...this.procedures.values()].filter((it) => !ends.has(it.name));
      const calls = (it) => never.filter((callee) => this.callers.get(callee.name).has(it.name));
      return byPlace(circlesOf(new Map(never.map((it) => [it, calls(it)]))));
    }

    // The loops whose predicate names something, but no variable of the loop, by place.
    sameInEach() {
      const found = [];
      for (const it of things(this.program)) {
        if (it.form !== "loop") continue;
        const inside = outerOf(it.parts[0]), own = new Set(it.statements);
        const names = [...inside.keys()].map((at) => this.uses.get(at)).filter((at) => at && !inside.has(at));
        if (names.length && !names.some((at) => own.has(at))) found.push([it, names]);
      }
      return found;
    }

    // The binders of a loop from which a way leads to what it hands out or does.
    leads(loop) {
      const inside = outerOf(loop), does = (it) => things(it).some((at) => DOES.includes(at.form)), found = new Set();
      const left = loop.parts.filter((it) => !boundsOf(loop).includes(it)).concat(loop.statements.filter(does));
      while (left.length) {
        for (const it of things(left.pop())) {
          const binder = this.uses.get(it);
          if (!binder || !inside.has(binder) || found.has(binder)) continue;
          found.add(binder);
          left.push(...binder.parts);
        }
      }
      return found;
    }

    // The variables of loops that lead to nothing, where the outer name of one is used behind the loop: each with its
    // loop, the outer binder, and the first such use.
    lost() {
      const found = [];
      for (const loop of things(this.program).filter(isLoop)) {
        const inside = outerOf(loop);
        let leads = null;
        for (const it of loop.statements.filter((at) => at.form === "next")) {
          const outer = this.uses.get(it), uses = this.usesBy.get(outer) || [];
          const behind = uses.filter((at) => at.at > loop.at && !inside.has(at));
          if (!behind.length) continue;
          leads = leads || this.leads(loop);
          if (!leads.has(it)) found.push([it, loop, outer, behind.reduce((a, b) => (b.at < a.at ? b : a))]);
        }
      }
      return found;
    }
  }

  const DOES = ["store", "call", "array"];
  const byPlace = (circles) =>
    circles.map((it) => it.sort((a, b) => a.at - b.at)).sort((a, b) => a[0].at - b[0].at);

  // The lists of those in a graph that lead to one another, or of one that leads to itself (Tarjan's algorithm).
  function circlesOf(graph) {
    const order = new Map(), low = new Map(), stack = [], on = new Set(), found = [], work = [];
    const begin = (it) => {
      order.set(it, order.size);
      low.set(it, order.get(it));
      stack.push(it);
      on.add(it);
      work.push([it, 0]);
    };
    const lower = (it, number) => low.set(it, Math.min(low.get(it), number));
    for (const root of graph.keys()) {
      if (!order.has(root)) begin(root);
      while (work.length) {
        const top = work[work.length - 1], [it, number] = top, next = graph.get(it)[number];
        top[1] += 1;
        if (next !== undefined) {
          if (!order.has(next)) begin(next);
          else if (on.has(next)) lower(it, order.get(next));
          continue;
        }
        work.pop();
        if (work.length) lower(work[work.length - 1][0], low.get(it));
        if (low.get(it) !== order.get(it)) continue;
        const circle = [];
        do {
          circle.push(stack.pop());
          on.delete(circle[circle.length - 1]);
        } while (circle[circle.length - 1] !== it);
        if (circle.length > 1 || graph.get(it).includes(it)) found.push(circle);
      }
    }
    return found;
  }

  return { Needs };
})();

if (typeof module !== "undefined") module.exports = idNeeding;
