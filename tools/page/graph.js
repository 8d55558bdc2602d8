"use strict";
// The graph as a picture, from its listing (docs/GRAPH.md, "Listing"): a frame for each block, in it a box for each
// instruction, below those that send to it, and an arc for each destination.

const drawGraph = (() => {
  const HIGH = 34, ACROSS = 18, BETWEEN = 34, MARGIN = 14, HEAD = 24;

  // A line's instruction: number, operator, constants, place, and destinations on each side.
  function instruction(line) {
    const [head, tail = ""] = line.split(/ ->/), words = head.trim().split(" ");
    const at = words.findIndex((word) => word.startsWith("@"));
    const side = (text) => text.split(" ").filter(Boolean).map((word) => word.split(".").map(Number));
    const [yes, no = ""] = tail.split("|");
    return { number: Number(words[0]), op: words[1], args: words.slice(2, at), place: words[at].slice(1),
      yes: side(yes), no: side(no) };
  }

  // A block begins at the merge of its trigger, behind which its return or its loop's first entry stands.
  function blocksOf(graph) {
    const starts = new Set();
    graph.forEach((instr, number) => {
      const next = graph[number + 1];
      if (instr.op === "enter") starts.add(Number(instr.args[0]));
      if (instr.op === "merge" && instr.args[0] === "signal" && next && next.op === "back") starts.add(number);
    });
    starts.delete(0);
    const order = [...starts].sort((one, other) => one - other);
    return order.map((from, index) => ({ from, to: order[index + 1] || graph.length }));
  }

  // All arcs that are drawn: from, to, the port, and its kind; those of an `enter`, a `send` and a `fetch` too.
  function arcsOf(graph) {
    const found = [];
    graph.forEach((instr, from) => {
      const trigger = instr.op === "merge" && instr.args[0] === "signal";
      instr.yes.forEach(([to, port]) => found.push({ from, to, port, kind: trigger ? "trigger" : "" }));
      instr.no.forEach(([to, port]) => found.push({ from, to, port, kind: "false" }));
      const last = Number(instr.args[instr.args.length - 1]);
      if (instr.op === "enter") found.push({ from, to: Number(instr.args[0]), port: 0, kind: "call" });
      if (instr.op === "send") found.push({ from, to: last, port: 0, kind: "call" });
      if (instr.op === "enter" || instr.op === "fetch") found.push({ from, to: last, port: 0, kind: "reply" });
    });
    return found;
  }

  // The layers of a block's boxes, by the arcs inside that don't lead back, with points where an arc passes a layer.
  function layersOf(block, arcs) {
    const inside = (number) => number >= block.from && number < block.to;
    const own = arcs.filter((arc) => inside(arc.from) && inside(arc.to) && arc.from !== arc.to);
    const below = new Map(), state = new Map(), depth = new Map();
    for (let number = block.from; number < block.to; number++) below.set(number, []);
    own.forEach((arc) => { if (arc.kind !== "trigger") below.get(arc.from).push(arc); });
    // an arc to a box that is still being looked at leads back
    const order = [];
    for (let root = block.from; root < block.to; root++) {
      const todo = state.has(root) ? [] : [[root, 0]];
      state.set(root, state.get(root) || 1);
      while (todo.length) {
        const top = todo[todo.length - 1], arc = below.get(top[0])[top[1]++];
        if (!arc) {
          state.set(top[0], 2);
          order.push(todo.pop()[0]);
        } else if (state.get(arc.to) === 1) arc.isBack = true;
        else if (!state.has(arc.to)) {
          state.set(arc.to, 1);
          todo.push([arc.to, 0]);
        }
      }
    }
    order.reverse();
    order.forEach((number) => depth.set(number, 1));
    depth.set(block.from, 0);
    for (const number of order) {
      for (const arc of below.get(number)) {
        if (!arc.isBack) depth.set(arc.to, Math.max(depth.get(arc.to), depth.get(number) + 1));
      }
    }
    // a constant stands just above what takes it
    for (const number of [...order].reverse()) {
      const forth = below.get(number).filter((arc) => !arc.isBack);
      const isFed = own.some((arc) => arc.to === number && arc.kind !== "trigger" && !arc.isBack);
      if (forth.length && !isFed && number !== block.from) {
        depth.set(number, Math.max(1, Math.min(...forth.map((arc) => depth.get(arc.to))) - 1));
      }
    }
    return { own, depth };
  }

  // Where the boxes of a block stand, from its own left upper corner on.
  function placed(block, arcs, wideOf, isLeftOut) {
    const { own, depth } = layersOf(block, arcs), layers = [], spots = new Map();
    const first = isLeftOut(block.from) ? 1 : 0;
    const put = (spot) => {
      (layers[spot.layer] = layers[spot.layer] || []).push(spot);
      return spot;
    };
    for (let number = block.from; number < block.to; number++) {
      if (isLeftOut(number)) continue;
      spots.set(number, put({ number, layer: depth.get(number) - first, wide: wideOf(number), near: [] }));
    }
    for (let layer = 0; layer < layers.length; layer++) layers[layer] = layers[layer] || [];
    own.forEach((arc) => {
      arc.points = [];
      let last = spots.get(arc.from);
      const end = spots.get(arc.to);
      if (arc.kind === "trigger" || end.layer <= last.layer) return;
      for (let layer = last.layer + 1; layer <= end.layer; layer++) {
        const spot = layer < end.layer ? put({ layer, wide: 6, near: [] }) : end;
        if (layer < end.layer) arc.points.push(spot);
        last.near.push(spot);
        spot.near.push(last);
        last = spot;
      }
    });
    // each goes to the middle of those that it is joined to, in turn from above and from below, as far as there is room
    layers.forEach((layer) => {
      let x = 0;
      layer.forEach((spot) => { spot.x = x + spot.wide / 2; x += spot.wide + ACROSS; });
    });
    const settle = (layer, away) => {
      const wanted = (spot) => {
        const joined = spot.near.filter((it) => (it.layer - spot.layer) * away > 0);
        return joined.length ? joined.reduce((sum, it) => sum + it.x, 0) / joined.length : spot.x;
      };
      const aims = new Map(layer.map((spot) => [spot, wanted(spot)]));
      layer.sort((one, other) => aims.get(one) - aims.get(other) || (one.number || 0) - (other.number || 0));
      const room = (left, right) => (left.wide + right.wide) / 2 + ACROSS;
      // spots that would stand on one another are moved as one, to the mean of what they want
      const groups = [];
      for (const spot of layer) {
        let group = { spots: [spot], offsets: [0], sum: aims.get(spot), at: aims.get(spot) };
        while (groups.length) {
          const before = groups[groups.length - 1], last = before.spots.length - 1;
          const gap = before.offsets[last] + room(before.spots[last], group.spots[0]);
          if (before.at + gap <= group.at) break;
          groups.pop();
          group = {
            spots: [...before.spots, ...group.spots],
            offsets: [...before.offsets, ...group.offsets.map((it) => it + gap)],
            sum: before.sum + group.sum - gap * group.spots.length,
          };
          group.at = group.sum / group.spots.length;
        }
        groups.push(group);
      }
      groups.forEach((group) => group.spots.forEach((spot, number) => { spot.x = group.at + group.offsets[number]; }));
    };
    for (let turn = 0; turn < 12; turn++) {
      if (turn % 2 === 0) for (let layer = 1; layer < layers.length; layer++) settle(layers[layer], -1);
      else for (let layer = layers.length - 2; layer >= 0; layer--) settle(layers[layer], 1);
    }
    const all = layers.flat(), left = Math.min(...all.map((spot) => spot.x - spot.wide / 2));
    const right = Math.max(...all.map((spot) => spot.x + spot.wide / 2));
    all.forEach((spot) => {
      spot.x += MARGIN - left;
      spot.y = MARGIN + HEAD + spot.layer * (HIGH + BETWEEN) + HIGH / 2;
    });
    const high = layers.length * (HIGH + BETWEEN) - BETWEEN + 2 * MARGIN + HEAD;
    return { own, spots, wide: right - left + 2 * MARGIN, high };
  }

  const SPELLED = { add: "+", sub: "-", mul: "*", neg: "-", lt: "<", le: "<=", gt: ">", ge: ">=", eq: "==", ne: "<>" };

  const isTrigger = (instr) => instr.op === "merge" && instr.args[0] === "signal";

  // What stands on a box: an operator as the text spells it, with its name in the text where it has one.
  function labelOf(instr, graph, names) {
    const name = names[instr.place], last = graph[Number(instr.args[instr.args.length - 1])];
    if (instr.op === "const") return [instr.args[0], ""];
    if (isTrigger(instr)) return ["trigger", ""];
    if (instr.op === "merge" && name && !name.startsWith("def ")) return [name, instr.args.join(" ")];
    if (instr.op === "enter") {
      const called = names[graph[Number(instr.args[0])].place] || "";
      return ["enter", called.startsWith("def ") ? called.slice(4) : "the loop"];
    }
    if (instr.op === "send") return ["send", names[last.place] ? "to " + names[last.place] : instr.args[0]];
    if (instr.op === "next" && name) return ["next " + name, ""];
    return [SPELLED[instr.op] || instr.op, /^(merge|switch|reset|back)$/.test(instr.op) ? instr.args.join(" ") : ""];
  }

  const CLASSES_OF = [
    [/^(enter|send|back)$/, "call"], [/^(alloc|address|fetch|store)$/, "cells"], [/^(switch|next|reset)$/, "turns"],
  ];

  const SVG = "http://www.w3.org/2000/svg";
  function drawn(parent, kind, attributes, text) {
    const made = document.createElementNS(SVG, kind);
    for (const [name, value] of Object.entries(attributes)) made.setAttribute(name, value);
    if (text !== undefined) made.textContent = text;
    return parent.appendChild(made);
  }

  // Draws the listing into an element. `names` has the name of each binder by its place; a click on a box goes to its
  // place by `go`. Triggers with their arcs, and arcs between blocks, are drawn where withTriggers and withCalls say
  // so, in a picture of about this width. Answers how many instructions there are, and draws none where there are more
  // than `most`.
  return function (root, listing, names, { go, withTriggers, withCalls, wide: room, most }) {
    root.replaceChildren();
    const graph = listing.split("\n").filter((line) => /^\d+ /.test(line)).map(instruction);
    if (graph.length > most) return graph.length;
    const arcs = arcsOf(graph), blocks = blocksOf(graph);
    const labels = graph.map((instr) => labelOf(instr, graph, names));
    const isLeftOut = (number) => !withTriggers && isTrigger(graph[number]);
    const wideOf = (number) => 22 + 7 * Math.max(labels[number][0].length, labels[number][1].length, 3);
    const shown = arcs.filter((arc) => !isLeftOut(arc.from) && !isLeftOut(arc.to));
    const blockOf = (number) => blocks.findIndex(({ from, to }) => number >= from && number < to);
    const frames = blocks.map((block) => ({ block, ...placed(block, shown, wideOf, isLeftOut) }));
    // the frames stand side by side, in rows
    const widest = Math.max(room, ...frames.map((frame) => frame.wide));
    let x = 0, y = 0, row = 0, whole = 0;
    for (const frame of frames) {
      if (x && x + frame.wide > widest) {
        x = 0;
        y += row + 26;
        row = 0;
      }
      frame.x = x;
      frame.y = y;
      x += frame.wide + 26;
      row = Math.max(row, frame.high);
      whole = Math.max(whole, x - 26);
    }
    const spots = new Map();
    for (const frame of frames) {
      for (const spot of new Set([...frame.spots.values(), ...frame.own.flatMap((arc) => arc.points || [])])) {
        spot.x += frame.x;
        spot.y += frame.y;
        if (spot.number !== undefined) spots.set(spot.number, spot);
      }
    }
    const size = { width: whole + 2, height: y + row + 2 };
    const seen = { viewBox: `-1 -1 ${size.width} ${size.height}`, role: "img", class: "graph" };
    const svg = drawn(root, "svg", { ...size, ...seen });
    drawn(svg, "title", {}, `${graph.length} instructions in ${blocks.length} blocks; the listing below has them all`);
    const defs = drawn(svg, "defs", {});
    for (const kind of ["", "false", "trigger", "call", "reply"]) {
      const spot = { viewBox: "0 0 8 8", refX: 7, refY: 4, markerWidth: 6, markerHeight: 6, orient: "auto" };
      const marker = drawn(defs, "marker", { ...spot, id: "tip" + kind, class: "tip " + kind });
      drawn(marker, "path", { d: "M0 0 8 4 0 8Z" });
    }
    for (const { block, x: left, y: top, wide, high } of frames) {
      drawn(svg, "rect", { class: "block", x: left, y: top, width: wide, height: high, rx: 6 });
      const name = names[graph[block.from].place] || "loop";
      drawn(svg, "text", { class: "of", x: left + 10, y: top + 17 }, `${name} @${graph[block.from].place}`);
    }
    for (const arc of shown) {
      const from = spots.get(arc.from), to = spots.get(arc.to);
      if (!from || !to) continue; // instruction 0 is in no block
      if (!withCalls && blockOf(arc.from) !== blockOf(arc.to)) continue;
      const side = graph[arc.to].op === "merge" || arc.kind === "call" || arc.kind === "reply" ? 0 : arc.port ? 1 : -1;
      const end = { x: to.x + (side * to.wide) / 5, y: to.y - HIGH / 2 - 1 };
      const points = [{ x: from.x, y: from.y + HIGH / 2 }, ...(arc.points || []), end];
      let path = `M${points[0].x} ${points[0].y}`;
      points.slice(1).forEach((end, number) => {
        const start = points[number], bend = end.y > start.y ? Math.min(40, (end.y - start.y) / 2) : 36;
        path += `C${start.x} ${start.y + bend} ${end.x} ${end.y - bend} ${end.x} ${end.y}`;
      });
      drawn(svg, "path", { class: "arc " + arc.kind, d: path, "marker-end": `url(#tip${arc.kind})` });
    }
    graph.forEach((instr, number) => {
      const spot = spots.get(number);
      if (!spot) return;
      const [label, more] = labels[number], kind = CLASSES_OF.find(([ops]) => ops.test(instr.op));
      const box = drawn(svg, "g", { class: "box " + (kind ? kind[1] : "") });
      drawn(box, "title", {}, `${number} ${instr.op} ${instr.args.join(" ")} @${instr.place}`);
      drawn(box, "rect", { x: spot.x - spot.wide / 2, y: spot.y - HIGH / 2, width: spot.wide, height: HIGH, rx: 4 });
      drawn(box, "text", { x: spot.x, y: spot.y + (more ? -2 : 4), "text-anchor": "middle" }, label);
      if (more) drawn(box, "text", { class: "more", x: spot.x, y: spot.y + 11, "text-anchor": "middle" }, more);
      box.onclick = () => go(instr.place);
    });
    return graph.length;
  };
})();
