// The walk: a run of a dataflow graph, event by event, in a page.
//
//   const walk = mountWalk(root, { listing, trace, text, printed, names, title, at, whole });
//   walk.go(12);        // to the event 12
//   walk.unmount();     // takes it away; mountWalk on the same root does so first
//
// listing: what `idc graph FILE` prints; trace: what `idc run FILE .. --trace` prints, of which the lines of events are
// read; printed: what the run prints in all, lines of events being left out; text: the source. The others may be left
// out. names: the name of each binder, and `def NAME` of each procedure, by its place `L:C`, else taken from the text;
// title: what stands above; at: the event to begin with; whole: whether the page is nothing but the walk, so that its
// keys are heard everywhere. `root` is an element with a height of its own; walk.css gives the rest, all of it below
// the class `walk`. `node walk.js LISTING TRACE SOURCE` prints the sentences, one for each event.
//
// It makes the machine's states anew from the trace (docs/MACHINE.md has the rules), so it proves nothing, and says in
// red where an event is none of the graph's.
const mountWalk = (() => {
"use strict";

// ---- what a listing and a trace say

const ONE_PORT = new Set(["const", "neg", "not", "merge", "enter", "next", "reset", "fetch"]);

// An instruction: number, operator, its words, place, and destinations on each side.
function instruction(line) {
  const [head, tail = ""] = line.split(/ ->/);
  const words = head.trim().split(" ");
  const at = words.findIndex((word) => word.startsWith("@"));
  const place = at < 0 ? "" : words[at].slice(1), op = words[1];
  const sides = tail.split("|").map((side) => side.trim().split(" ").filter(Boolean).map((word) => {
    const [instr, port] = word.split(".");
    return { instr: Number(instr), port: Number(port) };
  }));
  const args = words.slice(2, at < 0 ? undefined : at), ports = ONE_PORT.has(op) ? 1 : 2;
  return { number: Number(words[0]), op, args, place, yes: sides[0] || [], no: sides[1] || [], ports };
}

// The instructions of a listing; none where a line is not of one, or names an instruction that there isn't.
function readListing(text) {
  const graph = text.split("\n").filter((line) => /^\d+ /.test(line)).map((line) => instruction(line.trimEnd()));
  const isThere = (number) => Number.isInteger(number) && number >= 0 && number < graph.length;
  const isSound = ({ number, op, args, place, yes, no }, index) => {
    const named = { enter: [args[0], args[1]], send: [args[1]], fetch: args.slice(-1) }[op] || [];
    return number === index && /^\d+:\d+$/.test(place) && named.every((word) => isThere(Number(word))) &&
      [...yes, ...no].every((dest) => isThere(dest.instr) && (dest.port === 0 || dest.port === 1));
  };
  return graph.every(isSound) ? graph : [];
}

// Context and iteration of `c0.1#2` or `k0.1#2`.
function turnOf(word) {
  const [context, iteration] = word.slice(1).split("#");
  return { context, iteration: Number(iteration) };
}

// A token, with its line.
function token(context, iteration, instr, port, value, text) {
  const line = text || `token c${context}#${iteration} ${instr}.${port} ${value}`;
  return { kind: "token", text: line, context, iteration, instr, port, cell: "", value };
}

// A message of its text. Most are tokens, and a trace has many, so of these no words are made.
function messageOf(text) {
  if (text[0] === "t") {
    const turn = text.indexOf("#"), to = text.indexOf(" ", turn);
    const dot = text.indexOf(".", to), end = text.indexOf(" ", dot);
    const iteration = Number(text.slice(turn + 1, to)), instr = Number(text.slice(to + 1, dot));
    return token(text.slice(7, turn), iteration, instr, Number(text.slice(dot + 1, end)), text.slice(end + 1), text);
  }
  const words = text.split(" "), kind = words[0], at = kind === "read" ? 2 : 3;
  const value = kind === "read" ? null : words[2];
  return { kind, text, ...turnOf(words[at]), instr: Number(words[at + 1]), port: 0, cell: words[1], value };
}

const TURN = "c\\d+\\.\\d+#\\d+", CELL = "s\\d+\\.\\d+\\[-?\\d+\\]";
const MESSAGE = `token ${TURN} \\d+\\.[01] \\S+|read ${CELL} ${TURN} \\d+|write ${CELL} \\S+ ${TURN} \\d+`;
const EVENT = new RegExp(`^(\\d+) (\\d+) (${MESSAGE})( fault| stuck)?\\r?$`);

// An event: its stamp, element and message, and whether it was a fault or stuck. Lines of a report are none.
function eventOf(line) {
  const found = EVENT.exec(line);
  if (!found) return null;
  const event = messageOf(found[3]);
  event.stamp = found[1];
  event.element = Number(found[2]);
  event.end = (found[4] || "").trim();
  return event;
}

const isEvent = (line) => EVENT.test(line);

function readTrace(text) {
  return text.split("\n").map(eventOf).filter(Boolean);
}

// ---- the machine, as far as a page needs it

const LEAST = -(2n ** 63n), MOST = 2n ** 63n - 1n;
const whole = (value) => /^-?\d+$/.test(value);
const within = (number) => (number < LEAST || number > MOST ? null : String(number));

function calculated(op, left, right) {
  const a = whole(left) ? BigInt(left) : null, b = whole(right) ? BigInt(right) : null;
  switch (op) {
    case "add": return within(a + b);
    case "sub": return within(a - b);
    case "mul": return within(a * b);
    case "div": return b === 0n ? null : within(a / b);
    case "rem": return b === 0n || within(a / b) === null ? null : within(a % b);
    case "lt": return String(a < b);
    case "le": return String(a <= b);
    case "gt": return String(a > b);
    case "ge": return String(a >= b);
    case "eq": return String(a === b);
    case "ne": return String(a !== b);
    case "eqb": return String(left === right);
    case "neb": return String(left !== right);
    case "and": return String(left === "true" && right === "true");
    case "or": return String(left === "true" || right === "true");
    default: return null;
  }
}

// What an instruction sends, or null where it fails. `made` counts what an element has made.
function fired(graph, instr, event, operands, run) {
  const [left, right] = operands, { context, iteration } = event;
  const toAll = (dests, value, turn = iteration) =>
    dests.map((dest) => token(context, turn, dest.instr, dest.port, value));
  switch (instr.op) {
    case "const": return toAll(instr.yes, instr.args[0]);
    case "neg": { const value = within(-BigInt(left)); return value === null ? null : toAll(instr.yes, value); }
    case "not": return toAll(instr.yes, String(left !== "true"));
    case "merge": return toAll(instr.yes, left);
    case "switch": return toAll(left === "true" ? instr.yes : instr.no, right);
    case "next": return toAll(instr.yes, left, iteration + 1);
    case "reset": return toAll(instr.yes, left, 0);
    case "enter": {
      const to = `${event.element}.${run.made(event.element, "contexts")}`, block = Number(instr.args[0]);
      run.enter(to, event, instr);
      const back = `k${context}#${iteration}:${instr.args[1]}`;
      return [...toAll(instr.yes, "c" + to), token(to, 0, block, 0, "signal"), token(to, 0, block + 1, 0, back)];
    }
    case "send": return [token(left.slice(1), 0, Number(instr.args[1]), 0, right)];
    case "back": {
      const [turn, reply] = left.split(":"), to = turnOf(turn);
      return [token(to.context, to.iteration, Number(reply), 0, right)];
    }
    case "alloc": {
      const low = BigInt(left), high = BigInt(right);
      if (low > high + 1n || high - low >= 1000000n) return null;
      const structure = `s${event.element}.${run.made(event.element, "structures")}`;
      run.structures.set(structure, { name: structure, low, high, event: run.now, instr: event.instr, cells: [] });
      return toAll(instr.yes, structure);
    }
    case "address": {
      const { low, high } = run.structures.get(left), index = BigInt(right);
      return index < low || index > high ? null : toAll(instr.yes, `${left}[${right}]`);
    }
    case "fetch": {
      const reply = instr.args[instr.args.length - 1];
      return [messageOf(`read ${left} c${context}#${iteration} ${reply}`)];
    }
    case "store": return [messageOf(`write ${left} ${right} c${context}#${iteration} ${event.instr}`)];
    default: {
      const value = calculated(instr.op, left, right);
      return value === null ? null : toAll(instr.yes, value);
    }
  }
}

// The messages at the start: of main's block a signal, where the answer goes, and a token for each input.
function begin(graph, events, entries) {
  const main = mainOf(graph);
  if (main < 0) return [];
  const found = [token("0.0", 0, main, 0, "signal"), token("0.0", 0, main + 1, 0, "k0.0#0:0")], open = new Set(entries);
  for (const event of events) {
    if (open.size === 0) break;
    if (event.kind === "token" && event.context === "0.0" && event.iteration === 0 && open.delete(event.instr)) {
      found.push(messageOf(event.text));
    }
  }
  return found;
}

const mainOf = (graph) => graph.findIndex((instr, number) =>
  number > 0 && instr.place === graph[0].place && graph[number + 1] && graph[number + 1].op === "back");

// Main's entries: the merges behind its way back that nothing feeds.
function inputsOf(graph) {
  const fed = new Set(), main = mainOf(graph), found = [];
  graph.forEach((instr) => {
    [...instr.yes, ...instr.no].forEach((dest) => fed.add(dest.instr));
    if (instr.op === "enter" || instr.op === "fetch") fed.add(Number(instr.args[instr.args.length - 1]));
  });
  if (main < 0) return found;
  const isInput = (it) => it.op === "merge" && (it.args[0] === "int" || it.args[0] === "bool");
  for (let at = main + 2; at < graph.length && isInput(graph[at]) && !fed.has(at); at++) found.push(at);
  return found;
}

const NEVER = 2 ** 31 - 1;

// A run of a graph: what each event came to, and for each message and each thing that waits from which event to which
// it does. So the state behind any event is what these spans have there, and none is kept. Events count from 1; 0 is
// the start.
class Run {
  constructor(listing, trace) {
    this.graph = readListing(listing);
    this.events = [null, ...(this.graph.length ? readTrace(trace) : [])];
    this.last = this.events.length - 1;
    const highest = this.events.reduce((most, event) => (event ? Math.max(most, event.element) : most), 0);
    this.elements = Math.min(64, highest + 1);
    this.frames = [];
    this.frameIds = new Map();
    this.contexts = new Map();
    this.structures = new Map();
    this.counts = new Map();
    this.messages = [];
    this.sentAt = [];
    this.takenAt = [];
    // the first message that each event sent, and until which event it waits: 0 where it doesn't
    this.sendsFrom = new Int32Array(this.last + 2);
    this.until = new Int32Array(this.last + 1);
    this.flight = new Map();
    this.halves = new Map();
    this.cells = new Map();
    this.bad = [];
    this.faults = [];
    this.waits = [];
    this.ofBox = this.graph.map(() => []);
    this.now = 0;
    if (this.graph.length) begin(this.graph, this.events.slice(1), inputsOf(this.graph)).forEach((it) => this.send(it));
    for (this.now = 1; this.now <= this.last; this.now++) this.take(this.events[this.now]);
    this.sendsFrom[this.last + 1] = this.messages.length;
  }

  // The frame of a context and iteration: what is known of it, and by its events and messages what it has at a time.
  frame(context, iteration) {
    const key = context + "#" + iteration, known = this.frameIds.get(key);
    if (known !== undefined) return this.frames[known];
    const made = { id: this.frames.length, context, iteration, born: this.now, events: [], messages: [], given: 0 };
    this.frameIds.set(key, made.id);
    this.frames.push(made);
    const entered = this.contexts.get(context);
    if (entered) entered.frames.push(made);
    return made;
  }

  made(element, what) {
    const key = element + what, count = (this.counts.get(key) || 0) + 1;
    this.counts.set(key, count);
    return count;
  }

  enter(context, event, instr) {
    const parent = this.frame(event.context, event.iteration);
    const entered = { context, event: this.now, instr: event.instr, block: Number(instr.args[0]), parent, frames: [] };
    this.contexts.set(context, entered);
    (parent.inner = parent.inner || []).push(entered);
  }

  send(message) {
    const id = this.messages.length, there = this.flight.get(message.text);
    this.messages.push(message);
    this.sentAt.push(this.now);
    this.takenAt.push(NEVER);
    this.frame(message.context, message.iteration).messages.push(id);
    if (there === undefined) this.flight.set(message.text, [id]);
    else there.push(id);
  }

  // One event further. What the listing doesn't allow is kept in `bad`, with why.
  take(event) {
    const there = this.flight.get(event.text), frame = this.frame(event.context, event.iteration);
    let why = "";
    this.sendsFrom[this.now] = this.messages.length;
    if (!there) why = "no event before has sent this message";
    else {
      this.takenAt[there.shift()] = this.now;
      if (there.length === 0) this.flight.delete(event.text);
    }
    frame.events.push(this.now);
    if (this.ofBox[event.instr]) this.ofBox[event.instr].push(this.now);
    let sends = [];
    try {
      sends = this.handled(event);
    } catch (error) {
      why = why || "its values don't suit the instruction";
    }
    if (sends === null) {
      event.fails = true;
      if (event.end !== "fault") why = why || "its instruction fails, and the trace shows no fault";
    } else if (event.end === "fault") why = why || "its instruction doesn't fail, and the trace shows a fault";
    (sends || []).forEach((it) => this.send(it));
    if (why) this.bad.push({ at: this.now, why });
    if (event.end) this.faults.push(this.now);
  }

  // What an event sends, null where it fails.
  handled(event) {
    if (event.kind !== "token") return this.stored(event);
    const instr = this.graph[event.instr];
    if (!instr) throw new Error("no instruction");
    event.operands = [event.value];
    if (instr.ports === 2) {
      const key = `${event.context}#${event.iteration} ${event.instr}`, half = this.halves.get(key);
      if (half === undefined) {
        this.halves.set(key, this.now);
        this.until[this.now] = NEVER;
        return [];
      }
      const other = this.events[half];
      if (other.port === event.port) { event.taken = true; return []; }
      this.halves.delete(key);
      this.until[half] = this.now;
      event.operands = event.port === 0 ? [event.value, other.value] : [other.value, event.value];
    }
    const sends = fired(this.graph, instr, event, event.operands, this);
    // what a box shows under it: the value that goes out
    const out = sends && sends.find((it) => it.kind !== "read");
    event.fires = true;
    event.result = instr.op === "switch" || instr.op === "back" ? event.operands[1] : out ? out.value : null;
    if (instr.op === "back") this.frame(event.context, 0).given = this.now;
    return sends;
  }

  stored(event) {
    let cell = this.cells.get(event.cell);
    if (!cell) this.cells.set(event.cell, cell = { value: null, event: 0, readers: [] });
    if (event.kind === "read") {
      event.finds = cell.event;
      if (cell.event) return [token(event.context, event.iteration, event.instr, 0, cell.value)];
      cell.readers.push(this.now);
      this.until[this.now] = NEVER;
      this.waits.push(this.now);
      return [];
    }
    event.before = cell.value;
    if (cell.event) return null;
    cell.value = event.value;
    cell.event = this.now;
    const [, name, index] = /^(s[\d.]+)\[(-?\d+)\]$/.exec(event.cell);
    this.structures.get(name).cells.push({ index, value: event.value, event: this.now });
    event.answers = cell.readers.length;
    return cell.readers.map((at) => {
      const read = this.events[at];
      this.until[at] = this.now;
      return token(read.context, read.iteration, read.instr, 0, event.value);
    });
  }

  sendsOf(at) {
    return this.messages.slice(at ? this.sendsFrom[at] : 0, this.sendsFrom[at + 1]);
  }

  // The messages in flight behind an event.
  flying(at) {
    const found = [];
    for (let id = 0; id < this.messages.length && this.sentAt[id] <= at; id++) {
      if (this.takenAt[id] > at) found.push(id);
    }
    return found;
  }

  // The events before this one, or this one, that wait still.
  waiting(at) {
    const found = [];
    for (let event = 1; event <= at; event++) if (this.until[event] > at) found.push(event);
    return found;
  }

  // The path of the source at which a frame is.
  path(frame) {
    let path = "";
    for (let at = frame, steps = 0; steps < 200; steps++) {
      const entered = this.contexts.get(at.context);
      if (!entered) return path;
      const place = this.graph[entered.instr].place, isLoop = place === this.graph[entered.block].place;
      path = "/" + place + (isLoop ? "#" + at.iteration : "") + path;
      at = entered.parent;
    }
    return "/.." + path;
  }
}

// ---- what stands in the text, and the words for it

const SIGNS = {
  add: "+", sub: "-", mul: "*", neg: "-", lt: "<", le: "<=", gt: ">", ge: ">=", eq: "==", ne: "<>", eqb: "==",
  neb: "<>", alloc: "array",
};

// What a `for` asks before each iteration.
const GOES_ON = "whether it goes on";

// A name with its value; a literal is its own name.
const pair = (name, value) => (name === value ? name : `${name} = ${value}`.replace(/^(its .*) = /, "$1, "));

// The words of a graph: which part of the text an instruction is of, and how an event of it is said.
class Words {
  constructor(run, text, names) {
    this.run = run;
    this.graph = run.graph;
    this.lines = text.split("\n");
    this.given = names || {};
    this.feeders = this.graph.map(() => [null, null]);
    this.sender = new Map();
    this.replyOf = new Map();
    this.loopOf = new Map();
    this.graph.forEach((instr, number) => this.connect(instr, number));
    this.blocks = blocksOf(this.graph);
    this.blockOf = new Int32Array(this.graph.length);
    this.blocks.forEach((block, index) => this.blockOf.fill(index, block.from, block.to));
    this.blocks.forEach((block) => { block.isLoop = this.isLoop(block.from); });
    this.entries = new Set([...this.sender.keys(), ...inputsOf(this.graph)]);
    this.names = this.graph.map((_, number) => this.nameOf(number));
    this.boxes = new Map();
    this.graph.forEach(({ place }, number) => { if (number && !this.boxes.has(place)) this.boxes.set(place, number); });
  }

  connect(instr, number) {
    for (const dest of [...instr.yes, ...instr.no]) {
      const ports = this.feeders[dest.instr];
      if (ports && ports[dest.port] === null) ports[dest.port] = number;
    }
    const last = Number(instr.args[instr.args.length - 1]);
    if (instr.op === "send") this.sender.set(last, number);
    if (instr.op === "enter" || instr.op === "fetch") this.replyOf.set(last, number);
    if (instr.op === "enter") this.loopOf.set(Number(instr.args[0]), instr.place);
  }

  // Whether the block that begins here is a loop: it is entered where it stands.
  isLoop(first) {
    return first > 0 && this.loopOf.get(first) === this.graph[first].place;
  }

  // What stands in the text from a place on, and the text before it in its line; columns count bytes.
  around(place) {
    const [line, column] = place.split(":").map(Number), text = this.lines[line - 1];
    if (text === undefined) return ["", ""];
    if (/^[\x00-\x7f]*$/.test(text)) return [text.slice(0, column - 1), text.slice(column - 1)];
    const bytes = new TextEncoder().encode(text), read = new TextDecoder();
    return [read.decode(bytes.slice(0, column - 1)), read.decode(bytes.slice(column - 1))];
  }

  wordAt(place) {
    const found = /^(\w+|[<>=]=|<>|<-|\S)/.exec(this.around(place)[1]);
    return found ? found[1] : "";
  }

  // What stands before the `[` at a place: a name, which may have an index itself, or `(..)`.
  target(place) {
    const before = this.around(place)[0], found = /(\w+)\s*((?:\[[^[\]]{1,12}\]\s*)?)$/.exec(before);
    if (found) return found[1] + found[2].trim();
    return this.lines.join("") ? "(..)" : "cell";
  }

  // The name of a merge: of a parameter, a binding, a variable of a loop, or of what is carried into a loop.
  nameOf(number) {
    const instr = this.graph[number], given = this.given[instr.place];
    if (instr.op !== "merge" || number === 0 || this.replyOf.has(number) || instr.args[0] === "signal") return "";
    if (given) return given.startsWith("def ") ? "" : given;
    const [, rest] = this.around(instr.place), word = /^next\s+(\w+)/.exec(rest) || /^([A-Za-z_]\w*)/.exec(rest);
    return word && word[1] !== "if" ? word[1] : "";
  }

  entryName(number) {
    return this.names[number] || `at ${this.graph[number].place}`;
  }

  // The name of what comes from an instruction, through switches and what carries it into a loop.
  valueName(number, steps = 0) {
    const instr = this.graph[number];
    if (!instr || steps > 40) return "a value";
    if (this.names[number]) return this.names[number];
    const before = (port) => this.feeders[number][port];
    if (instr.op === "switch") return before(1) === null ? "a value" : this.valueName(before(1), steps + 1);
    if (instr.op === "next" || instr.op === "reset") return this.valueName(before(0), steps + 1);
    if (instr.op === "const") return instr.args[0];
    if (this.isCounting(number)) return instr.op === "add" ? "its index" : GOES_ON;
    if (instr.op === "merge" && this.sender.has(number)) {
      const sender = this.feeders[this.sender.get(number)][1];
      return sender === null ? "a value" : this.valueName(sender, steps + 1);
    }
    return this.thing(number);
  }

  // The variable for whose next iteration a `next` has a value; none for the trigger's.
  nextName(number) {
    const { yes, args } = this.graph[number];
    return args[0] === "signal" ? "" : (yes.length && this.names[yes[0].instr]) || this.valueName(number);
  }

  title(block) {
    if (block.from === 0) return "answer";
    const place = this.graph[block.from].place, given = this.given[place];
    if (block.isLoop) return "loop " + place;
    return given && given.startsWith("def ") ? given.slice(4) : this.wordAt(place) || "block " + block.from;
  }

  callee(number) {
    return this.title(this.blocks[this.blockOf[Number(this.graph[number].args[0])]]);
  }

  // A thing of the text, in the words of tools/why: `+ (2:57)`.
  thing(number) {
    const instr = this.graph[number], { place } = instr;
    if (number === 0) return "the answer";
    const reply = this.replyOf.get(number);
    if (reply !== undefined && this.graph[reply].op === "fetch") return this.cellThing(reply, "..");
    if (reply !== undefined) return this.entered(reply);
    if (this.names[number]) return `${this.names[number]} (${place})`;
    if (instr.op === "enter") return this.entered(number);
    if (instr.op === "address" || instr.op === "fetch" || instr.op === "store") return this.cellThing(number, "..");
    if (instr.op === "next" && instr.args[0] !== "signal") return `next ${this.nextName(number)} (${place})`;
    const word = this.wordAt(place);
    if (word === "{") return `the loop (${place})`;
    if (instr.op === "const") return `${instr.args[0]} (${place})`;
    return `${instr.op in SIGNS ? SIGNS[instr.op] : word || instr.op} (${place})`;
  }

  // What an `enter` enters.
  entered(number) {
    const instr = this.graph[number];
    if (this.isLoop(Number(instr.args[0]))) return `the loop (${instr.place})`;
    return `the call of ${this.callee(number)} (${instr.place})`;
  }

  // `the fetch a[2] (3:5)`; an address is of a store where it leads to one.
  cellThing(number, index) {
    if (!this.graph[number]) return `the cell [${index}]`;
    const { op, place, yes } = this.graph[number];
    const isStore = op === "store" || (op === "address" && yes.some((dest) => this.graph[dest.instr].op === "store"));
    return `the ${isStore ? "store" : "fetch"} ${this.target(place)}[${index}] (${place})`;
  }

  // A value, with the names that the text has for it.
  value(text) {
    if (text === null || text === undefined) return "";
    if (/^s[\d.]+$/.test(text)) return this.structure(text);
    const cell = /^(s[\d.]+)(\[.*)$/.exec(text);
    if (cell) return this.structure(cell[1]) + cell[2];
    if (text[0] === "c") {
      const entered = this.run.contexts.get(text.slice(1));
      return entered ? `the frame of ${this.title(this.blocks[this.blockOf[entered.block]])}` : "a frame";
    }
    return text[0] === "k" ? "the way back" : text;
  }

  // An array: by the name that it is bound to, or by the cell where it is stored, and by its number where a part of the
  // text made several.
  structure(name) {
    const made = this.run.structures.get(name);
    if (!made) return name;
    if (made.label) return made.label;
    const dest = this.graph[made.instr].yes[0], bound = dest ? this.names[dest.instr] : "";
    const stored = bound ? undefined : this.rows().get(name);
    made.label = bound || `array ${this.graph[made.instr].place} `;
    if (stored) made.label = this.value(stored);
    else {
      const all = [...this.run.structures.values()].filter((it) => it.instr === made.instr);
      const number = String(all.indexOf(made) + 1).replace(/\d/g, (digit) => "₀₁₂₃₄₅₆₇₈₉"[digit]);
      made.label = (made.label + (all.length > 1 ? number : "")).trim();
    }
    return made.label;
  }

  // The cells in which arrays are stored, by these.
  rows() {
    if (!this.stored) {
      const writes = this.run.events.filter((event) => event && event.kind === "write" && event.value[0] === "s");
      this.stored = new Map(writes.map((event) => [event.value, event.cell]));
    }
    return this.stored;
  }

  // What the port of an instruction takes.
  port(number, port) {
    const instr = this.graph[number];
    switch (instr.op) {
      case "switch": return port ? this.switchedName(number) : "its predicate";
      case "back": return port ? "its answer" : "its way back";
      case "send": return port ? "its value" : "its frame";
      case "alloc": return port ? "its high bound" : "its low bound";
      case "address": return port ? "its index" : "its array";
      case "store": return port ? "its value" : "its cell";
      default:
        if (!this.isCounting(number)) return port ? "its right side" : "its left side";
        return port === 0 ? "its index" : instr.op === "add" ? "its step" : "its high bound";
    }
  }

  // Whether an instruction is of the counting of a `for`, and not of what stands in it.
  isCounting(number) {
    const { op, place } = this.graph[number];
    return (op === "le" || op === "lt" || op === "add") && this.wordAt(place) === "{";
  }

  // What a switch lets go on one side or the other.
  switchedName(number) {
    const { args, place } = this.graph[number], feeder = this.feeders[number][1];
    if (args[0] === "signal") return "its trigger";
    if (this.wordAt(place) === "{" && !this.blocks[this.blockOf[number]].isLoop) return "its first index";
    return feeder === null ? "a value" : this.valueName(feeder);
  }

  // Who takes what comes to the port.
  taker(number) {
    const instr = this.graph[number];
    const block = this.blocks[this.blockOf[number]];
    if (instr.op === "back") return block.isLoop ? `the loop (${instr.place})` : this.title(block);
    if (instr.op === "send") return this.sent(number);
    return this.thing(number);
  }

  // What a `send` brings: an argument of a call, or what goes into a loop.
  sent(number) {
    const instr = this.graph[number], target = Number(instr.args[1]);
    if (this.blocks[this.blockOf[target]].isLoop) return `${this.valueName(target)} for the loop (${instr.place})`;
    const callee = this.title(this.blocks[this.blockOf[target]]);
    return `the argument ${this.entryName(target)} of ${callee} (${instr.place})`;
  }

  // A token that waits for its partner: `div (3:42) has 7, lacks its right side`.
  lacks(event) {
    const { instr: number, port } = event, value = this.value(event.value), { op } = this.graph[number];
    const lacking = this.port(number, 1 - port), ours = this.port(number, port), who = this.taker(number);
    if (event.value === "signal") return `${who} is reached, lacks ${lacking}`;
    if (op === "switch" && port === 1) return `${who} has ${pair(ours, value)}, lacks its predicate`;
    if ((op === "back" || op === "send") && port === 0) return `${who} has ${ours}, lacks ${lacking}`;
    const isPlain = ours === "its left side" || ours === "its right side";
    return `${who} has ${isPlain ? value : `${ours}, ${value}`}, lacks ${lacking}`;
  }

  // The index of a cell, and what the text calls it at the place of an instruction.
  cellAt(number, cell) {
    const index = /\[(.*)\]/.exec(cell);
    return this.cellThing(number, index ? index[1] : "..");
  }

  // The event in a sentence.
  sentence(at) {
    const event = this.run.events[at], instr = this.graph[event.instr];
    if (!instr) return "goes to no instruction";
    if (event.taken) return `${this.thing(event.instr)} finds its port filled`;
    if (event.kind === "read") return this.readSentence(event);
    if (event.kind === "write") return this.writeSentence(event);
    if (!event.fires) return this.lacks(event);
    return this.firing(event, instr, event.operands.map((it) => this.value(it)));
  }

  readSentence(event) {
    const name = this.cellAt(this.replyOf.get(event.instr), event.cell);
    if (event.finds) return `${name} finds ${this.value(this.run.events[event.finds].value)}`;
    return `${name} waits: nothing is stored there`;
  }

  writeSentence(event) {
    const cell = `${this.target(this.graph[event.instr].place)}${event.cell.slice(event.cell.indexOf("["))}`;
    if (event.fails) return `${cell} is stored a second time: it has ${this.value(event.before)} already`;
    const who = event.answers === 1 ? "the fetch that waited gets it" : `${event.answers} fetches that waited get it`;
    return `${cell} is stored: ${this.value(event.value)}${event.answers ? "; " + who : ""}`;
  }

  firing(event, instr, [left, right]) {
    const number = event.instr, who = this.thing(number), result = this.value(event.result);
    const outcome = (why) => (event.fails ? `, and fails: ${why}` : `: ${result}`);
    switch (instr.op) {
      case "merge": return this.merged(event, instr, left);
      case "const": return `the literal ${who} is turned on`;
      case "neg": case "not": return `${who} has its operand, ${left}${outcome("overflow")}`;
      case "switch": return this.switched(event, number, left === "true", right);
      case "enter":
        if (this.isLoop(Number(instr.args[0]))) return `the loop (${instr.place}) is entered: its frame is made`;
        return `${this.callee(number)} is called (${instr.place}): its frame is made`;
      case "send": return `${this.sent(number)}, ${right}, goes into the frame`;
      case "back": return `${this.taker(number)} gives ${right}`;
      case "next": {
        const to = event.iteration + 1;
        if (instr.args[0] === "signal") return `iteration ${to} may begin`;
        return `${pair(this.nextName(number), left)} goes on to iteration ${to}`;
      }
      case "reset": return `the last expression of the loop (${instr.place}) has its value, ${left}`;
      case "alloc": {
        const so = event.fails ? ", and fails: bad bounds" : ": it is made";
        return `${who} has both bounds, ${left} and ${right}${so}`;
      }
      case "address": {
        if (!event.fails) return `${this.cellThing(number, right)} has its array and its index`;
        const { low, high } = this.run.structures.get(event.operands[0]);
        return `${this.cellThing(number, right)} fails: out of bounds ${low}..${high}`;
      }
      case "fetch": return `${this.cellAt(number, event.value)} asks the cell`;
      case "store": return `${this.cellAt(number, event.operands[0])} has its value, ${right}`;
      default: {
        const isZero = (instr.op === "div" || instr.op === "rem") && right === "0";
        if (this.isCounting(number)) return this.counted(event, instr, left, right);
        return `${who} has both sides, ${left} and ${right}${outcome(isZero ? "division by zero" : "overflow")}`;
      }
    }
  }

  // What a `for` does to count.
  counted(event, instr, left, right) {
    const who = `the loop (${instr.place})`, isMore = event.result === "true";
    if (instr.op === "le") return `${who} goes from ${left} to ${right}: ${isMore ? "it begins" : "no iteration"}`;
    if (instr.op === "lt") {
      return `${who} is at ${left} of ${right}: ${isMore ? "another iteration follows" : "this is the last one"}`;
    }
    return `${who} counts on, from ${left} to ${this.value(event.result)}`;
  }

  // A merge that has what it is for: of the answer, a block's beginning, a reply, an entry or a name.
  merged(event, instr, value) {
    const number = event.instr, block = this.blocks[this.blockOf[number]], loop = `the loop (${instr.place})`;
    const reply = this.replyOf.get(number), name = this.names[number];
    if (number === 0) return `the answer is ${value}`;
    if (number === block.from) {
      return block.isLoop ? `iteration ${event.iteration} of ${loop} begins` : `${this.title(block)} begins`;
    }
    if (reply !== undefined && this.graph[reply].op === "fetch") {
      return `${this.fetchOf(event, reply)} has its value, ${value}`;
    }
    if (this.entries.has(number) && !block.isLoop) {
      const what = this.entryName(number), of = ` of ${this.title(block)}`;
      return `${this.sender.has(number) ? `the parameter ${what}${of}` : `the input ${what}`} has its value, ${value}`;
    }
    if (this.entries.has(number) && !name) {
      const carried = this.valueName(number);
      return carried === GOES_ON ? `${loop} knows ${carried}: ${value}` : `${loop} has ${pair(carried, value)}`;
    }
    return `${this.thing(number)} has its value, ${value === name ? "an array" : value}`;
  }

  // The fetch whose value comes, with its index: that of the address which its frame sent.
  fetchOf(event, fetch) {
    const frame = this.run.frame(event.context, event.iteration);
    for (const at of frame.events) {
      const other = this.run.events[at];
      if (other.kind === "token" && other.instr === fetch) return this.cellAt(fetch, other.value);
    }
    return this.thing(event.instr);
  }

  // A conditional's choice, or whether a loop goes on.
  switched(event, number, isTrue, right) {
    const instr = this.graph[number], side = isTrue ? instr.yes : instr.no, isSignal = right === "signal";
    const what = pair(this.switchedName(number), right), feeder = this.feeders[number][0];
    if (this.wordAt(instr.place) !== "{") {
      const arm = isTrue ? "then" : "else", who = `if (${instr.place}): ${isTrue}, so`;
      if (isSignal) return `${who} its ${arm} is turned on`;
      return `${who} ${what} ${side.length ? `goes to its ${arm}` : `isn't needed in its ${arm}`}`;
    }
    const who = `the loop (${instr.place})`;
    if (!this.blocks[this.blockOf[number]].isLoop) return `${who} ${isTrue ? "has" : "has no iteration for"} ${what}`;
    const so = feeder !== null && this.isCounting(feeder) ? (isTrue ? "another iteration follows" : "none follows")
      : isTrue ? "it goes on" : "it ends";
    if (isSignal) return `${who}: ${isTrue}, so ${so}`;
    const goes = isTrue ? "goes on" : "leaves it";
    return `${who}: ${isTrue}, so ${what} ${side.length ? goes : "isn't needed any more"}`;
  }

  // A message in flight: what it brings, and to whom.
  message(it) {
    if (it.kind === "read") return `${this.cellAt(this.replyOf.get(it.instr), it.cell)} asks`;
    if (it.kind === "write") return `${this.value(it.value)} to ${this.cellAt(it.instr, it.cell)}`;
    const instr = this.graph[it.instr];
    if (!instr) return it.text;
    const value = this.value(it.value), to = this.taker(it.instr), block = this.blocks[this.blockOf[it.instr]];
    if (it.instr === block.from && it.instr > 0) {
      return `a signal to ${block.isLoop ? `the loop (${instr.place}), iteration ${it.iteration}` : this.title(block)}`;
    }
    const port = this.port(it.instr, it.port);
    if (port === "its way back" || port === "its frame") return `${port} to ${to}`;
    const named = it.value === "signal" ? "a signal" : value;
    if (instr.op !== "switch") return `${named} to ${to}${instr.ports === 2 ? ", as " + port : ""}`;
    if (it.port === 0) return `${value} to ${to}, as its predicate for ${this.port(it.instr, 1)}`;
    return `${it.value === "signal" ? named : pair(port, value)} to ${to}`;
  }

  // A frame's name: `fib(n=3)`, or `loop 4:6 #2`; with the parameters that it has behind an event.
  frameName(frame, at) {
    const entered = this.run.contexts.get(frame.context);
    const block = this.blocks[this.blockOf[entered ? entered.block : Math.max(0, mainOf(this.graph))]];
    if (block.isLoop) return `${this.title(block)} #${frame.iteration}`;
    const inputs = this.bound(frame, at).filter((it) => this.entries.has(it.instr)).sort((a, b) => a.instr - b.instr);
    return `${this.title(block)}(${inputs.map((it) => `${it.name}=${it.value}`).join(", ")})`;
  }

  // The names that have values in a frame behind an event.
  bound(frame, at) {
    if (!frame.names) {
      frame.names = frame.events.filter((number) => {
        const event = this.run.events[number];
        return event.kind === "token" && this.names[event.instr] && event.value !== "signal";
      });
    }
    return frame.names.filter((number) => number <= at).map((number) => {
      const { instr, value } = this.run.events[number], name = this.names[instr], said = this.value(value);
      return { instr, name, value: said === name ? "array" : said };
    });
  }

  blockAt(frame) {
    const entered = this.run.contexts.get(frame.context);
    return this.blockOf[entered ? entered.block : Math.max(0, mainOf(this.graph))];
  }
}

// ---- blocks and where their instructions stand

// A block begins at the merge of its trigger behind which its return, or its loop's first entry, stands.
function blocksOf(graph) {
  const starts = new Set();
  graph.forEach((instr) => { if (instr.op === "enter") starts.add(Number(instr.args[0])); });
  graph.forEach((instr, number) => {
    const next = graph[number + 1];
    if (instr.op === "merge" && instr.args[0] === "signal" && next && next.op === "back") starts.add(number);
  });
  const order = [0, ...[...starts].filter((number) => number > 0 && number < graph.length).sort((a, b) => a - b)];
  return order.map((from, index) => ({ from, to: index + 1 < order.length ? order[index + 1] : graph.length }));
}

// What an instruction sends to in its block, with the reply to which a call, a loop or a fetch comes back.
function below(graph, block, number) {
  const instr = graph[number], found = instr.op === "next" ? [] : [...instr.yes, ...instr.no].map((dest) => dest.instr);
  if (instr.op === "enter" || instr.op === "fetch") found.push(Number(instr.args[instr.args.length - 1]));
  return found.filter((dest) => dest >= block.from && dest < block.to);
}

// The instructions of a block so that each stands before those that it sends to, but for circles.
function sorted(block, dests) {
  const seen = new Set(), order = [];
  for (let start = block.from; start < block.to; start++) {
    if (seen.has(start)) continue;
    seen.add(start);
    const stack = [[start, 0]];
    while (stack.length) {
      const top = stack[stack.length - 1], next = dests.get(top[0])[top[1]++];
      if (next === undefined) order.push(stack.pop()[0]);
      else if (!seen.has(next)) { seen.add(next); stack.push([next, 0]); }
    }
  }
  return order.reverse();
}

// Layers of a block: an instruction stands below those that send to it; a constant, or a call's beginning, just above
// where it is used.
function layersOf(graph, block) {
  const dests = new Map();
  for (let number = block.from; number < block.to; number++) dests.set(number, below(graph, block, number));
  const order = sorted(block, dests), rank = new Map(order.map((number, index) => [number, index]));
  const depth = new Map(order.map((number) => [number, 0]));
  const forward = (number) => dests.get(number).filter((dest) => rank.get(dest) > rank.get(number));
  for (const number of order) {
    for (const dest of forward(number)) depth.set(dest, Math.max(depth.get(dest), depth.get(number) + 1));
  }
  for (const number of order.slice().reverse()) {
    const uses = forward(number).map((dest) => depth.get(dest));
    if (uses.length && (graph[number].op === "const" || graph[number].op === "enter")) {
      depth.set(number, Math.max(depth.get(number), Math.min(...uses) - 1));
    }
  }
  const layers = [];
  for (const [number, level] of [...depth].sort((a, b) => a[0] - b[0])) {
    (layers[level] = layers[level] || []).push(number);
  }
  spread(layers.filter(Boolean), (number) => dests.get(number).length === 0 && graph[number].op !== "back");
  return { layers: layers.filter(Boolean).flatMap(inParts), dests };
}

const MOST_IN_LAYER = 9;

// Moves what sends to nothing below from a wide layer to a narrower one.
function spread(layers, isLast) {
  layers.forEach((layer, level) => {
    for (const number of layer.filter(isLast).reverse()) {
      const below = layers.slice(level + 1), least = below.reduce((a, b) => (b.length < a.length ? b : a), layer);
      if (layer.length <= MOST_IN_LAYER - 2 || least.length + 1 >= layer.length) return;
      layer.splice(layer.indexOf(number), 1);
      least.push(number);
    }
  });
}

// A layer in parts of about one size that are not too wide.
function inParts(layer) {
  const count = Math.ceil(layer.length / MOST_IN_LAYER), size = Math.ceil(layer.length / count);
  return Array.from({ length: count }, (_, index) => layer.slice(index * size, (index + 1) * size));
}

// Orders each layer by the middle of what its boxes are joined to, above and below in turn.
function untangled(layers, dests) {
  const place = new Map(), near = new Map();
  const note = (layer) => layer.forEach((number, index) => place.set(number, (index + 0.5) / layer.length));
  const join = (a, b) => { near.set(a, near.get(a) || []); near.get(a).push(b); };
  layers.forEach(note);
  for (const [number, list] of dests) list.forEach((dest) => { join(number, dest); join(dest, number); });
  for (let turn = 0; turn < 8; turn++) {
    for (const layer of turn % 2 ? layers.slice().reverse() : layers) {
      const middle = new Map(layer.map((number) => {
        const all = near.get(number) || [];
        return [number, all.length ? all.reduce((sum, it) => sum + place.get(it), 0) / all.length : place.get(number)];
      }));
      layer.sort((a, b) => middle.get(a) - middle.get(b));
      note(layer);
    }
  }
  return near;
}

const LEAST_WIDE = 62, LETTER = 6.75, HIGH = 34, GAP = 20, FALL = 38, EDGE = 14;

// Where the boxes of a block stand, from its upper left corner.
function layoutOf(graph, block, labels) {
  const { layers, dests } = layersOf(graph, block), near = untangled(layers, dests);
  const wide = new Map(), middle = new Map();
  for (let number = block.from; number < block.to; number++) {
    wide.set(number, Math.max(LEAST_WIDE, 12 + LETTER * Math.max(...labels[number].map((line) => line.length))));
  }
  const room = (a, b) => (wide.get(a) + wide.get(b)) / 2 + GAP;
  layers.forEach((layer) => layer.forEach((number, index) => {
    middle.set(number, index ? middle.get(layer[index - 1]) + room(layer[index - 1], number) : 0);
  }));
  for (let turn = 0; turn < 10; turn++) {
    for (const layer of turn % 2 ? layers.slice().reverse() : layers) {
      const wanted = layer.map((number) => {
        const all = near.get(number) || [];
        return all.length ? all.reduce((sum, it) => sum + middle.get(it), 0) / all.length : middle.get(number);
      });
      const right = [], left = [];
      layer.forEach((it, index) => {
        right[index] = index ? Math.max(wanted[index], right[index - 1] + room(layer[index - 1], it)) : wanted[0];
      });
      for (let index = layer.length - 1; index >= 0; index--) {
        const limit = index + 1 < layer.length ? left[index + 1] - room(layer[index], layer[index + 1]) : Infinity;
        left[index] = Math.min(wanted[index], limit);
      }
      layer.forEach((number, index) => middle.set(number, (left[index] + right[index]) / 2));
    }
  }
  const edge = Math.min(...[...middle].map(([number, x]) => x - wide.get(number) / 2));
  const places = new Map();
  layers.forEach((layer, level) => layer.forEach((number) => {
    const x = middle.get(number) - wide.get(number) / 2 - edge + EDGE;
    places.set(number, { x, y: 34 + level * (HIGH + FALL), wide: wide.get(number) });
  }));
  const width = Math.max(...[...places.values()].map((it) => it.x + it.wide)) + EDGE;
  return { places, width, height: 34 + layers.length * (HIGH + FALL) - 14 };
}

// ---- the page

function escaped(text) {
  return String(text).replace(/[&<>"]/g, (sign) => ({ "&": "&amp;", "<": "&lt;", ">": "&gt;", '"': "&quot;" }[sign]));
}

// A list of rows of one height, of which those in sight alone are in the page.
class List {
  constructor(root, draw, high = 20) {
    this.root = root;
    this.draw = draw;
    this.high = high;
    this.count = 0;
    this.room = document.createElement("div");
    this.room.className = "room";
    root.replaceChildren(this.room);
    root.addEventListener("scroll", () => this.refresh());
  }

  // So many rows, of which this one is to be in sight.
  set(count, sight = null) {
    this.count = count;
    this.room.style.height = count * this.high + "px";
    if (sight !== null) {
      const top = sight * this.high, tall = this.root.clientHeight;
      if (top < this.root.scrollTop + this.high || top + 2 * this.high > this.root.scrollTop + tall) {
        this.root.scrollTop = Math.max(0, top - tall / 2);
      }
    }
    this.refresh();
  }

  refresh() {
    const first = Math.max(0, Math.floor(this.root.scrollTop / this.high) - 2);
    const end = Math.min(this.count, first + Math.ceil(this.root.clientHeight / this.high) + 5);
    let rows = "";
    for (let index = first; index < end; index++) {
      const { html, name = "", data = "" } = this.draw(index);
      rows += `<div class="row ${name}" ${data} style="top:${index * this.high}px">${html}</div>`;
    }
    this.room.innerHTML = rows;
  }
}

// What the walk consists of; parts are found by `data-part`, so that a page can hold several walks.
const SHELL = `
<div class="head">
  <b data-part="title"></b>
  <span class="moves">
    <button type="button" data-part="first" title="to the start (Home)">|&lt;</button>
    <button type="button" data-part="back" title="one event back (left arrow)">&lt;</button>
    <button type="button" data-part="play" title="play (space)">play</button>
    <button type="button" data-part="forth" title="one event on (right arrow)">&gt;</button>
    <button type="button" data-part="last" title="to the end (End)">&gt;|</button>
    <button type="button" data-part="quiz" title="asks before each step what is handled next (q)">ask me</button>
  </span>
  <input data-part="slider" type="range" min="0" max="0" value="0" aria-label="event">
  <span class="count" data-part="count"></span>
</div>
<div class="wrong" data-part="wrong"></div>
<div class="columns">
  <div class="column told">
    <div class="event" data-part="event" aria-live="polite"></div>
    <div class="panel sent"><h2>It sent</h2><div data-part="sent"></div></div>
    <div class="panel program"><h2>Program</h2><pre data-part="text"></pre></div>
    <div class="panel report"><h2>The run prints <button type="button" data-part="reveal">show</button></h2>
      <pre data-part="report"></pre></div>
    <div class="panel story"><h2>So far</h2><div class="list" data-part="story"></div></div>
  </div>
  <div class="column drawn">
    <h2><span data-part="where"></span>
      <span class="choice"><button type="button" data-part="frameview">this frame</button><button type="button"
        data-part="wholeview">all blocks</button></span></h2>
    <div class="graph" data-part="graph"></div>
    <div class="legend"><span class="key now">handled now</span> <span class="key sent">sent to</span>
      <span class="key flies">value in flight</span> <span class="key waits">value that waits</span>
      <span class="key gave">value sent on</span> <span class="dim">dashed: on false; dotted: to a reply</span></div>
  </div>
  <div class="column state">
    <div class="panel frames"><h2>Frames: calls and iterations</h2><div class="list" data-part="frames"></div></div>
    <div class="panel arrays" data-part="arraypanel"><h2>Arrays</h2><div data-part="arrays"></div></div>
    <div class="panel waiting"><h2 data-part="waithead">Waits</h2><div class="list" data-part="waiting"></div></div>
    <div class="panel flight"><h2 data-part="flying">In flight</h2><div class="list" data-part="flight"></div></div>
    <div class="elements" data-part="elements"></div>
  </div>
</div>
<div class="keys">keys: arrows, Home, End, page keys for ten, a number for that event, space plays; f the next fault,
  w the next fetch that waits, b the next event of the box, g all blocks, q asks what comes next. Click a word, a box,
  a message or a frame.
</div>`;

const MOST_BOXES = 2000;

// The walk that stands in an element of a page.
const mounted = new WeakMap();

// Shows the walk of a run in `root`; gives what the page may do with it: go to an event, take it away.
function mountWalk(root, given) {
  const data = { listing: "", trace: "", text: "", printed: "", title: "", names: {}, at: 0, ...given };
  if (mounted.has(root)) mounted.get(root).unmount();
  root.innerHTML = SHELL;
  root.classList.add("walk");
  root.classList.toggle("alone", Boolean(data.whole));
  if (root.tabIndex < 0) root.tabIndex = 0;
  const parts = new Map([...root.querySelectorAll("[data-part]")].map((part) => [part.dataset.part, part]));
  const by = (name) => parts.get(name);
  const run = new Run(data.listing, data.trace || data.printed), words = new Words(run, data.text, data.names);
  const printed = data.printed.split("\n").filter((line) => line && !isEvent(line));
  const answered = run.ofBox.length ? run.ofBox[0][0] || NEVER : NEVER;
  const labels = run.graph.map((_, number) => labelOf(number)), layouts = new Map(), marks = new Map();
  const closed = new Set();
  let at = 0, timer = null, chosen = null, shownFrame = null, pinned = null, allBlocks = false, revealed = false;
  let quizzes = false, asks = false, right = 0, guesses = 0;
  let drawing = null, rows = [], waiting = [], flying = [], typed = "", typedAt = 0;

  // The two lines of a box: its number and what it is of; its operator and its place.
  function labelOf(number) {
    const instr = run.graph[number];
    const name = words.names[number] || (instr.op === "const" ? instr.args[0] : SIGNS[instr.op]);
    return [`${number} ${name || plainName(number, instr)}`, `${instr.op} ${instr.place}`];
  }

  // What stands in a box of an instruction without a name.
  function plainName(number, instr) {
    const reply = words.replyOf.get(number), word = words.wordAt(instr.place), isSignal = instr.args[0] === "signal";
    const short = (name) => (name === GOES_ON ? "more?" : name.replace(/ \(\d+:\d+\)$/, "").replace(/^its /, ""));
    const enters = (enter) => words.isLoop(Number(enter.args[0]));
    if (number === 0) return "answer";
    if (reply !== undefined && run.graph[reply].op === "enter") return enters(run.graph[reply]) ? "loop" : word;
    if (reply !== undefined) return `${words.target(instr.place)}[..]`;
    switch (instr.op) {
      case "enter": return enters(instr) ? "enter loop" : `call ${words.callee(number)}`;
      case "send": return short(words.valueName(Number(instr.args[1])));
      case "next": return `next ${short(words.nextName(number))}`.trim();
      case "address": case "fetch": case "store": return `${words.target(instr.place)}[..]`;
      case "switch": {
        const what = isSignal ? "" : short(words.switchedName(number));
        return `${word === "if" ? "if" : "switch"} ${what}`.trim();
      }
      case "back": case "reset": return instr.op;
      case "merge":
        if (isSignal) return "begin";
        if (words.entries.has(number)) return short(words.valueName(number));
    }
    return word === "{" ? "loop" : word || instr.op;
  }

  // ---- the graph

  function arc(places, number, dest, kind) {
    const a = places.get(number), b = places.get(dest.instr);
    if (!a || !b) return "";
    const from = { x: a.x + a.wide / 2, y: a.y + HIGH }, to = { x: portX(b, dest), y: b.y };
    const bend = to.y > from.y ? Math.max(14, (to.y - from.y) / 2) : 30;
    const curve = `M${from.x} ${from.y} C${from.x} ${from.y + bend} ${to.x} ${to.y - bend} ${to.x} ${to.y}`;
    return `<path class="arc ${kind}" data-arc="${number}-${dest.instr}-${dest.port}" d="${curve}"/>`;
  }

  // Where a port is on the upper edge of its box.
  function portX(place, dest) {
    const aside = run.graph[dest.instr].ports === 2 ? Math.min(22, place.wide / 4) : 0;
    return place.x + place.wide / 2 + (dest.port ? aside : -aside);
  }

  function boxText(number, { x, y, wide }) {
    const instr = run.graph[number], line = [number, instr.op, ...instr.args].join(" ");
    const [name, rest] = labels[number].map(escaped), ports = run.graph[number].ports === 2 ? [0, 1] : [0];
    const inputs = ports.map((port) => `<text class="in" data-in="${number}.${port}" y="${y - 4}" ` +
      `x="${portX({ x, wide }, { instr: number, port })}"></text>`);
    const out = `<text class="out" data-out="${number}" x="${x + wide / 2 + 4}" y="${y + HIGH + 12}"></text>`;
    return `<g class="box" data-box="${number}"><title>${escaped(`${words.thing(number)}: ${line}`)}</title>` +
      `<rect class="node" data-node="${number}" rx="4" x="${x}" y="${y}" width="${wide}" height="${HIGH}"/>` +
      `<text x="${x + 5}" y="${y + 14}">${name}</text><text class="dim" x="${x + 5}" y="${y + 28}">${rest}</text>` +
      `${out}${inputs.join("")}</g>`;
  }

  // A picture of these blocks, one below the other.
  function draw(blocks) {
    const count = blocks.reduce((sum, block) => sum + block.to - block.from, 0);
    if (count > MOST_BOXES) {
      by("graph").innerHTML = `<p class="dim">${count} boxes are too many to draw.</p>`;
      drawing = { key: "", nodes: new Map(), arcs: new Map(), ins: new Map(), outs: new Map(), lit: [] };
      return;
    }
    let top = 4, width = 80, boxes = "", arcs = "", frames = "";
    const places = new Map();
    for (const block of blocks) {
      if (!layouts.has(block)) layouts.set(block, layoutOf(run.graph, block, labels));
      const layout = layouts.get(block), name = escaped(words.title(block));
      const wide = Math.max(layout.width, 24 + LETTER * name.length);
      frames += `<rect class="block" rx="6" x="2" y="${top}" width="${wide}" height="${layout.height}"/>`;
      frames += `<text class="dim" x="8" y="${top + 14}">${name}</text>`;
      layout.places.forEach((it, number) => places.set(number, { x: it.x + 2, y: it.y + top, wide: it.wide }));
      width = Math.max(width, wide + 4);
      top += layout.height + 8;
    }
    places.forEach((place, number) => {
      const instr = run.graph[number], grey = instr.args[0] === "signal" && instr.op !== "back" ? "signal" : "";
      // a `next` sends to the frame of the next iteration, which is another picture
      if (allBlocks || instr.op !== "next") instr.yes.forEach((dest) => { arcs += arc(places, number, dest, grey); });
      instr.no.forEach((dest) => { arcs += arc(places, number, dest, grey + " false"); });
      const reply = instr.op === "enter" || instr.op === "fetch" ? Number(instr.args[instr.args.length - 1]) : null;
      if (reply !== null) arcs += arc(places, number, { instr: reply, port: 0 }, "reply");
      boxes += boxText(number, place);
    });
    const svg = `<svg viewBox="0 0 ${width} ${top}" role="img" aria-label="graph">${frames}${arcs}${boxes}</svg>`;
    by("graph").innerHTML = svg;
    const found = (name) => [...by("graph").querySelectorAll(`[data-${name}]`)];
    const all = (name) => new Map(found(name).map((it) => [it.dataset[name], it]));
    drawing = { width, height: top, nodes: all("node"), arcs: all("arc"), ins: all("in"), outs: all("out"), lit: [] };
    fit();
  }

  // The picture's size: as wide as its room, if letters stay readable.
  function fit() {
    const svg = by("graph").querySelector("svg"), room = by("graph");
    if (!svg || !room.clientWidth) return;
    let scale = Math.min(1.35, (room.clientWidth - 4) / drawing.width);
    const low = room.clientHeight / drawing.height;
    if (scale > low) scale = Math.max(low, Math.min(scale, 0.8));
    scale = Math.max(scale, 0.5);
    svg.setAttribute("width", Math.floor(drawing.width * scale));
    svg.setAttribute("height", Math.floor(drawing.height * scale));
  }

  // The box of an event: of a read, the fetch that asks.
  const atEvent = (event) => (event.kind === "read" ? words.replyOf.get(event.instr) : event.instr);

  // What each box has behind this event: in one frame, or, where all blocks are shown, in all.
  function paint(event) {
    drawing.lit.forEach((undo) => undo());
    drawing.lit = [];
    const add = (part, name) => {
      if (!part) return;
      part.classList.add(name);
      drawing.lit.push(() => part.classList.remove(name));
    };
    const write = (part, text, name) => {
      if (!part) return;
      part.textContent = text.length > 12 ? text.slice(0, 11) + "…" : text;
      add(part, name);
      drawing.lit.push(() => { part.textContent = ""; });
    };
    const node = (number) => drawing.nodes.get(String(number));
    const port = (it) => drawing.ins.get(`${it.instr}.${it.port}`);
    const inFrame = (it) => it.context === shownFrame.context && it.iteration === shownFrame.iteration;
    const sign = (value) => ({ s: value === "signal" && "•", k: "↩", c: "▭" }[value[0]] || words.value(value));
    if (shownFrame) {
      for (const number of shownFrame.events) {
        if (number > at) break;
        const it = run.events[number];
        if (!it.fires) continue;
        if (it.result && it.result !== "signal") write(drawing.outs.get(String(it.instr)), sign(it.result), "gave");
        add(node(it.instr), "done");
      }
    }
    waiting.forEach((number) => {
      const it = run.events[number];
      if (!allBlocks && !inFrame(it)) return;
      add(node(it.instr), "waits");
      if (it.kind === "token" && inFrame(it)) write(port(it), sign(it.value), "waits");
    });
    flying.forEach((id) => {
      const it = run.messages[id];
      if (it.kind !== "token" || (!allBlocks && !inFrame(it))) return;
      add(node(it.instr), "flies");
      write(port(it), sign(it.value), "flies");
    });
    if (!event) return;
    run.sendsOf(at).forEach((it) => {
      if (!allBlocks && !inFrame(it)) return;
      add(node(it.instr), "sent");
      add(drawing.arcs.get(`${atEvent(event)}-${it.instr}-${it.port}`), "sent");
    });
    if (allBlocks || inFrame(event)) {
      add(node(atEvent(event)), "now");
      reveal(node(atEvent(event)));
    }
  }

  // Scrolls the picture alone so that a box is in sight.
  function reveal(node) {
    if (!node) return;
    const room = by("graph"), a = node.getBoundingClientRect(), b = room.getBoundingClientRect();
    if (a.left < b.left || a.right > b.right) room.scrollLeft += a.left - b.left - (b.width - a.width) / 2;
    if (a.top < b.top || a.bottom > b.bottom) room.scrollTop += a.top - b.top - (b.height - a.height) / 2;
  }

  // ---- the text

  // The text; a click on a word goes to the next event of what stands there.
  function showText() {
    const bytes = new TextEncoder();
    by("text").innerHTML = data.text.split("\n").map((text, index) => {
      let column = 1, out = "";
      for (const [word] of text.matchAll(/%.*|\w+|<-|[<>=]=|<>|\s+|./gu)) {
        const place = index + 1 + ":" + column, shown = escaped(word);
        const box = words.boxes.get(place);
        if (box !== undefined) out += `<span class="go" data-box="${box}" data-place="${place}">${shown}</span>`;
        else out += word[0] === "%" ? `<span class="dim">${shown}</span>` : shown;
        column += bytes.encode(word).length;
      }
      return out;
    }).join("\n");
    by("text").querySelectorAll("[data-place]").forEach((it) => marks.set(it.dataset.place, it));
  }

  function mark(event) {
    by("text").querySelectorAll(".mark").forEach((it) => it.classList.remove("mark"));
    const instr = event && run.graph[atEvent(event)], word = instr && marks.get(instr.place);
    if (!word) return;
    word.classList.add("mark");
    const room = by("text"), a = word.getBoundingClientRect(), b = room.getBoundingClientRect();
    if (a.top < b.top || a.bottom > b.bottom) room.scrollTop += a.top - b.top - b.height / 2;
  }

  // The lines that the run prints, each once its event has come.
  function showReport() {
    const isOut = (line) => revealed || at === run.last || (/^answer /.test(line) && answered <= at) ||
      (/^fault /.test(line) && run.faults.length && run.faults[0] <= at);
    const out = printed.filter(isOut);
    const hidden = out.length < printed.length;
    const rest = hidden ? ['<span class="dim">hidden until it is there</span>'] : [];
    by("report").innerHTML = [...out.map(escaped), ...rest].join("\n");
    by("reveal").hidden = !hidden;
  }

  // ---- frames

  // The frames behind this event, as a tree: a call is a row, and so are a loop and each of its iterations.
  function treeAt() {
    const found = [], root = run.frames.find((frame) => frame.context === "0.0" && frame.iteration === 0);
    const stack = root ? [{ frame: root, depth: 0, key: "c0.0" }] : [];
    while (stack.length) {
      const row = stack.pop();
      let inner = [];
      if (row.frame) inner = (row.frame.inner || []).filter((it) => it.event <= at).map((it) => {
        const key = "c" + it.context;
        return words.blocks[words.blockOf[it.block]].isLoop ? { loop: it, depth: row.depth + 1, key }
          : { frame: it.frames[0], depth: row.depth + 1, key };
      });
      else inner = row.loop.frames.filter((it) => it.born <= at)
        .map((frame) => ({ frame, depth: row.depth + 1, key: `c${frame.context}#${frame.iteration}`, isTurn: true }));
      row.inner = inner.length;
      found.push(row);
      if (!closed.has(row.key)) stack.push(...inner.reverse());
    }
    return found;
  }

  function frameRow(index) {
    const row = rows[index], step = Math.min(14, 150 / Math.max(1, rows.deepest));
    const sign = row.inner ? (closed.has(row.key) ? "▸" : "▾") : "";
    const frame = row.frame || row.loop.frames[0];
    const given = !row.isTurn && frame && frame.given && frame.given <= at ? run.events[frame.given].result : null;
    let name, bound = [];
    if (row.loop) name = words.title(words.blocks[words.blockOf[row.loop.block]]);
    else {
      name = row.isTurn ? "#" + frame.iteration : words.frameName(frame, at);
      bound = words.bound(frame, at).filter((it) => row.isTurn || !words.entries.has(it.instr));
    }
    const values = bound.map((it) => `${it.name}=${it.value}`).join(" ");
    const ours = row.frame ? [row.frame.id] : closed.has(row.key) ? row.loop.frames.map((it) => it.id) : [];
    const waits = ours.reduce((sum, id) => sum + (rows.waits.get(id) || 0), 0);
    const flies = ours.reduce((sum, id) => sum + (rows.flies.get(id) || 0), 0);
    const left = (row.depth * step).toFixed(1);
    const html = `<span class="fold" data-fold="${row.key}" style="margin-left:${left}px">${sign}</span>` +
      `<b>${escaped(name)}</b> <span class="values">${escaped(values)}</span>` +
      (given !== null ? ` <b class="gave">= ${escaped(words.value(given))}</b>` : "") +
      (waits ? ` <span class="badge waits" title="values that wait">${waits}</span>` : "") +
      (flies ? ` <span class="badge flies" title="in flight">${flies}</span>` : "");
    const isNow = row.frame && row.frame === shownFrame, isDone = given !== null && !waits && !flies;
    const data = row.frame ? `data-frame="${row.frame.id}"` : "";
    return { html, name: `frame${isNow ? " here" : ""}${isDone ? " over" : ""}`, data };
  }

  function showFrames() {
    rows = treeAt();
    rows.deepest = rows.reduce((most, row) => Math.max(most, row.depth), 0);
    rows.waits = new Map();
    rows.flies = new Map();
    const count = (map, it) => {
      const id = run.frameIds.get(it.context + "#" + it.iteration);
      map.set(id, (map.get(id) || 0) + 1);
    };
    waiting.forEach((number) => count(rows.waits, run.events[number]));
    flying.forEach((id) => count(rows.flies, run.messages[id]));
    const here = rows.findIndex((row) => row.frame === shownFrame);
    lists.frames.set(rows.length, here < 0 ? null : here);
  }

  // ---- arrays

  function cellText(index, cell, asked) {
    const name = cell ? (cell.event === at ? "now" : "full") : asked ? "waits" : "";
    const value = cell ? escaped(words.value(cell.value)) : "&nbsp;";
    const tells = asked ? `title="${asked} wait for it"` : "";
    return `<span class="cell ${name}" ${tells}><i>${index}</i>${value}</span>`;
  }

  function showArrays() {
    const made = [...run.structures.values()].filter((it) => it.event <= at);
    by("arraypanel").hidden = made.length === 0;
    const asked = new Map();
    waiting.forEach((number) => {
      const it = run.events[number];
      if (it.kind === "read") asked.set(it.cell, (asked.get(it.cell) || 0) + 1);
    });
    by("arrays").innerHTML = made.slice(0, 40).map((it) => {
      const cells = new Map(it.cells.filter((cell) => cell.event <= at).map((cell) => [Number(cell.index), cell]));
      const low = Number(it.low), high = Math.min(Number(it.high), low + 63), shown = [];
      for (let index = low; index <= high; index++) {
        shown.push(cellText(index, cells.get(index), asked.get(`${it.name}[${index}]`)));
      }
      const more = Number(it.high) > high ? ` <span class="dim">.. ${it.high}</span>` : "";
      const { context, iteration } = run.events[it.event], path = run.path(run.frame(context, iteration));
      const name = `<b title="${escaped(it.name + " " + path)}">${escaped(words.structure(it.name))}</b>`;
      return `<div class="array">${name} ${shown.join("")}${more}</div>`;
    }).join("") + (made.length > 40 ? `<div class="dim">and ${made.length - 40} more</div>` : "");
  }

  // ---- lists

  // What is told where the pointer rests: the whole row, the message as the trace has it, and its path.
  const tip = (said, it, frame) => `title="${escaped(`${said}\n${it.text} ${run.path(frame)}`)}"`;

  // A message, by which a click goes to the event that handles it.
  function messageRow(id) {
    const it = run.messages[id], frame = run.frame(it.context, it.iteration), taken = run.takenAt[id];
    const where = frame !== shownFrame ? ` <span class="path">${escaped(words.frameName(frame, at))}</span>` : "";
    const data = taken === NEVER ? "" : `data-go="${taken}"`, said = words.message(it);
    return { html: escaped(said) + where, name: "go", data: `${data} ${tip(said, it, frame)}` };
  }

  function waitRow(number) {
    const it = run.events[number], frame = run.frame(it.context, it.iteration);
    const isRead = it.kind === "read", name = isRead && words.cellAt(words.replyOf.get(it.instr), it.cell);
    const said = isRead ? `${name} waits for a store` : words.lacks(it);
    const where = frame !== shownFrame ? ` <span class="path">${escaped(words.frameName(frame, at))}</span>` : "";
    return { html: escaped(said) + where, name: "go", data: `data-frame="${frame.id}" ${tip(said, it, frame)}` };
  }

  function storyRow(index) {
    const number = index + 1, name = `go${number === at ? " here" : ""}${run.events[number].end ? " bad" : ""}`;
    const said = escaped(words.sentence(number)), data = `data-go="${number}" title="${said}"`;
    return { html: `<span class="dim number">${number}</span> ${said}`, name, data };
  }

  const lists = {
    frames: new List(by("frames"), frameRow, 21),
    waiting: new List(by("waiting"), (index) => waitRow(waiting[waiting.length - 1 - index])),
    flight: new List(by("flight"), (index) => messageRow(flying[index])),
    story: new List(by("story"), storyRow),
  };

  function showElements(event) {
    if (run.elements === 1) return;
    const handled = new Array(run.elements).fill(0);
    for (let number = 1; number <= at; number++) handled[run.events[number].element] += 1;
    by("elements").innerHTML = "elements, and what each has handled: " + handled.map((count, number) =>
      `<span class="chip${event && event.element === number ? " now" : ""}">${number}: ${count}</span>`).join(" ");
  }

  // ---- what is shown

  // The event: its sentence, its frame, its line of the trace, and what is wrong with it.
  function eventText(event) {
    if (!run.last) return run.graph.length ? "There is no trace." : "There is no listing.";
    if (!event) return `<b>The start</b><br><span class="dim">what is in flight now is there before any event</span>`;
    const bad = run.bad.find((it) => it.at === at), frame = run.frame(event.context, event.iteration);
    const path = run.path(frame), end = path.indexOf("/", path.length - 40);
    const tail = path.length > 60 ? "/.." + path.slice(end) : path;
    const line = `${event.stamp} ${event.element} ${event.text} ${event.end} ${tail}`.replace("  ", " ");
    const name = `<span class="path">in ${escaped(words.frameName(frame, at))}</span>`;
    return `<b class="${event.end ? "bad" : ""}">${escaped(words.sentence(at))}</b>` +
      `<br>${name} <span class="dim mono" title="${escaped(path)}">${escaped(line)}</span>` +
      (bad ? `<br><b class="bad">${escaped(bad.why)}</b>` : "");
  }

  function showSent() {
    const from = at ? run.sendsFrom[at] : 0, end = run.sendsFrom[at + 1];
    const some = [];
    for (let id = from; id < Math.min(end, from + 12); id++) {
      const { html, name, data: more } = messageRow(id);
      some.push(`<div class="${name}" ${more}>${html}</div>`);
    }
    if (end > from + 12) some.push(`<div class="dim">and ${end - from - 12} more</div>`);
    by("sent").innerHTML = some.join("") || '<span class="dim">nothing</span>';
  }

  function showGraph(event) {
    if (!run.graph.length) return;
    const block = words.blocks[shownFrame ? words.blockAt(shownFrame) : 0], key = allBlocks ? "all" : block.from;
    if (!drawing || drawing.key !== key) {
      draw(allBlocks ? words.blocks : [block]);
      drawing.key = key;
    }
    by("frameview").classList.toggle("on", !allBlocks);
    by("wholeview").classList.toggle("on", allBlocks);
    const name = shownFrame ? escaped(words.frameName(shownFrame, at)) : "";
    by("where").innerHTML = `Graph of <span class="path">${name}</span>`;
    paint(event);
  }

  function show() {
    const event = at > 0 ? run.events[at] : null;
    flying = run.flying(at);
    waiting = run.waiting(at);
    shownFrame = pinned || (event ? run.frame(event.context, event.iteration) : run.frames[0] || null);
    by("slider").value = at;
    by("count").textContent = `${at} of ${run.last}`;
    by("event").innerHTML = eventText(event);
    showSent();
    mark(event);
    showReport();
    // these take room from the lists, which want to know theirs
    showArrays();
    showElements(event);
    by("flying").textContent = `In flight: ${flying.length}`;
    by("waithead").textContent = `Waits: ${waiting.length}`;
    lists.story.set(at, at ? at - 1 : null);
    lists.waiting.set(waiting.length);
    lists.flight.set(flying.length);
    showFrames();
    showGraph(event);
  }

  function go(to) {
    const next = Math.max(0, Math.min(run.last, Math.floor(to) || 0));
    if (quizzes && !asks && next === at + 1) {
      asks = true;
      by("event").textContent = `Which message is handled next? Choose one of those in flight, or go on.${score()}`;
      return;
    }
    at = next;
    asks = false;
    pinned = null;
    show();
  }

  const score = () => (guesses ? ` ${right} of ${guesses} were right.` : "");

  // Says whether the message that was chosen is the one that is handled next, and goes there.
  function guessed(to) {
    const isRight = to === at + 1;
    guesses += 1;
    right += isRight;
    go(at + 1);
    by("event").prepend(`${isRight ? "Right." : "No, it is this one."}${score()} `);
  }

  function quiz() {
    [quizzes, asks, right, guesses] = [!quizzes, false, 0, 0];
    by("quiz").classList.toggle("on", quizzes);
    show();
  }

  function play() {
    if (timer) { clearInterval(timer); timer = null; by("play").textContent = "play"; return; }
    by("play").textContent = "stop";
    timer = setInterval(() => (at < run.last ? go(at + 1) : play()), 450);
  }

  // The next of these events behind this one, or the first.
  function after(list) {
    if (list.length) go(list.find((number) => number > at) || list[0]);
  }

  function view(all) {
    allBlocks = all;
    show();
  }

  function click(press) {
    const near = (what) => press.target.closest(`[data-${what}]`);
    const fold = near("fold"), box = near("box"), to = near("go"), frame = near("frame");
    if (fold && fold.textContent) {
      if (!closed.delete(fold.dataset.fold)) closed.add(fold.dataset.fold);
      showFrames();
    } else if (box) {
      chosen = Number(box.dataset.box);
      after(run.ofBox[chosen]);
    } else if (to && asks && to.closest(".flight")) guessed(Number(to.dataset.go));
    else if (to) go(Number(to.dataset.go));
    else if (frame) {
      pinned = run.frames[Number(frame.dataset.frame)];
      show();
    }
    if (press.target.closest("button")) root.focus({ preventScroll: true });
  }

  // Digits that are typed one soon after the other are an event's number.
  function digit(sign) {
    const now = Date.now();
    typed = now - typedAt < 1200 ? typed + sign : sign;
    typedAt = now;
    go(Number(typed));
  }

  function key(press) {
    const tag = press.target.tagName;
    if (/^(TEXTAREA|SELECT|BUTTON|SUMMARY)$/.test(tag) || press.ctrlKey || press.metaKey || press.altKey) return;
    if (press.target.isContentEditable || (tag === "INPUT" && press.target !== by("slider"))) return;
    const moves = { ArrowLeft: at - 1, ArrowRight: at + 1, ArrowUp: at - 1, ArrowDown: at + 1, PageUp: at - 10,
      PageDown: at + 10, Home: 0, End: run.last };
    const to = (list) => () => after(list);
    const does = { " ": play, f: to(run.faults), w: to(run.waits), g: () => view(!allBlocks), b: boxOn, q: quiz };
    if (press.key in moves) go(moves[press.key]);
    else if (/^\d$/.test(press.key)) digit(press.key);
    else if (press.key in does) does[press.key]();
    else return;
    press.preventDefault();
  }

  // The next event of the box that was chosen, or of this event's.
  function boxOn() {
    if (chosen === null && at > 0) chosen = run.events[at].instr;
    after(run.ofBox[chosen] || []);
  }

  // Keys are heard in the walk alone, or, where the page is nothing but the walk, in all of it.
  const ear = data.whole ? root.ownerDocument : root;
  const resized = () => {
    fit();
    Object.values(lists).forEach((list) => list.refresh());
  };
  const sizes = typeof ResizeObserver === "undefined" ? null : new ResizeObserver(resized);

  function unmount() {
    if (timer) clearInterval(timer);
    if (sizes) sizes.disconnect();
    ear.removeEventListener("keydown", key);
    root.removeEventListener("click", click);
    root.classList.remove("walk", "alone");
    root.innerHTML = "";
    mounted.delete(root);
  }

  by("wrong").onclick = () => go(run.bad[0].at);
  by("first").onclick = () => go(0);
  by("back").onclick = () => go(at - 1);
  by("forth").onclick = () => go(at + 1);
  by("last").onclick = () => go(run.last);
  by("play").onclick = play;
  by("quiz").onclick = quiz;
  by("frameview").onclick = () => view(false);
  by("wholeview").onclick = () => view(true);
  by("reveal").onclick = () => { revealed = true; showReport(); };
  by("slider").oninput = () => go(Number(by("slider").value));
  by("slider").max = run.last;
  by("title").textContent = data.title;
  const first = run.bad[0];
  if (first) {
    by("wrong").classList.add("there");
    const { text } = run.events[first.at];
    by("wrong").textContent = `The trace is not of this graph: event ${first.at}, ${text}: ${first.why}`;
  }
  ear.addEventListener("keydown", key);
  root.addEventListener("click", click);
  showText();
  go(Number(data.at));
  if (sizes) sizes.observe(root);
  mounted.set(root, { go, unmount });
  return mounted.get(root);
}

// The sentences of a run, one for each event: what the page tells, for a look at it without one.
function wordsOf({ listing, trace, text = "", names = {} }) {
  const run = new Run(listing, trace), words = new Words(run, text, names);
  return run.events.slice(1).map((event, index) => {
    const frame = run.frame(event.context, event.iteration);
    return `${index + 1} ${words.frameName(frame, index + 1)}: ${words.sentence(index + 1)}`;
  });
}

// As a command: node walk.js LISTING TRACE SOURCE prints these sentences.
if (typeof module !== "undefined") {
  module.exports = { wordsOf, Run, Words };
  if (require.main === module) {
    const [listing, trace, text] = process.argv.slice(2).map((name) => require("fs").readFileSync(name, "utf8"));
    process.stdout.write(wordsOf({ listing, trace, text }).map((line) => line + "\n").join(""));
  }
}
Object.assign(mountWalk, { Run, readListing });
return mountWalk;
})();
