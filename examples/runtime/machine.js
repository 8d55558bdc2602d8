#!/usr/bin/env node
// machine.js FILE LISTING [NAME=VALUE ..] [--elements N] [--steps N] [--order first|last|SEED] [--logs NAME]: runs a
// graph, and prints the trace of that run.
//
// LISTING is what `idc graph FILE` prints. This machine is written from docs/RUNTIMES.md and the pages that it names. It
// shares nothing with idc or machine.py. It handles the newest of its messages first, with `--order first` the oldest,
// and with a number, its seed, any of them. It ends where no message is left, behind a fault, or after so many messages,
// a million where nothing else is said. With --logs each element is worked by a worker thread of its own, and the events
// of the element E come to the file NAME.E. Where it crashes it prints first what it has done.
"use strict";
const fs = require("fs");
const { Worker, MessageChannel, isMainThread, parentPort, workerData } = require("worker_threads");

const LEAST = -(2n ** 63n), MOST = 2n ** 63n - 1n;
const LARGEST = 1000000n; // the most cells of a structure
const ONE_PORT = new Set(["const", "neg", "not", "merge", "enter", "next", "reset", "fetch"]);

class Fault extends Error {}

// ---- the listing

// A line: NUMBER OPERATOR WORDS @LINE:COLUMN -> DESTINATIONS | DESTINATIONS.
function instrOf(line) {
  const [, head, place, tail] = /^\d+ (.*) @(\d+:\d+) ->(.*)$/.exec(line);
  const [op, ...words] = head.split(" ");
  const [dests, others] = (tail + "|").split("|").map((side) =>
    side.split(" ").filter(Boolean).map((to) => to.split(".").map(Number)));
  const value = op === "const" ? valueOf(words[0]) : null;
  return { op, words, place, dests, others, names: words.map(Number), value };
}

function valueOf(word) {
  return word === "true" || word === "false" ? word === "true" : BigInt(word);
}

// The first instruction of main's block.
function mainBlock(graph) {
  return graph.findIndex((it, number) => number > 0 && it.place === graph[0].place);
}

// The inputs in the order of main's entries, each of which has the place of its parameter's name.
function inputsOf(text, graph, words) {
  const given = new Map(words.map((word) => word.split("=")));
  return graph.slice(mainBlock(graph) + 2).slice(0, words.length).map((entry) => {
    const [line, column] = entry.place.split(":").map(Number);
    // columns count bytes
    const behind = Buffer.from(text.split("\n")[line - 1]).subarray(column - 1).toString();
    return valueOf(given.get(/^\w*/.exec(behind)[0]));
  });
}

// ---- what a trace shows. A number is a BigInt and a truth value a boolean; all other values say their kind.

const tagText = (context, iteration) => `${context.element}.${context.number}#${iteration}`;

function shown(value) {
  switch (value.kind) {
    case "signal": return "signal";
    case "structure": return `s${value.element}.${value.number}`;
    case "address": return `${shown(value.structure)}[${value.index}]`;
    case "context": return `c${value.element}.${value.number}`;
    case "continuation": return `k${tagText(value.context, value.iteration)}:${value.instr}`;
    default: return String(value);
  }
}

function shownMessage(it) {
  const tag = `c${tagText(it.context, it.iteration)}`;
  if (it.kind === "token") return `token ${tag} ${it.instr}.${it.port} ${shown(it.value)}`;
  if (it.kind === "read") return `read ${shown(it.cell)} ${tag} ${it.instr}`;
  return `write ${shown(it.cell)} ${shown(it.value)} ${tag} ${it.instr}`;
}

// ---- messages, with the tag that each is for: of a read that of its reply, of a write that of its store

const SIGNAL = { kind: "signal" };
const MAIN = { kind: "context", element: 0, number: 0 };

function token(context, iteration, instr, port, value) {
  return { kind: "token", context, iteration, instr, port, value };
}

function startMessages(graph, inputs) {
  const start = [SIGNAL, { kind: "continuation", context: MAIN, iteration: 0, instr: 0 }, ...inputs];
  return start.map((value, number) => ({ ...token(MAIN, 0, mainBlock(graph) + number, 0, value), stamp: 0 }));
}

function routeOf(it, count) {
  if (it.kind === "token") return (it.context.element + it.context.number + it.iteration) % count;
  const { structure, index } = it.cell;
  return Number((BigInt(structure.element + structure.number) + index - structure.low) % BigInt(count));
}

// ---- what operators give

function checked(number) {
  if (number < LEAST || number > MOST) throw new Fault();
  return number;
}

function quotient(a, b) {
  if (b === 0n) throw new Fault();
  return checked(a / b); // rounds towards zero
}

const RESULTS = {
  neg: (a) => checked(-a), not: (a) => !a,
  add: (a, b) => checked(a + b), sub: (a, b) => checked(a - b), mul: (a, b) => checked(a * b),
  div: quotient, rem: (a, b) => a - b * quotient(a, b),
  lt: (a, b) => a < b, le: (a, b) => a <= b, gt: (a, b) => a > b, ge: (a, b) => a >= b,
  eq: (a, b) => a === b, ne: (a, b) => a !== b, eqb: (a, b) => a === b, neb: (a, b) => a !== b,
  and: (a, b) => a && b, or: (a, b) => a || b,
  merge: (a) => a, next: (a) => a, reset: (a) => a, switch: (a, b) => b,
};

// ---- an element: what it has counted, what waits there, and what its cells hold

class Element {
  constructor(number, graph) {
    Object.assign(this, { number, graph, stamp: 0, contexts: 0, structures: 0, waiting: new Map(), cells: new Map() });
  }

  // Handles a message: the line of the event, what it sends, and whether it is a fault.
  handle(it) {
    this.stamp = Math.max(this.stamp, it.stamp) + 1;
    const line = `${this.stamp} ${this.number} ${shownMessage(it)}`;
    try {
      const sent = it.kind === "token" ? this.token(it) : it.kind === "read" ? this.read(it) : this.write(it);
      for (const message of sent) message.stamp = this.stamp;
      return { line: line + "\n", sent, failed: false };
    } catch (error) {
      if (!(error instanceof Fault)) throw error;
      return { line: line + " fault\n", sent: [], failed: true };
    }
  }

  token(it) {
    const instr = this.graph[it.instr];
    if (ONE_PORT.has(instr.op)) return this.fired(instr, it, it.value);
    const key = `${tagText(it.context, it.iteration)} ${it.instr}`;
    const first = this.waiting.get(key);
    if (first === undefined) {
      this.waiting.set(key, it.value);
      return [];
    }
    this.waiting.delete(key);
    return it.port === 0 ? this.fired(instr, it, it.value, first) : this.fired(instr, it, first, it.value);
  }

  // What a cell holds: { value }, or { replies }, the reads that wait for one.
  cell(address) {
    const key = shown(address);
    if (!this.cells.has(key)) this.cells.set(key, { replies: [] });
    return this.cells.get(key);
  }

  read(it) {
    const cell = this.cell(it.cell);
    if ("value" in cell) return [token(it.context, it.iteration, it.instr, 0, cell.value)];
    cell.replies.push(it);
    return [];
  }

  write(it) {
    const cell = this.cell(it.cell);
    if ("value" in cell) throw new Fault();
    this.cells.set(shown(it.cell), { value: it.value });
    return cell.replies.map((read) => token(read.context, read.iteration, read.instr, 0, it.value));
  }

  // What an instruction sends that fires under a tag on one operand or two.
  fired(instr, { context, iteration, instr: number }, a, b) {
    const out = (value, dests = instr.dests, turn = iteration) =>
      dests.map(([to, port]) => token(context, turn, to, port, value));
    switch (instr.op) {
      case "const": return out(instr.value);
      case "switch": return out(b, a ? instr.dests : instr.others);
      case "next": return out(a, instr.dests, iteration + 1);
      case "reset": return out(a, instr.dests, 0);
      case "back": return [token(a.context, a.iteration, a.instr, 0, b)];
      case "send": return [token(a, 0, instr.names[1], 0, b)];
      case "fetch": return [{ kind: "read", cell: a, context, iteration, instr: instr.names.at(-1) }];
      case "store": return [{ kind: "write", cell: a, value: b, context, iteration, instr: number }];
      case "enter": {
        const [block, reply] = instr.names, made = { kind: "context", element: this.number, number: ++this.contexts };
        const back = { kind: "continuation", context, iteration, instr: reply };
        return [...out(made), token(made, 0, block, 0, SIGNAL), token(made, 0, block + 1, 0, back)];
      }
      case "alloc":
        if (a - 1n > b || b - a >= LARGEST) throw new Fault();
        return out({ kind: "structure", element: this.number, number: ++this.structures, low: a, high: b });
      case "address":
        if (b < a.low || b > a.high) throw new Fault();
        return out({ kind: "address", structure: a, index: b });
      default: return out(RESULTS[instr.op](a, b));
    }
  }
}

// ---- one thread for all elements

// The place in a list of the message that is handled next, by an order; a seed draws.
function chooser(order) {
  if (order === "last") return (length) => length - 1;
  let state = Number(order);
  return (length) => {
    state = (Math.imul(state, 1664525) + 1013904223) >>> 0;
    return Math.floor((state / 2 ** 32) * length);
  };
}

function runAlone({ graph, inputs, elements: count, steps, order }) {
  const elements = [...Array(count)].map((_, number) => new Element(number, graph));
  const flight = startMessages(graph, inputs), choose = chooser(order);
  let lines = [], head = 0, failed = false;
  const print = () => fs.writeSync(1, lines.join("")), take = () => {
    if (order === "first") return flight[head++];
    const at = choose(flight.length), it = flight[at];
    flight[at] = flight[flight.length - 1]; // no order is asked for
    flight.pop();
    return it;
  };
  try {
    for (; flight.length > head && steps > 0 && !failed; steps--) {
      const it = take(), event = elements[routeOf(it, count)].handle(it);
      lines.push(event.line);
      flight.push(...event.sent);
      failed = event.failed;
      if (lines.length >= 4096) {
        print();
        lines = [];
      }
    }
  } finally {
    print(); // also where something was thrown
  }
}

// ---- a worker for each element, with a port to each other one

// What is in flight is counted in shared memory: an event adds what it sends before it takes its own message off, so
// the count is 0 only where nothing is in flight, and who takes off the last one tells all that it is the end.
function startWorkers(asked) {
  const left = new SharedArrayBuffer(4), count = asked.elements, start = startMessages(asked.graph, asked.inputs);
  new Int32Array(left)[0] = start.length;
  const workers = [...Array(count)].map((_, number) =>
    new Worker(__filename, { workerData: { ...asked, number, left } }));
  const ports = workers.map(() => []);
  for (let a = 0; a < count; a++) {
    for (let b = 0; b < a; b++) {
      const { port1, port2 } = new MessageChannel();
      ports[a].push({ to: b, port: port1 });
      ports[b].push({ to: a, port: port2 });
    }
  }
  workers.forEach((worker, number) => {
    const mine = start.filter((it) => routeOf(it, count) === number);
    worker.postMessage({ ports: ports[number], start: mine }, ports[number].map((it) => it.port));
    worker.on("message", () => workers.forEach((it) => it.postMessage("end")));
  });
}

function work({ graph, elements: count, logs, number, left }) {
  const element = new Element(number, graph), flying = new Int32Array(left), ports = [], log = `${logs}.${number}`;
  let lines = [], ended = false;
  fs.writeFileSync(log, "");
  const write = () => {
    fs.appendFileSync(log, lines.join(""));
    lines = [];
  };
  function handle(first) {
    const own = [first];
    while (own.length > 0 && !ended) {
      const event = element.handle(own.pop());
      lines.push(event.line);
      if (lines.length >= 4096) write();
      Atomics.add(flying, 0, event.sent.length);
      for (const it of event.sent) {
        const to = routeOf(it, count);
        if (to === number) own.push(it);
        else ports[to].postMessage(it);
      }
      if (Atomics.sub(flying, 0, 1) === 1 || event.failed) parentPort.postMessage("end");
    }
  }
  parentPort.on("message", (said) => {
    if (said === "end") {
      ended = true;
      write();
      process.exit();
    }
    for (const { to, port } of said.ports) {
      ports[to] = port;
      port.on("message", handle);
    }
    said.start.forEach(handle);
  });
  process.on("uncaughtExceptionMonitor", write); // what it has done is in the log also where it crashes
}

// ---- the words of the command

function asked(words) {
  const options = { elements: "1", steps: "1000000", order: "last", logs: "" }, plain = [];
  for (let i = 0; i < words.length; i++) {
    if (words[i].startsWith("--")) options[words[i].slice(2)] = words[++i];
    else plain.push(words[i]);
  }
  const [file, listing, ...inputs] = plain;
  const graph = fs.readFileSync(listing, "utf8").split("\n").filter(Boolean).map(instrOf);
  const { order, logs } = options, elements = Number(options.elements), steps = Number(options.steps);
  return { graph, inputs: inputsOf(fs.readFileSync(file, "utf8"), graph, inputs), elements, steps, order, logs };
}

if (!isMainThread) work(workerData);
else {
  const given = asked(process.argv.slice(2));
  if (given.logs) startWorkers(given);
  else runAlone(given);
}
