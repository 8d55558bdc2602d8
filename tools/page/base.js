"use strict";
// What the page's other parts stand on: elements, and the program in workers, so that a run can be ended.

const by = (id) => document.getElementById(id);
const dataOf = (id) => JSON.parse(by(id).textContent);
const CLASSES = dataOf("classes"), FILE = "text.id";
// What is shown at once of long lists and outputs; the rest on demand.
const MOST = { colours: 60000, characters: 60000, cells: 400, rows: 300, boxes: 700, text: 1048577 };
Object.assign(MOST, { walk: 50000, profile: 300000, orders: 40, seeds: 1000 });

// An element with attributes and parts: text, or elements.
function made(kind, attributes = {}, ...parts) {
  const it = document.createElement(kind);
  for (const [name, value] of Object.entries(attributes)) {
    if (name.startsWith("on")) it[name] = value;
    else if (value !== false) it.setAttribute(name, value === true ? "" : value);
  }
  it.append(...parts);
  return it;
}

// ---- the program, in workers, so that a run can be ended

let compiled = null;

async function compile() {
  const packed = Uint8Array.from(atob(by("wasm").textContent), (letter) => letter.charCodeAt(0));
  const stream = new Blob([packed]).stream().pipeThrough(new DecompressionStream("gzip"));
  return WebAssembly.compile(await new Response(stream).arrayBuffer());
}

const ANSWERING = `
let compiled;
onmessage = ({ data }) => {
  if (data.module) compiled = data.module;
  const start = performance.now(), answer = idc(compiled, data.words, data.files);
  const took = performance.now() - start, { number } = data;
  postMessage({ ...answer, number, took }, [answer.out.buffer, answer.err.buffer]);
};`;
const ANSWERER = URL.createObjectURL(new Blob([by("core").textContent, ANSWERING], { type: "text/javascript" }));

class Ended extends Error {}

// A worker that answers calls one after the other; `end` gives up those that are under way.
class Caller {
  constructor() {
    this.worker = null;
    this.waiting = new Map();
    this.count = 0;
  }

  ask(words, files) {
    return new Promise((done, failed) => {
      const isNew = !this.worker, number = ++this.count;
      if (isNew) this.begin();
      this.waiting.set(number, { done, failed });
      this.worker.postMessage({ number, words, files, module: isNew ? compiled : null });
    });
  }

  begin() {
    this.worker = new Worker(ANSWERER);
    this.worker.onmessage = ({ data }) => {
      this.waiting.get(data.number).done({ ...data, ...textsOf(data) });
      this.waiting.delete(data.number);
    };
    this.worker.onerror = (event) => this.end(new Error(event.message));
  }

  isBusy() {
    return this.waiting.size > 0;
  }

  end(why = new Ended("stopped")) {
    if (this.worker) this.worker.terminate();
    this.worker = null;
    this.waiting.forEach(({ failed }) => failed(why));
    this.waiting.clear();
  }
}

// What was written, as text; all that the program prints is UTF-8.
function textsOf({ out, err }) {
  const decoder = new TextDecoder();
  return { printed: decoder.decode(out), refused: decoder.decode(err) };
}


