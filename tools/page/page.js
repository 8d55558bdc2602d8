"use strict";
// The page: inputs and settings, the commands, links, and how the page tries itself.

const THEMES = dataOf("examples"), OF = dataOf("of");
const STATUSES = {
  0: "done", 1: "the run stopped at a fault", 2: "refused", 3: "stopped at a limit", 4: "the command line is refused",
  5: "no file, or no memory", stack: "the browser's stack is too small for this text",
  trap: "the program ended at a check; please report it with this text",
};

// ---- inputs and settings

const values = new Map();
const wordsIn = (text) => text.split(/\s+/).filter(Boolean);
const fieldValue = (name) => by(name).value.trim();

// A field for a parameter; what was typed for a name is kept.
function inputField({ name, kind }) {
  const keep = (event) => values.set(name, event.target.value);
  const choices = ["", "true", "false"].map((it) => made("option", {}, it));
  const plain = { placeholder: "whole number", autocapitalize: "off", autocomplete: "off", spellcheck: "false" };
  const isBool = kind === "bool", number = { ...plain, oninput: keep };
  const field = isBool ? made("select", { onchange: keep }, ...choices) : made("input", number);
  field.dataset.name = name;
  field.value = values.get(name) || "";
  return made("label", {}, made("code", {}, name), " = ", field);
}

// The fields for those parameters of `main` that take an input.
function fields() {
  const wanted = parametersOf(tokens).filter((it) => it.kind === "int" || it.kind === "bool");
  const key = JSON.stringify(wanted);
  if (by("inputs").dataset.key === key) return;
  by("inputs").dataset.key = key;
  by("inputs").replaceChildren(...wanted.map(inputField));
}

// Fills the fields from words of a command line.
function setWords(words) {
  const rest = [], params = new Set(parametersOf(tokens).map((it) => it.name));
  values.clear();
  for (const name of ["order", "steps"]) by(name).value = "";
  for (const name of ["names", "trace"]) by(name).checked = false;
  by("elements").value = "1";
  for (let at = 0; at < words.length; at++) {
    const word = words[at], pair = /^([A-Za-z_][A-Za-z_0-9]*)=(.+)$/.exec(word);
    if (/^--(elements|order|steps)$/.test(word) && at + 1 < words.length) by(word.slice(2)).value = words[++at];
    else if (word === "--names" || word === "--trace") by(word.slice(2)).checked = true;
    else if (pair && !values.has(pair[1]) && params.has(pair[1])) values.set(pair[1], pair[2]);
    else rest.push(word);
  }
  by("more").value = rest.join(" ");
  delete by("inputs").dataset.key;
  fields();
}

// The words for `main`'s parameters, and those that are typed freely.
function inputWords() {
  const filled = [...by("inputs").querySelectorAll("[data-name]")].filter((it) => it.value.trim() !== "");
  return [...filled.map((it) => `${it.dataset.name}=${it.value.trim()}`), ...wordsIn(by("more").value)];
}

function settingWords() {
  const given = Object.entries({ elements: "1", order: "", steps: "" }).map(([name, usual]) => {
    const value = fieldValue(name);
    return value === "" || value === usual ? [] : ["--" + name, value];
  });
  return given.flat();
}

const allWords = () => [...inputWords(), ...settingWords(), ...printedWords()];
const printedWords = () => ["names", "trace"].filter((name) => by(name).checked).map((name) => "--" + name);

// ---- the commands

const TABS = { run: "Run", walk: "Walk", orders: "Orders", profile: "Profile", graph: "Graph", facts: "Facts" };
Object.assign(TABS, { tests: "Tests", check: "Check", help: "Help" });
const TRACED = ["walk", "orders", "profile"], UNPRINTED = ["help", "tests"];
const settings = { dot: false, triggers: false, calls: false, rounds: "100", beside: "", orders: "24", tests: "" };
const runner = new Caller(), reasoner = new Caller();
// the walk that is shown, the event to begin it with, and whether it takes the keys; and what the result is of
let tab = "run", performed = 0, shownWalk = null, shownOther = null, walkAt = 0, walkTakesKeys = false, shownOf = null;

function wordsOf(which) {
  if (which === "check" || which === "tests") return ["check", FILE];
  if (which === "graph") return ["graph", ...(settings.dot ? ["--dot"] : []), FILE];
  if (which === "facts") return ["facts", FILE, settings.rounds.trim(), ...inputWords()];
  if (which === "help") return ["help"];
  if (TRACED.includes(which)) return ["run", FILE, ...inputWords(), ...settingWords(), "--trace"];
  return ["run", FILE, ...inputWords(), ...settingWords(), ...printedWords()];
}

function checkbox(name, text) {
  const change = (event) => {
    settings[name] = event.target.checked;
    perform();
  };
  return made("label", {}, made("input", { type: "checkbox", checked: settings[name], onchange: change }), " " + text);
}

// What a tab has to choose beside the settings of a run.
function optionsOf(which) {
  if (which === "graph") {
    const drawn = [checkbox("triggers", "triggers"), checkbox("calls", "arcs between blocks")];
    return [...drawn, checkbox("dot", "print it for Graphviz")];
  }
  if (which === "tests") return [testsField(settings.tests, setTests)];
  const named = { facts: ["rounds", "rounds ", ""], walk: ["beside", "beside it the run in the order ", "seed"] };
  named.orders = ["orders", "beside this run those in the orders 1 to ", ""];
  if (!named[which]) return [];
  const [name, label, placeholder] = named[which];
  const field = { value: settings[name], size: "6", inputmode: "numeric", placeholder };
  const keepIt = (event) => { settings[name] = event.target.value; };
  const enter = (event) => { if (event.key === "Enter" && !event.ctrlKey) perform(); };
  return [made("label", {}, label, made("input", { ...field, oninput: keepIt, onkeydown: enter }))];
}

// What the program wrote, as it is. A long output is cut until all of it is asked for.
function showPrinted(text) {
  const isLong = text.length > MOST.characters;
  const all = () => {
    by("printed").textContent = text;
    by("rest").hidden = true;
    by("printed").focus();
  };
  by("printed").textContent = isLong ? text.slice(0, MOST.characters) : text;
  by("rest").hidden = !isLong;
  const told = `These are the first ${MOST.characters} of ${text.length} characters. `;
  by("rest").replaceChildren(told, made("button", { type: "button", onclick: all }, "Show all"));
}

function setBusy(busy) {
  by("go").disabled = busy;
  by("stop").disabled = !busy;
}

function showStatus(text, isBad) {
  by("status").textContent = text;
  by("status").className = isBad ? "bad" : "";
}

// Does what the chosen tab stands for, and shows it.
async function perform() {
  const which = tab, number = ++performed, files = { [FILE]: textNow() }, words = wordsOf(which);
  if (!compiled) return;
  if (runner.isBusy()) runner.end();
  if (reasoner.isBusy()) reasoner.end();
  if (which === "help") {
    showHelp();
    return;
  }
  setBusy(true);
  const slow = setTimeout(() => showStatus("running"), 150);
  try {
    const answer = await runner.ask(words, files);
    const more = await extra(which, files, answer);
    if (number !== performed) return;
    clearTimeout(slow);
    const told = `Status ${answer.status}: ${STATUSES[answer.status] || ""} (${answer.took.toFixed(1)} ms)`;
    show(which, words, told, answer.status !== 0);
    showPrinted(answer.printed + answer.refused);
    by("view").replaceChildren(...viewOf(which, answer, more));
    if (by("walk")) await mount(answer, more, files, number);
    if (by("orders")) await showOrders(answer, more, files, number);
    if (which === "tests" && answer.status === 0) await showTests(files, number);
    if (which === "run") reasons(answer, files, number, 5000);
  } catch (error) {
    if (number !== performed) return;
    const isEnded = error instanceof Ended;
    show(which, words, isEnded ? "Stopped by you." : "The page failed: " + error.message, true);
    showPrinted("");
    if (!isEnded) console.error(error);
  } finally {
    clearTimeout(slow);
    if (number === performed) setBusy(false);
  }
}

// The command, its options and its status; what was shown of another one goes.
function show(which, words, status, isBad) {
  [shownWalk, shownOther].forEach((it) => it && it.unmount());
  shownWalk = shownOther = null;
  by("view").classList.remove("two");
  by("command").textContent = "$ idc " + words.join(" ");
  if (by("options").dataset.tab !== which) by("options").replaceChildren(...optionsOf(which));
  by("options").dataset.tab = which;
  by("view").replaceChildren();
  by("view").closest("main").classList.toggle("wide", which === "walk");
  showStatus(status, isBad);
  by("printed-head").hidden = by("printed").hidden = UNPRINTED.includes(which);
  shownOf = which === "help" ? null : keyOf(which);
  by("older").hidden = true;
  by("linked").hidden = true;
}

// The text and the words that a result is of.
const keyOf = (which) => [textNow(), ...wordsOf(which), which === "tests" ? settings.tests : ""].join("\u0000");

function markOlder() {
  by("older").hidden = shownOf === null || shownOf === keyOf(tab);
}

function showHelp() {
  show("help", ["help"], "", false);
  by("command").textContent = "";
  showPrinted("");
  by("view").replaceChildren(...helpView());
  setBusy(false);
}

// Below a fault its values, below `answer none` or a fetch that waits what it waits for, and below `stopped` what goes
// on: by the facts and by `idc why`, for which there are so many milliseconds.
async function reasons(answer, files, number, most) {
  const lines = answer.printed.split("\n").filter((line) => line && !EVENT.test(line)), start = performance.now();
  const isFault = /^fault /.test(lines[0] || ""), isWaiting = lines.some((line) => line.startsWith("waiting "));
  if (!isFault && !isWaiting && !["answer none", "stopped"].includes(lines[0])) return;
  const box = by("reasons"), put = (...parts) => { if (number === performed) box.replaceChildren(...parts); };
  const inputs = inputWords().filter((it) => /^\w+=/.test(it));
  let own = "";
  const ask = async (command, rounds) => {
    if (performance.now() - start > most) throw new Slow();
    const option = command === "why" ? ["--rounds"] : [];
    const { printed } = await reasoner.ask([command, FILE, ...option, String(rounds), ...inputs], files);
    if (command === "why") own = printed;
    return printed.split("\n").slice(0, -1);
  };
  const timer = setTimeout(() => { if (reasoner.isBusy() && number === performed) reasoner.end(new Slow()); }, most);
  try {
    const { atFault, why } = idReasons, text = files[FILE];
    const found = await (isFault ? atFault(text, lines[0], ask) : why(text, lines, ask));
    const head = isFault ? "Its values" : lines[0] === "stopped" ? "What goes on" : "What it waits for";
    if (found.length) put(reasonsView(head, found, own));
  } catch (error) {
    if (!(error instanceof Slow)) {
      if (!(error instanceof Ended)) console.error(error);
      return;
    }
    const goOn = made("button", { type: "button", onclick: () => reasons(answer, files, number, 1e9) }, "Look for it");
    put(made("div", { class: "reasons" }, "Where this comes from takes longer to find. ", goOn));
  } finally {
    clearTimeout(timer);
  }
}

class Slow extends Error {}

// What a view asks of the program beside its own command.
async function extra(which, files, answer) {
  const rounds = settings.rounds.trim();
  if (TRACED.includes(which) && answer.printed) return runner.ask(["graph", FILE], files);
  if (answer.status !== 0) return null;
  if (which === "graph" && settings.dot) return runner.ask(["graph", FILE], files);
  if (which !== "facts" || !/^\d{1,4}$/.test(rounds)) return null;
  return runner.ask(["facts", FILE, String(Number(rounds) + 1), ...inputWords()], files);
}

function viewOf(which, answer, more) {
  const said = answer.refused.trim();
  if (/^refused /.test(said)) return [saying(explained(said), "bad", said)];
  if (which === "run") return reportView(answer.printed, () => choose("walk", true));
  if ((which === "walk" || which === "orders") && answer.printed) return [made("div", { id: which })];
  if (which === "profile" && answer.printed) return profileOfRun(answer, more);
  if (answer.status !== 0) return [];
  if (which === "check") return [made("p", { class: "answer good" }, "The program accepts this text.")];
  if (which === "facts") return factsView(answer.printed, more);
  return which === "graph" ? graphView(settings.dot ? more.printed : answer.printed) : [];
}

function graphView(listing) {
  const tells = { tabindex: "0", role: "region", "aria-label": "Picture of the graph" };
  const picture = made("div", { class: "picture", ...tells });
  const how = { go: goTo, withTriggers: settings.triggers, withCalls: settings.calls, most: MOST.boxes };
  how.wide = by("view").clientWidth - 20;
  const count = drawGraph(picture, listing, namesOf(textNow(), tokens), how);
  if (count > MOST.boxes) return [paragraph(`${count} instructions are too many for a picture; the listing has them.`)];
  const legend = "Dashed arcs leave a switch on false; dotted ones are what comes back of a call, a loop or a fetch.";
  const told = dimmed(`${count} instructions. ${legend} A click on a box goes to its place in the text.`);
  return [told, made("p", { class: "zoom" }, ...zooming(picture)), picture];
}

// Buttons that make a picture larger and smaller, and that save it.
function zooming(picture) {
  const svg = picture.querySelector("svg");
  if (!svg) return [];
  const wide = svg.width.baseVal.value, high = svg.height.baseVal.value;
  let scale = 1;
  if (!svg.getAttribute("viewBox")) svg.setAttribute("viewBox", `0 0 ${wide} ${high}`);
  const by_ = (factor) => () => {
    scale = factor ? Math.max(0.2, Math.min(5, scale * factor)) : 1;
    svg.setAttribute("width", wide * scale);
    svg.setAttribute("height", high * scale);
  };
  const button = (name, title, onclick) => made("button", { type: "button", title, onclick }, name);
  const keepIt = () => save("graph.svg", standalone(svg), "image/svg+xml");
  return [button("\u2212", "smaller", by_(0.8)), button("1:1", "as large as it is", by_(0)),
    button("+", "larger", by_(1.25)), button("Save as SVG", "the picture as a file", keepIt)];
}

// A picture as a file of its own: with the colours and letters that it has here.
function standalone(svg) {
  const copy = svg.cloneNode(true), own = [svg, ...svg.querySelectorAll("*")];
  const names = ["fill", "stroke", "stroke-width", "stroke-dasharray", "font", "opacity", "text-anchor"];
  [copy, ...copy.querySelectorAll("*")].forEach((it, number) => {
    const has = getComputedStyle(own[number]);
    it.setAttribute("style", names.map((name) => `${name}: ${has.getPropertyValue(name)}`).join("; "));
  });
  copy.setAttribute("xmlns", "http://www.w3.org/2000/svg");
  return new XMLSerializer().serializeToString(copy);
}

// The walk of the run that was just made, and beside it that in another order, where one is asked for.
async function mount(answer, graph, files, number) {
  const root = by("walk"), lines = answer.printed.split("\n"), trace = lines.filter((line) => EVENT.test(line));
  const has = typeof mountWalk === "function";
  if (!graph || !has || trace.length > MOST.walk) {
    const many = `The run has ${trace.length} events; ${MOST.walk} can be walked at most: give it fewer steps.`;
    root.replaceWith(paragraph(has ? many : "This page has no walk."));
    return;
  }
  const printed = lines.filter((line) => !EVENT.test(line)).join("\n"), names = namesOf(textNow(), tokens);
  const of = { listing: graph.printed, trace: trace.join("\n"), text: textNow(), printed, names, at: walkAt };
  shownWalk = mountWalk(root, of);
  walkAt = 0;
  if (walkTakesKeys) root.focus({ preventScroll: true });
  if (settings.beside.trim()) await mountOther(of, trace, files, number);
}

// The words of the same run in the order of a seed.
function wordsInOrder(seed) {
  const words = [...inputWords(), ...settingWords()], at = words.indexOf("--order");
  if (at >= 0) words.splice(at, 2);
  return ["run", FILE, ...words, "--order", seed, "--trace"];
}

// A second walk beside the first, of the same run in the order of a seed, with one slider for both.
async function mountOther(of, trace, files, number) {
  const answer = await runner.ask(wordsInOrder(settings.beside.trim()), files), lines = answer.printed.split("\n");
  const other = lines.filter((line) => EVENT.test(line));
  if (number !== performed || !shownWalk) return;
  if (!other.length || other.length > MOST.walk) {
    by("view").prepend(saying(explained(answer.refused.trim() || "that run can't be walked"), "bad"));
    return;
  }
  const root = made("div", { id: "other" }), most = Math.max(trace.length, other.length);
  const range = { type: "range", min: "0", max: String(most), value: "0", "aria-label": "event of both" };
  const slider = made("input", range);
  const goBoth = (to) => {
    slider.value = to;
    [shownWalk, shownOther].forEach((it) => it.go(Number(to)));
  };
  slider.oninput = () => goBoth(slider.value);
  const differ = trace.findIndex((line, one) => line !== other[one]) + 1;
  const told = differ ? ` They differ first at event ${differ}. ` : " They are the same. ";
  const button = (name, to) => made("button", { type: "button", onclick: () => goBoth(to()) }, name);
  const go = [button("<", () => slider.value - 1), button(">", () => Number(slider.value) + 1)];
  if (differ) go.push(button("go there", () => differ));
  by("view").prepend(made("p", { id: "both" }, "Both: ", slider, told, ...go));
  by("view").append(root);
  by("view").classList.add("two");
  const printed = lines.filter((line) => !EVENT.test(line)).join("\n");
  shownOther = mountWalk(root, { ...of, trace: other.join("\n"), printed, at: 0, title: `order ${settings.beside}` });
}

// The event at which the walk stands.
function walkNow() {
  const slider = by("walk") && by("walk").querySelector("[data-part=slider]");
  return slider ? Number(slider.value) : 0;
}

function profileOfRun(answer, graph) {
  const trace = answer.printed.split("\n").filter((line) => EVENT.test(line));
  if (!graph || trace.length > MOST.profile) {
    return [paragraph(`The run has ${trace.length} events; ${MOST.profile} can be looked at: give it fewer steps.`)];
  }
  return profileView(new mountWalk.Run(graph.printed, trace.join("\n")), (at) => {
    walkAt = at;
    choose("walk", false, true);
  });
}

// Shows a tab. Where it was chosen by a click, the walk takes the keys.
function choose(which, focuses, isClick) {
  tab = which;
  walkTakesKeys = Boolean(isClick);
  for (const button of by("tabs").children) {
    const isIt = button.dataset.tab === which;
    button.setAttribute("aria-selected", isIt);
    button.tabIndex = isIt ? 0 : -1;
    if (isIt) by("panel").setAttribute("aria-labelledby", button.id);
    if (isIt && focuses) button.focus();
  }
  return perform();
}

function makeTabs() {
  const names = Object.keys(TABS);
  const move = (event) => {
    const at = names.indexOf(event.target.dataset.tab), last = names.length - 1;
    const to = { ArrowRight: at === last ? 0 : at + 1, ArrowLeft: at ? at - 1 : last, Home: 0, End: last }[event.key];
    if (to === undefined) return;
    event.preventDefault();
    choose(names[to], true);
  };
  by("tabs").onkeydown = move;
  by("tabs").replaceChildren(...names.map((name) => {
    const tells = { type: "button", role: "tab", id: "tab-" + name, "data-tab": name, "aria-controls": "panel" };
    return made("button", { ...tells, onclick: () => choose(name, false, true) }, TABS[name]);
  }));
}

// ---- examples and links

const EXAMPLES = new Map(THEMES.flatMap((theme) => theme.examples).map((it) => [it.name, it]));

function fillExamples() {
  const groups = THEMES.map(({ theme, examples }) => {
    const named = (it) => it.title || it.name.replaceAll("_", " ");
    const options = examples.map((it) => made("option", { value: it.name }, named(it)));
    return made("optgroup", { label: theme }, ...options);
  });
  by("example").append(made("option", { value: "own", id: "own" }, "your own text"), ...groups);
}

// Puts a text there, with its words; of an exercise with its tests, unless it comes with others.
function load(text, words, of = null, tests = null) {
  exercise = of;
  settings.tests = tests !== null ? tests : of ? of.tests : "";
  delete by("options").dataset.tab;
  by("text").value = text;
  by("text").scrollTop = 0;
  marks = [];
  paint();
  setWords(words);
  isExample();
  check();
}

function loadExample(name) {
  const it = EXAMPLES.get(name);
  if (it) load(it.text, wordsIn(it.words), exerciseOf(it));
  else loadOwn();
}

// The exercise that one works at, whose task stays there while its text is written.
let exercise = null;
const exerciseOf = (it) => (it && it.tests ? it : null);

// Which example the text is, if it is one: then its name is shown, with what it shows.
function isExample() {
  const it = [...EXAMPLES.values()].find((one) => one.text === textNow());
  by("example").value = it ? it.name : "own";
  const own = "your own text; this browser keeps it, and so does a link.";
  const task = exercise ? `${exercise.title}. ${exercise.told} The tab Tests says whether your text does so.` : own;
  const told = it && it !== exercise ? it.told : task;
  by("told").replaceChildren(...withCode(told[0].toUpperCase() + told.slice(1)));
  return it;
}

// A sentence in which code stands between backticks.
const withCode = (text) => text.split("`").map((part, at) => (at % 2 ? made("code", {}, part) : part));

// Bytes as letters that stand in a link as they are.
function asLetters(bytes) {
  const letters = btoa(Array.from(bytes, (byte) => String.fromCharCode(byte)).join(""));
  return letters.replaceAll("+", "-").replaceAll("/", "_").replaceAll("=", "");
}

function asBytes(letters) {
  const whole = atob(letters.replaceAll("-", "+").replaceAll("_", "/"));
  return Uint8Array.from(whole, (letter) => letter.charCodeAt(0));
}

// The text of a link.
async function unpacked(letters) {
  try {
    const stream = new Blob([asBytes(letters)]).stream().pipeThrough(new DecompressionStream("deflate-raw"));
    return new TextDecoder("utf-8", { fatal: true }).decode(await wholeOf(stream));
  } catch (error) {
    throw error instanceof TooLong ? error : new Error("a part of it is missing or changed");
  }
}

class TooLong extends Error {}

// All that a stream gives, unless it is more than a text may have.
async function wholeOf(stream) {
  const parts = [], reader = stream.getReader();
  for (let size = 0; ; ) {
    const { done, value } = await reader.read();
    if (done) return new Uint8Array(await new Blob(parts).arrayBuffer());
    parts.push(value);
    size += value.length;
    if (size > MOST.text) throw new TooLong("its text is too long");
  }
}

// The page's state as a fragment: an example's name or a text, packed, and the words.
async function fragment() {
  const found = new URLSearchParams(), it = isExample();
  if (it) found.set("example", it.name);
  else {
    const stream = new Blob([textNow()]).stream().pipeThrough(new CompressionStream("deflate-raw"));
    found.set("text", asLetters(new Uint8Array(await new Response(stream).arrayBuffer())));
  }
  if (exercise && !it) found.set("exercise", exercise.name);
  if (settings.tests !== (exercise ? exercise.tests : "")) found.set("tests", settings.tests);
  found.set("words", allWords().join(" "));
  if (tab !== "run") found.set("show", tab);
  if (walkNow()) found.set("at", String(walkNow()));
  return "#" + found;
}

// Reads a fragment, and answers whether it has a text. It comes from outside: what can't be read is said, and changes
// nothing.
async function readFragment() {
  const said = new URLSearchParams(location.hash.slice(1)), name = said.get("example"), packed = said.get("text");
  const of = exerciseOf(EXAMPLES.get(said.get("exercise"))), tests = said.get("tests");
  by("failed").hidden = true;
  try {
    const words = said.get("words");
    if (name !== null) {
      if (!EXAMPLES.has(name)) throw new Error("there is no such example");
      loadExample(name);
      if (words !== null) setWords(wordsIn(words));
      if (tests !== null) settings.tests = tests;
    } else if (packed !== null) load(await unpacked(packed), wordsIn(words || ""), of, tests);
    else return false;
    if (Object.hasOwn(TABS, said.get("show") || "")) tab = said.get("show");
    walkAt = Number(said.get("at")) || 0;
    return true;
  } catch (error) {
    by("failed").textContent = `The link can't be read: ${error.message}. What stands here is another text.`;
    by("failed").hidden = false;
    return false;
  }
}

async function share() {
  const to = location.href.split("#")[0] + (await fragment());
  history.replaceState(null, "", to);
  by("linked").hidden = false;
  by("link").value = to;
  by("link").select();
  const written = navigator.clipboard ? navigator.clipboard.writeText(to) : Promise.reject(new Error("none"));
  by("copied").textContent = await written.then(() => "copied", () => "copy it from the field");
}

// ---- the page tries itself

// A file that is no text stands as a list of its bytes.
const filesOf = (files) => Object.fromEntries(Object.entries(files).map(([name, it]) =>
  [name, Array.isArray(it) ? Uint8Array.from(it) : it]));

// The examples, whose files have what is printed on either stream, or the cases that .ci/play put into the page.
function casesHere() {
  if (by("cases")) return dataOf("cases");
  return [...EXAMPLES.values()].filter((it) => !it.tests).map((it) => {
    const file = it.name + ".id";
    return { words: ["run", file, ...wordsIn(it.words)], files: { [file]: it.text }, whole: it.out };
  });
}

function isAsWanted(answer, wanted) {
  if (wanted.whole !== undefined) return answer.printed + answer.refused === wanted.whole;
  return answer.printed === wanted.out && answer.refused === wanted.err && answer.status === wanted.status;
}

// Runs them all, and tells how many give what they should.
async function selftest() {
  const caller = new Caller(), bad = [], times = [], cases = casesHere();
  by("tested").dataset.state = "busy";
  for (const it of cases) {
    const answer = await caller.ask(it.words, filesOf(it.files));
    times.push(answer.took);
    if (!isAsWanted(answer, it)) bad.push(it.words.join(" "));
  }
  caller.end();
  times.sort((one, other) => one - other);
  const middle = times[times.length >> 1].toFixed(1), longest = times[times.length - 1].toFixed(0);
  const told = `${cases.length - bad.length} of ${cases.length} as they should be`;
  const others = bad.length ? ": not " + bad.slice(0, 9).join("; ") : "";
  by("tested").textContent = `${told}; a call took ${middle} ms in the middle, ${longest} at most${others}`;
  by("tested").className = bad.length ? "bad" : "good";
  by("tested").dataset.state = "done";
}

// ---- the start

function tellOf() {
  const without = "of a program without proofs, with checks at run time in their place";
  const is = OF.proved ? "The" : "UNPROVED: the", whose = OF.proved ? "that of the proved program" : without;
  const program = `${is} module in this page is ${whose}`;
  by("foot").textContent = `${program}, of the sources at commit ${OF.commit} (sum ${OF.code}), by ${OF.kit.trim()}.`;
  by("foot").classList.toggle("unproved", !OF.proved);
}

let typing = 0;

function typed() {
  paint();
  fields();
  isExample();
  clearTimeout(typing);
  typing = setTimeout(check, 250);
  keepText();
  markOlder();
}

function listen() {
  by("text").oninput = typed;
  by("text").onscroll = follow;
  by("text").onkeydown = indented;
  by("example").onchange = () => {
    const name = by("example").value;
    remember();
    loadExample(name);
    perform();
  };
  by("request").oninput = () => {
    keepText();
    markOlder();
  };
  by("again").onclick = perform;
  listenToKeeping();
  by("request").onsubmit = (event) => {
    event.preventDefault();
    perform();
  };
  by("stop").onclick = () => [runner, reasoner].forEach((it) => it.end());
  by("share").onclick = share;
  by("selftest").onclick = selftest;
  document.addEventListener("keydown", (event) => {
    if (event.key !== "Enter" || !(event.ctrlKey || event.metaKey)) return;
    event.preventDefault();
    perform();
  });
  window.addEventListener("hashchange", async () => {
    if (await readFragment()) choose(tab);
  });
}

async function start() {
  const packed = compile();
  document.body.classList.toggle("embed", new URLSearchParams(location.search).has("embed"));
  fillExamples();
  makeTabs();
  tellOf();
  listen();
  loadExample("fib_table");
  try {
    compiled = await packed;
  } catch (error) {
    showStatus("This browser can't compile the program: " + error.message, true);
    return;
  }
  if (!(await readFragment()) && kept().text) loadOwn();
  choose(tab);
  check();
  if (location.hash === "#selftest") selftest();
}

start();
