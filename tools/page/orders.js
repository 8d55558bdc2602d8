"use strict";
// One run in many orders: which reports they print, and for each order a row of its events, coloured by the lines of
// the text that they are of.

const OF_INSTR = / token \S+ (\d+)\.[01] | (\d+)(?: fault| stuck)?$/;

// What one order printed: the instruction of each event, and the rest as its report, of which a run that was stopped
// has nothing to be compared.
function ranOf(name, seed, printed) {
  const lines = printed.split("\n").filter(Boolean), events = lines.filter((line) => EVENT.test(line));
  const rest = lines.filter((line) => !EVENT.test(line)), report = rest[0] === "stopped" ? rest[0] : rest.join("\n");
  const instrs = events.map((line) => OF_INSTR.exec(line)).map(([, token, other]) => Number(token || other));
  return { name, seed, report, instrs };
}

// The reports, the one that came most often first: [{report, runs}].
function byReport(runs) {
  const found = new Map();
  for (const run of runs) found.set(run.report, [...(found.get(run.report) || []), run]);
  return [...found].map(([report, of]) => ({ report, runs: of })).sort((a, b) => b.runs.length - a.runs.length);
}

const counted = (count, what) => `${count} ${what}${count === 1 ? "" : "s"}`;

// What all these orders come to, in a sentence.
function toldOfOrders(runs) {
  const found = byReport(runs), [least, most] = ends(runs.map((it) => it.instrs.length));
  const range = least === most ? `each with ${counted(most, "event")}` : `with ${least} to ${counted(most, "event")}`;
  const head = `${counted(runs.length, "order")}${most === 0 ? "" : ", " + range}: `;
  if (found.every((it) => it.report === "stopped")) return head + "none came to its end; give them more steps.";
  if (found.length === 1 && !found[0].report.startsWith("fault")) {
    const [first, ...more] = found[0].report.split("\n");
    return `${head}all print the same: ${first}${more.length ? ", and " + counted(more.length, "more line") : ""}.`;
  }
  const hasFault = found.some((it) => it.report.startsWith("fault"));
  const many = found.length === 1 ? "all stop at the same fault." : `${found.length} reports.`;
  const why = " A run stops at the first fault that it comes to; each that is named here is one of the program.";
  return head + many + (hasFault && found.length > 1 ? why : "");
}

// The least and the greatest of numbers from 0 on.
const ends = (numbers) => numbers.reduce(([low, high], it) => [Math.min(low, it), Math.max(high, it)], [Infinity, 0]);

// For each of so many columns the event that it shows, from 0 on; -1 behind the last of a run that is shorter than the
// longest.
function eventOfColumns(count, longest, wide) {
  const at = (column) => Math.floor((column * longest) / wide);
  return Array.from({ length: wide }, (_, column) => (at(column) < count ? at(column) : -1));
}

// ---- the tab

// Colours that are told apart by most eyes, and then others.
const COLOURS_OF_LINES = ["#0072b2", "#e69f00", "#009e73", "#cc79a7", "#56b4e9", "#d55e00", "#f0e442", "#8c8c8c"];
const colourNumber = (at) => COLOURS_OF_LINES[at] || `hsl(${Math.round(at * 137.5) % 360} 45% 50%)`;

// A colour for each line of the text that has an event: {line: colour}.
function coloursOfLines(runs, lines) {
  const used = new Set(runs.flatMap((run) => [...new Set(run.instrs)].map((it) => lines[it])));
  return new Map([...used].sort((a, b) => a - b).map((line, at) => [line, colourNumber(at)]));
}

// A row's picture: a column for each event or for several, and a bar where the answer came.
function rowOfEvents(run, longest, wide, colourOf, walk) {
  const title = `${run.instrs.length} events; a click goes to one of them in the walk`;
  const canvas = made("canvas", { width: String(wide), height: "14", title, role: "img", "aria-label": title });
  const brush = canvas.getContext("2d"), shown = eventOfColumns(run.instrs.length, longest, wide);
  shown.forEach((event, column) => {
    if (event < 0) return;
    brush.fillStyle = colourOf(run.instrs[event]);
    brush.fillRect(column, 0, 1, 14);
  });
  brush.fillStyle = getComputedStyle(by("view")).color;
  const answer = run.instrs.indexOf(0);
  if (answer >= 0) brush.fillRect(Math.floor((answer * wide) / longest), 0, 3, 14);
  canvas.onclick = ({ offsetX }) => {
    const event = shown[Math.min(wide - 1, Math.max(0, Math.floor((offsetX * wide) / canvas.clientWidth)))];
    if (event >= 0) walk(run, event + 1);
  };
  return canvas;
}

function goButton(run, walk) {
  const title = `the walk of the run ${run.name}`;
  return made("button", { type: "button", class: "place", title, onclick: () => walk(run, 0) }, run.name);
}

const leftCell = (part) => made("td", { class: "left" }, part);

function reportsTable(reports, walk) {
  const heads = ["", "orders", "report", "first"].map((it) => made("th", { scope: "col", class: "left" }, it));
  const rows = reports.slice(0, MOST.rows).map(({ report, runs }, at) => {
    const [line] = report.split("\n");
    return rowOf(...[`report ${at + 1}`, String(runs.length), line, goButton(runs[0], walk)].map(leftCell));
  });
  return scrolled(rowOf(...heads), ...rows);
}

// The sentence, the reports where there are several, the picture, and what its colours stand for. `places` has the
// place of each instruction, and `walk` goes to an event of an order.
function ordersView(runs, places, walk) {
  const found = [paragraph(toldOfOrders(runs))], reports = byReport(runs), isSame = reports.length === 1;
  if (!isSame) found.push(reportsTable(reports, walk));
  const drawn = runs.filter((it) => it.instrs.length > 0).slice(0, MOST.orders);
  if (!drawn.length) return found;
  const [, longest] = ends(drawn.map((it) => it.instrs.length)), lines = places.map((it) => Number(it.split(":")[0]));
  const colours = coloursOfLines(drawn, lines), colourOf = (instr) => colours.get(lines[instr]);
  const wide = Math.max(120, by("view").clientWidth - (isSame ? 100 : 190));
  const ofReport = (run) => (isSame ? "" : `report ${reports.findIndex((it) => it.report === run.report) + 1}`);
  const picture = drawn.map((run) => {
    const parts = [goButton(run, walk), rowOfEvents(run, longest, wide, colourOf, walk), ofReport(run)];
    return rowOf(...parts.map(leftCell));
  });
  const told = "A row for each order: its events from the first to the last, each in the colour of its line of the "
    + "text, and a bar where the answer comes. A click goes to the event in the walk.";
  const box = made("div", { class: "cells orders", tabindex: "0" }, made("table", {}, ...picture));
  found.push(dimmed(told), box);
  if (drawn.length < runs.length) found.push(dimmed(`The first ${drawn.length} of ${runs.length} orders.`));
  return [...found, legendOf(colours)];
}

// Which colour is of which line.
function legendOf(colours) {
  const text = textNow().split("\n");
  const rows = [...colours].map(([line, colour]) => {
    const [whole, blanks, rest] = /^(\s*)(.*)$/.exec(text[line - 1] || ""), swatch = made("span", { class: "swatch" });
    swatch.style.background = colour;
    return made("li", {}, swatch, placeButton(`${line}:${blanks.length + 1}`), " ", made("code", {}, rest || whole));
  });
  return made("ul", { class: "legend" }, ...rows);
}

// The run that was just made beside those in the orders of the seeds from 1 on; Stop shows those that there are.
async function showOrders(answer, graph, files, number) {
  const own = fieldValue("order"), runs = [ranOf(own ? `order ${own}` : "plain", own, answer.printed)];
  const most = Math.min(MOST.seeds, Number(settings.orders) || 0), start = performance.now();
  const isDrawn = runs[0].instrs.length <= MOST.walk;
  if (!isDrawn) runs[0].instrs = [];
  try {
    for (let seed = 1; seed <= most; seed++) {
      const words = wordsInOrder(String(seed)).filter((it) => isDrawn || it !== "--trace");
      const { printed, refused } = await runner.ask(words, files);
      if (number !== performed) return;
      if (!printed) throw new Error(refused);
      runs.push(ranOf(`order ${seed}`, String(seed), printed));
      if (performance.now() - start > 300) showStatus(`${seed} of ${most} orders`);
    }
  } catch (error) {
    if (number !== performed || !(error instanceof Ended)) throw error;
  }
  const walk = (run, at) => {
    by("order").value = run.seed;
    walkAt = at;
    choose("walk", false, true);
  };
  const places = mountWalk.readListing(graph ? graph.printed : "").map((it) => it.place);
  showStatus(`${runs.length} of ${most + 1} orders (${(performance.now() - start).toFixed(0)} ms)`);
  by("orders").replaceChildren(...ordersView(runs, places, walk));
}
