"use strict";
// What a run has printed, for reading: the answer, arrays as rows and matrices, and sentences for what has no value.

const paragraph = (...parts) => made("p", {}, ...parts);
const dimmed = (text) => made("p", { class: "dim" }, text);
const rowOf = (...cells) => made("tr", {}, ...cells);
const headOf = (scope, text) => made("th", { scope }, text);
// A table that scrolls where it is wide, also by keys.
const scrolled = (...rows) => made("div", { class: "cells", tabindex: "0" }, made("table", {}, ...rows));

// The text as source.js reads it, or null where it can't; with the values of names that a report has.
let readSource = { text: null, source: null };

function sourceOf(report) {
  const text = textNow();
  if (readSource.text !== text) {
    readSource = { text, source: null };
    try {
      readSource.source = new idSource.Source(text);
    } catch (error) {
      console.warn(error);
    }
  }
  if (readSource.source && report) readSource.source.read(report.names.map(({ at, value }) => `has ${at} = ${value}`));
  return readSource.source;
}

// A thing's place, and its path in words, the inner step first.
function thing(text) {
  const where = whereOf(text), source = sourceOf(null);
  if (!where) return [text];
  const words = source && where.path ? source.inWords(where.path) : where.path;
  return [placeButton(where.place), words ? " " + words : ""];
}

// A line with its places as what can be gone to: `s (10:10) waits for ..`.
function linked(line) {
  return line.split(/(?<=\()(\d+:\d+)(?=\))/).map((part, number) => (number % 2 ? placeButton(part) : part));
}

// The lines of reasons.js below a head, and behind them what the program itself says, where it does.
function reasonsView(head, lines, own) {
  const rows = lines.slice(0, MOST.rows).flatMap((line) => [...linked(line), "\n"]);
  const found = [made("h3", {}, head), made("pre", {}, ...rows)];
  if (lines.length > MOST.rows) found.push(dimmed(`The first ${MOST.rows} of ${lines.length} lines.`));
  return made("div", { class: "reasons" }, ...found, ...(own ? [ownReasons(own)] : []));
}

// What `idc why` prints, with the places of things as what can be gone to.
function ownReasons(printed) {
  const lines = printed.split("\n").slice(0, MOST.rows).join("\n").split(/(?<=@)(\d+:\d+)/);
  const parts = lines.map((part, number) => (number % 2 ? placeButton(part) : part));
  return made("details", {}, made("summary", {}, "The same as the program itself says it, by its paths"),
    made("pre", {}, ...parts));
}

// An array as the text names it.
function arrayCalled(name, called) {
  const where = whereOf(name), own = where && called[where.place];
  if (!where) return [name];
  const named = own ? [made("code", {}, own), ", "] : [];
  return [...named, "the array made at ", ...thing(name)];
}

// The line of a thing, with a caret below it.
function lineOf(text) {
  const where = whereOf(text);
  if (!where) return "";
  const [line, column] = where.place.split(":").map(Number);
  const at = indexOf(textNow(), line, column);
  return pointed(at, tokenAt(textNow(), at).length);
}

function valueCell(array, index) {
  const value = array.cells.get(index);
  return value === undefined ? made("td", { class: "none", title: "no value" }, "\u00b7") : made("td", {}, value);
}

function rowTable(array) {
  const indexes = indexesOf(array, MOST.cells);
  const head = rowOf(headOf("row", "index"), ...indexes.map((it) => headOf("col", it)));
  return scrolled(head, rowOf(headOf("row", "value"), ...indexes.map((it) => valueCell(array, it))));
}

// An array of arrays: a row for each of its cells, a column for each index that one of its arrays has.
function matrixTable(array, report) {
  const inner = (index) => report.arrays.get(array.cells.get(index)), indexes = indexesOf(array, MOST.rows);
  const has = indexes.map(inner).filter(Boolean);
  const low = has.reduce((least, it) => (it.low < least ? it.low : least), has[0].low);
  const high = has.reduce((most, it) => (it.high > most ? it.high : most), has[0].high);
  const columns = indexesOf({ low, high }, Math.max(20, Math.floor(20000 / indexes.length)));
  const cell = (row, index) => {
    const isInside = row && BigInt(index) >= row.low && BigInt(index) <= row.high;
    return isInside ? valueCell(row, index) : made("td", { class: "none" });
  };
  const rows = indexes.map((it) => rowOf(headOf("row", it), ...columns.map((index) => cell(inner(it), index))));
  return scrolled(rowOf(made("td"), ...columns.map((it) => headOf("col", it))), ...rows);
}

function arrayView(array, report, called) {
  const head = made("h3", {}, ...arrayCalled(array.name, called), `, ${array.low}..${array.high}`);
  if (array.high < array.low) return [head, dimmed("It has no cells.")];
  const whole = array.high - array.low + 1n, isCut = whole > BigInt(array.isNested ? MOST.rows : MOST.cells);
  const found = [head, array.isNested ? matrixTable(array, report) : rowTable(array)];
  if (isCut) found.push(dimmed(`The first cells of ${whole}; the output below has those with a value.`));
  return found;
}

const FAULTS = {
  overflow: "a number leaves the 64 bits of a whole number",
  "division by zero": "the divisor is 0",
  "bad bounds": "an array's lower bound is above its upper bound by more than 1",
  "out of bounds": "an index lies outside of its array's bounds",
};

function faultView({ kind, array, index, at }, called) {
  const places = at.map((it) => made("pre", {}, lineOf(it)));
  const box = (...parts) => made("div", { class: "said bad" }, ...parts);
  if (kind !== "second store") {
    return box(paragraph(`Fault: ${kind}, ${FAULTS[kind] || ""}, at `, ...thing(at[0]), "."), places[0]);
  }
  const stores = at.flatMap((it, number) => [paragraph(...thing(it)), places[number]]);
  const cell = [`Fault: a second store for the cell [${index}] of `, ...arrayCalled(array, called), ". The stores:"];
  return box(paragraph(...cell), ...stores);
}

// The names of a run: a table for main, for each call, and for each loop, which has a line for each iteration.
function namesView(report) {
  const named = namesOf(textNow(), tokens), source = sourceOf(report), tables = new Map(), found = [];
  for (const { at, value } of report.names) {
    const { path, place } = whereOf(at) || { path: "", place: at }, [, base, turn] = /^(.*?)(?:#(\d+))?$/.exec(path);
    if (!tables.has(base)) tables.set(base, { places: [], rows: new Map() });
    const { places, rows } = tables.get(base), key = turn === undefined ? "" : Number(turn);
    if (!places.includes(place)) places.push(place);
    if (!rows.has(key)) rows.set(key, new Map());
    rows.get(key).set(place, value);
  }
  for (const [base, { places, rows }] of [...tables].slice(0, 60)) {
    const isLoop = !rows.has(""), cut = base.lastIndexOf("/"), outside = base.slice(0, cut);
    const line = base.slice(cut + 1).split(":")[0];
    const words = (path) => (source && path ? source.inWords(path) : path);
    const head = !base ? "main" : isLoop ? `the loop at line ${line} ${words(outside)}` : words(base);
    const names = places.map((place) => made("th", { scope: "col" }, named[place] || place));
    const cells = (row) => places.map((place) => made("td", {}, row.has(place) ? row.get(place) : "\u00b7"));
    const each = [...rows].sort(([a], [b]) => a - b).slice(0, MOST.rows);
    const body = each.map(([turn, row]) => rowOf(headOf("row", isLoop ? "#" + turn : "value"), ...cells(row)));
    found.push(made("h3", {}, head), scrolled(rowOf(made("td"), ...names), ...body));
    if (rows.size > MOST.rows) found.push(dimmed(`The first ${MOST.rows} of ${rows.size} iterations.`));
  }
  if (tables.size > 60) found.push(dimmed(`and ${tables.size - 60} more calls and loops, in the output below`));
  return [made("h3", {}, "Names"), ...found];
}

function answerView(report, called) {
  const value = report.arrays.has(report.answer) ? arrayCalled(report.answer, called) : [made("b", {}, report.answer)];
  const found = [made("p", { class: "answer" }, "Answer: ", ...value)];
  if (report.answer === "none" && !report.isStopped) {
    const body = ["No message is left, and the body of ", made("code", {}, "main"), " has no value: "];
    found.push(paragraph(...body, "what it needs never comes."));
  }
  return found;
}

function waitingView(waiting, called) {
  const found = waiting.slice(0, 20).map((it) => {
    const cell = [` waits for the cell [${it.index}] of `, ...arrayCalled(it.array, called)];
    const said = paragraph("The fetch at ", ...thing(it.at), ...cell, ", in which nobody has stored a value.");
    return made("div", { class: "said warned" }, said, made("pre", {}, lineOf(it.at)));
  });
  if (waiting.length > 20) found.push(dimmed(`and ${waiting.length - 20} more, in the output below`));
  return [made("h3", {}, "Waiting fetches"), ...found];
}

// A run's report.
function reportView(printed, walk) {
  const report = readReport(printed), called = arrayNames(textNow(), tokens), found = [];
  sourceOf(report);
  if (report.fault) found.push(faultView(report.fault, called));
  if (report.isStopped) {
    const why = "The run was stopped at its limit of messages, and some are left: it needs more steps, or has no end.";
    found.push(made("div", { class: "said warned" }, paragraph(why + " Below stands what it has shown.")));
  }
  if (report.answer !== null) found.push(...answerView(report, called));
  found.push(made("div", { id: "reasons" }));
  const arrays = outermost(report);
  arrays.slice(0, 40).forEach((array) => found.push(...arrayView(array, report, called)));
  if (arrays.length > 40) found.push(dimmed(`and ${arrays.length - 40} more arrays, in the output below`));
  if (report.waiting.length) found.push(...waitingView(report.waiting, called));
  if (report.names.length) found.push(...namesView(report));
  if (report.events) {
    const button = made("button", { type: "button", onclick: walk }, "Walk through them");
    found.push(paragraph(`The trace has ${report.events} events. `, button));
  }
  return found;
}

const FACTS = { on: "evaluated", has: "values", shape: "arrays", put: "stores", ask: "fetches" };

// How many facts of each kind there are, and whether these are all: then one round more has the same.
function factsView(printed, more) {
  const counts = new Map(), lines = printed.split("\n").filter(Boolean);
  for (const line of lines) {
    const [kind] = line.split(" ");
    counts.set(kind, (counts.get(kind) || 0) + 1);
  }
  const each = [...counts].map(([kind, count]) => `${count} ${FACTS[kind] || kind} (${kind})`);
  const same = "One round more gives the same, so these are all.", other = "One round more gives more.";
  const told = !more ? "" : more.printed === printed ? same : other;
  return [paragraph(`${lines.length} facts: ${each.join(", ")}.`), paragraph(told)];
}
