"use strict";
// What `idc run` prints, read line by line (docs/LANGUAGE.md, "Output").

const WHERE = /^((?:\/\d+:\d+(?:#\d+)?)*)@(\d+:\d+)$/;

// A name of an array, or a thing's path and place: {path, place}.
function whereOf(text) {
  const found = WHERE.exec(text);
  return found && { path: found[1], place: found[2] };
}

const EVENT = /^\d+ \d+ (token|read|write) /;

// A report by its parts. Lines that have another form are kept as `other`.
function readReport(printed) {
  const report = { events: 0, answer: null, isStopped: false, fault: null };
  Object.assign(report, { names: [], arrays: new Map(), waiting: [], other: [] });
  for (const line of printed.split("\n")) {
    if (!line) continue;
    let it;
    if (EVENT.test(line)) report.events += 1;
    else if ((it = /^answer (\S+)$/.exec(line))) report.answer = it[1];
    else if (line === "stopped") report.isStopped = true;
    else if ((it = /^fault second store of (\S+)\[(-?\d+)\] at (\S+) and (\S+)$/.exec(line))) {
      report.fault = { kind: "second store", array: it[1], index: it[2], at: [it[3], it[4]] };
    } else if ((it = /^fault (.+) at (\S+)$/.exec(line))) report.fault = { kind: it[1], at: [it[2]] };
    else if ((it = /^name (\S+) = (\S+)$/.exec(line))) report.names.push({ at: it[1], value: it[2] });
    else if ((it = /^array (\S+) (-?\d+)\.\.(-?\d+)$/.exec(line))) {
      report.arrays.set(it[1], { name: it[1], low: BigInt(it[2]), high: BigInt(it[3]), cells: new Map() });
    } else if ((it = /^cell (\S+)\[(-?\d+)\] = (\S+)$/.exec(line)) && report.arrays.has(it[1])) {
      report.arrays.get(it[1]).cells.set(it[2], it[3]);
    } else if ((it = /^waiting (\S+) of (\S+)\[(-?\d+)\]$/.exec(line))) {
      report.waiting.push({ at: it[1], array: it[2], index: it[3] });
    } else report.other.push(line);
  }
  return report;
}

// The arrays that are cells of no other one, and whether each is nested: all of its cells' values are arrays.
function outermost(report) {
  const inner = new Set();
  for (const array of report.arrays.values()) {
    const values = [...array.cells.values()];
    array.isNested = values.length > 0 && values.every((value) => report.arrays.has(value));
    if (array.isNested) values.forEach((value) => inner.add(value));
  }
  // an array may be a cell of itself by a longer way, and then none of them is outermost
  const found = [...report.arrays.values()].filter((array) => !inner.has(array.name));
  return found.length ? found : [...report.arrays.values()];
}

// The indexes of an array from its lower bound on, at most so many.
function indexesOf(array, most) {
  const found = [];
  for (let index = array.low; index <= array.high && found.length < most; index += 1n) found.push(String(index));
  return found;
}
