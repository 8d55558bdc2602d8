"use strict";
// How parallel a run is, as tools/profile says it: the step of each event, and a bar for so many steps.

// The steps of a run's events, by the walk's own run of its trace; event 0 is none. An event's step is 1 where its
// message is there at the start, and else one more than that of what its message waited for longest.
function profileOf(run) {
  const [step, before, fires, sender] = [1, 2, 3, 4].map(() => new Int32Array(run.last + 1));
  const until = new Float64Array(run.last + 1), keyOf = (event) => `${event.context}#${event.iteration} ${event.instr}`;
  run.takenAt.forEach((at, id) => { if (at <= run.last) sender[at] = run.sentAt[id]; });
  const halves = new Map(), asked = new Map(), written = new Map();
  const later = (one, other) => (step[other] > step[one] ? other : one);
  const sentBy = (at, event) => {
    const read = event.kind === "token" ? asked.get(keyOf(event)) : null;
    const isOfCell = read && (at === read.at || at === written.get(read.cell));
    return isOfCell ? later(written.get(read.cell), read.at) : fires[at];
  };
  const meet = (at, event) => {
    const key = keyOf(event), other = halves.get(key);
    if (other === undefined) {
      halves.set(key, at);
      until[at] = Infinity;
      return;
    }
    halves.delete(key);
    const isLater = step[at] > step[other] || (step[at] === step[other] && event.port < run.events[other].port);
    const [early, late] = isLater ? [other, at] : [at, other];
    [until[early], until[late], fires[at], fires[other]] = [step[late], 0, late, fires[other]];
  };
  for (let at = 1; at <= run.last; at++) {
    const event = run.events[at], instr = run.graph[event.instr];
    before[at] = sender[at] ? sentBy(sender[at], event) : 0;
    step[at] = before[at] ? step[before[at]] + 1 : 1;
    fires[at] = at;
    if (event.kind === "read") asked.set(keyOf(event), { at, cell: event.cell });
    else if (event.kind === "write" && !written.has(event.cell)) written.set(event.cell, at);
    else if (event.kind === "token" && instr && instr.ports === 2) meet(at, event);
  }
  for (const { at, cell } of asked.values()) until[at] = written.has(cell) ? step[written.get(cell)] : Infinity;
  const longest = step.reduce((most, it) => Math.max(most, it), 0), widths = new Int32Array(longest + 1);
  for (let at = 1; at <= run.last; at++) widths[step[at]] += 1;
  const ends = [];
  for (let at = 1; at <= run.last; at++) if (step[at] === longest) ends.push(at);
  const chain = [];
  let at = ends.reduce((one, it) => (run.events[it].instr < run.events[one].instr ? it : one), ends[0] || 0);
  for (; at; at = before[at]) chain.push(at);
  return { step, longest, widths, chain: chain.reverse(), waiting: mostWaiting(step, until, longest) };
}

// The most that wait at the end of one step for a partner or a store.
function mostWaiting(step, until, longest) {
  const changes = new Int32Array(longest + 2);
  for (let at = 1; at < step.length; at++) {
    if (!(until[at] > step[at])) continue;
    changes[step[at]] += 1;
    changes[Math.min(until[at], longest + 1)] -= 1;
  }
  let now = 0, most = 0;
  for (let at = 1; at <= longest; at++) most = Math.max(most, (now += changes[at]));
  return most;
}

// The steps in at most so many groups: {low, high, mean}.
function inGroups(widths, most) {
  const longest = widths.length - 1, size = Math.max(1, Math.ceil(longest / most)), found = [];
  for (let low = 1; low <= longest; low += size) {
    const high = Math.min(longest, low + size - 1);
    found.push({ low, high, mean: widths.slice(low, high + 1).reduce((sum, it) => sum + it, 0) / (high - low + 1) });
  }
  return found;
}

// The tab: numbers, a bar for each group of steps, whose click goes to the walk's first event of them, and the longest
// chain by places.
function profileView(run, walk) {
  const { step, longest, widths, chain, waiting } = profileOf(run), groups = inGroups(widths, 60);
  if (!longest) return [paragraph("The run has no event.")];
  const top = Math.max(...groups.map((it) => it.mean)), widest = widths.indexOf(Math.max(...widths));
  const first = (low, high) => step.findIndex((it, at) => at > 0 && it >= low && it <= high);
  const bars = groups.map(({ low, high, mean }) => {
    const name = low === high ? `step ${low}` : `steps ${low} to ${high}`;
    const title = `${name}: ${Number(mean.toFixed(1))} at once`;
    const tells = { title, "aria-label": title + "; goes there in the walk" };
    const bar = made("button", { type: "button", class: "bar", ...tells });
    bar.style.height = `${Math.max(2, (mean / top) * 160)}px`;
    bar.onclick = () => walk(first(low, high));
    return bar;
  });
  const line = made("div", { class: "mean", title: "ideal parallelism" });
  line.style.bottom = `${(run.last / longest / top) * 160}px`;
  const numbers = [["events", run.last], ["longest chain, by which each waits for the one before", longest],
    ["ideal parallelism", (run.last / longest).toFixed(1)],
    ["widest step", `${widths[widest]} events, step ${widest}`], ["most that wait at one step", waiting]];
  const answer = run.events.findIndex((it) => it && it.instr === 0);
  if (answer > 0) numbers.push(["answer", `at step ${step[answer]}`]);
  const rows = numbers.map(([name, it]) => {
    const head = made("th", { scope: "row", class: "left" }, name);
    return rowOf(head, made("td", { class: "left" }, String(it)));
  });
  const places = new Map();
  for (const at of chain) {
    const { place } = run.graph[run.events[at].instr];
    places.set(place, (places.get(place) || 0) + 1);
  }
  const often = [...places].sort((a, b) => b[1] - a[1]).slice(0, 12).map(([place, count]) => {
    const [row, column] = place.split(":").map(Number), word = tokenAt(textNow(), indexOf(textNow(), row, column));
    return rowOf(...[String(count), word, placeButton(place)].map((it) => made("td", { class: "left" }, it)));
  });
  const told = "A bar for each step, or for so many of them: how many events could go on at once, where each goes on "
    + "as soon as it can. A click on a bar goes to its first event in the walk.";
  const bottom = made("p", { class: "dim ends" }, made("span", {}, "step 1"), made("span", {}, `step ${longest}`));
  return [scrolled(...rows), dimmed(told), made("div", { class: "bars" }, ...bars, line), bottom,
    made("h3", {}, "The longest chain, by places of the text"), scrolled(...often)];
}
