// The panel of a function: its costs, who calls it and whom it calls. In a difference, how these differ.

import { go, link } from "./address.js";
import { anchor, changeCell, costCell, element, functionCell, greatest, leading, nameCell, note, rowsBody, sum, table, widen } from "./drawing.js";
import { lessOf, matchOf, PLACES } from "./difference.js";
import { toHistory } from "./history.js";
import { addLine, changesOfLines, fileBy, inOrder, linesOf, placeOf } from "./lines.js";
import { callLines, calls, events, functionOf, inclusive, members, nameOf, objects, Refusal, runs as allRuns, selfCosts,
  where } from "./store.js";
import { base, briefs, grouped, part, share, shown, signed, signOf, size } from "./texts.js";

// So many lines of a function or of a call are shown at first.
const FEW = 5;

// The objects in which these runs have the function. Where it costs nothing of the event, the first event of the runs
// tells: so nothing is asked that the server would refuse.
async function placesOf(s, runs, event, known) {
  const match = PLACES[matchOf(s)], found = new Set();
  for (const it of new Set([event, (await events(runs))[0]])) {
    const report = it === undefined ? { rows: [] } : await where(runs, it, s.derived && it === event, () => inclusive(runs, it));
    for (const row of report.rows) {
      const { object, name } = functionOf(row.key, known);
      if (name === s.fn && match(object) === (s.ob ?? "")) found.add(object);
    }
    if (found.size) break;
  }
  return [...found];
}

// Rows of calls by the function at their other end, with the lines of the caller, added up over the places. `untold` gets why
// lines are not told.
async function ends(which, s, runs, event, places, known, untold) {
  const match = PLACES[matchOf(s)], fileOf = fileBy(matchOf(s)), sums = new Map();
  const endOf = row => {
    const end = functionOf(row.key, known), key = `${match(end.object)}\0${end.name}`;
    if (!sums.has(key)) sums.set(key, { ...end, ob: match(end.object), cost: 0n, count: 0n, lines: new Map() });
    return sums.get(key);
  };
  const lines = Promise.all(places.map(it => callLines(which, runs, event, it, s.fn))).catch(error => {
    if (!(error instanceof Refusal)) throw error;
    untold.add(error.message);
    return [];
  });
  for (const row of (await Promise.all(places.map(it => calls(which, runs, event, it, s.fn)))).flat()) {
    const found = endOf(row);
    found.cost += row.cost;
    found.count += row.count;
  }
  for (const it of (await lines).flat().filter(Boolean)) addLine(endOf(it).lines, { ...it, file: fileOf(it.path) });
  return sums;
}

// What one side knows of the function.
async function side(s, runs, event, places, known, untold) {
  const own = await where(runs, event, s.derived, () => selfCosts("function", runs, event));
  const all = await where(runs, event, s.derived, () => inclusive(runs, event));
  const of = report => report.rows.reduce((sum, row) => {
    const { object, name } = functionOf(row.key, known);
    return name === s.fn && places.includes(object) ? sum + row.cost : sum;
  }, 0n);
  const [callers, callees] = await Promise.all(["callers", "callees"].map(it => ends(it, s, runs, event, places, known, untold)));
  return { total: own.total, own: of(own), all: of(all), callers, callees };
}

function card(title, now, before, which) {
  const change = before && now[which] - before[which];
  const below = before ? element("span", { className: signOf(change) }, `${signed(change)}`) : share(now[which], now.total);
  return element("div", null, element("div", { className: "small" }, title), element("div", { className: "big" }, grouped(now[which])),
    element("div", { className: "small" }, below, before ? `, before ${grouped(before[which])}` : ""));
}

// The rows of both sides, one less the other; without a second side those of the first.
function joined(now, before) {
  const nothing = { cost: 0n, count: 0n, lines: new Map() }, rows = [];
  for (const key of new Set([...now.keys(), ...(before?.keys() ?? [])])) {
    const a = now.get(key) ?? nothing, b = before?.get(key) ?? nothing;
    const lines = before ? changesOfLines(b.lines, a.lines) : [...a.lines.values()];
    // (line 0 means none)
    const row = { ...b, ...a, cost: a.cost - b.cost, count: a.count - b.count, lines: inOrder(lines.filter(it => it.line !== "0")) };
    if (!before || row.cost !== 0n || row.count !== 0n) rows.push(row);
  }
  return rows.sort((a, b) => size(a.cost) < size(b.cost) ? 1 : size(a.cost) > size(b.cost) ? -1 : a.name < b.name ? -1 : 1);
}

// What leads to the source of a line: of one that is gone, in the runs that had it.
const sourceOf = (it, less) => ({ view: "source", file: it.path, line: it.line, q: undefined,
  ...(it.isGone && less?.run ? { run: less.run, group: undefined, all: undefined } : {}) });

// The lines of the caller beside a call, in the order of the source, with their files where not all calls beside stand in
// one. Of one line alone the cost is that of its row.
function atLines(lines, less, write, hasFiles) {
  const isOne = lines.length === 1, box = element("div", { className: "at" });
  const counted = count => count ? `, ${write(count)} call${size(count) === 1n ? "" : "s"}` : "";
  const said = it => it.from ? ` moved from ${it.from}` : isOne ? "" : ` ${write(it.cost)}${counted(it.count)}`;
  const one = (it, at) => [at ? "; " : "", anchor(link(sourceOf(it, less)), hasFiles ? `${shown(base(it.file))}:${it.line}` : `line ${it.line}`,
    { title: shown(`${it.path}:${it.line}`), tabIndex: -1, onclick: event => event.stopPropagation() }), said(it)];
  const draw = count => {
    const more = lines.length - count;
    const all = event => {
      event.stopPropagation();
      draw(lines.length);
    };
    box.replaceChildren(...lines.slice(0, count).flatMap(one), ...(more > 0 ? ["; ", element("button", { tabIndex: -1, onclick: all }, `${more} more`)] : []));
  };
  draw(lines.length > FEW + 1 ? FEW : lines.length);
  return lines.length ? box : null;
}

// How often something is called. (A 0 would say never, where it was as often as before, or where that is not recorded.)
const countCell = (count, write, before) => element("td", { className: "count", title: count ? "" : before ? "as often as before" : "no call is recorded" },
  count ? write(count) : "");

function callTable(title, event, now, before, less) {
  const rows = joined(now, before), top = greatest(rows), write = before ? signed : grouped, short = briefs(rows.map(row => shown(row.name)));
  const hasFiles = new Set(rows.flatMap(row => row.lines.map(it => it.file))).size > 1;
  const draw = row => {
    const drawn = element("tr", null, before ? changeCell(row.cost) : costCell(row.cost), countCell(row.count, write, before),
      functionCell(row, short, atLines(row.lines, less, write, hasFiles)));
    drawn.style.setProperty("--part", part(row.cost, top) + "%");
    if (!before) drawn.classList.add("filled");
    return leading(drawn, { fn: row.name, ob: row.ob, zero: row.cost ? undefined : "1" });
  };
  const head = element("h3", null, `${title} (${rows.length}${before ? rows.length === 1 ? " differs" : " differ" : ""})`);
  const columns = [["cost", shown(event)], ["count", "calls"], ["name", ""]];
  return [head, rows.length ? table(columns, rowsBody(rows, draw)) : note("none")];
}

const ownLines = (s, runs, event, places, isAsked) => linesOf(runs, event, matchOf(s), s.fn, places, s.derived, isAsked);

const NO_LINES = "A derived event is in no export.";

function linesButton(s, runs, event, places) {
  const box = element("div"), button = element("button", { id: "own-lines" }, "its lines");
  button.onclick = async () => {
    button.disabled = true;
    const found = await ownLines(s, runs, event, places, true);
    const rows = [...(found?.values() ?? [])].sort((a, b) => a.cost < b.cost ? 1 : a.cost > b.cost ? -1 : 0), total = sum(rows);
    const draw = row => leading(element("tr", null, costCell(row.cost), element("td", { className: "count" }, share(row.cost, total)),
      nameCell(placeOf(row))), sourceOf(row));
    box.replaceChildren(rows.length ? table([["cost", shown(event)], ["count", ""], ["name", "line"]], rowsBody(rows, draw)) : note(found ? "no costs" : NO_LINES));
    widen();
  };
  return [element("h3", null, button), box];
}

// The lines of a function that differ: the first ones at once, and all by a click. They are read while all else is shown.
function linesThatDiffer(s, sides, event, places) {
  const button = element("button", { id: "own-lines", disabled: true }, "its lines"), count = element("span"), box = element("div", { id: "lines" }, note("\u2026"));
  const draw = row => leading(element("tr", null, changeCell(row.cost), nameCell(placeOf(row), row.from && `moved from ${row.from}`)), sourceOf(row, sides[1]));
  const put = (rows, most) => {
    box.replaceChildren(rows.length ? table([["cost", shown(event)], ["name", "line"]], rowsBody(rows.slice(0, most), draw)) : note("none"));
    if (most < rows.length) box.append(element("button", { id: "all-lines", onclick: () => put(rows, rows.length) }, `all ${rows.length} lines`));
    button.disabled = most >= rows.length;
    button.onclick = () => put(rows, rows.length);
    widen();
  };
  const read = async isAsked => {
    button.disabled = true;
    const [now, before] = await Promise.all(sides.map((it, at) => ownLines(s, it, event, places[at], isAsked)));
    if (!now || !before) {
      box.replaceChildren(...(s.derived ? [note(NO_LINES)] : []));
      button.disabled = Boolean(s.derived);
      button.onclick = () => read(true).catch(failed);
      return;
    }
    const rows = changesOfLines(before, now), differ = rows.filter(it => !it.from).length, moved = rows.length - differ;
    count.textContent = ` (${differ}${differ === 1 ? " differs" : " differ"}${moved ? `, ${moved} only moved` : ""})`;
    put(rows, rows.length > FEW + 1 ? FEW : rows.length);
  };
  const failed = error => box.replaceChildren(note(error.message));
  read(false).catch(failed);
  return [element("h3", null, button, count), box];
}

// Stacks have no lines.
function lines(s, sides, event, places) {
  const folded = new Set(allRuns.filter(it => it.kind === "folded").map(it => it.number));
  if (sides.every(it => members(it).every(run => folded.has(run)))) return [];
  return sides.length > 1 ? linesThatDiffer(s, sides, event, places) : linesButton(s, sides[0], event, places[0]);
}

// Folded stacks have no calls, and a flame graph shows what stands above and below.
function inStacks(s, runs) {
  if (!allRuns.some(it => it.kind === "folded" && members(runs).includes(it.number))) return [];
  const there = link({ view: "flame", q: s.fn, fn: undefined, ob: undefined });
  return [note("Stacks have no calls: ", anchor(there, "look at it in the flame graph"), ".")];
}

// Beside the functions of one thread.
const ofThreads = s => s.thread && ["function", "difference"].includes(s.view) ? [note("All costs here are of all threads.")] : [];

export async function panel(s, runs, event) {
  const less = s.view === "difference" ? lessOf(s, runs) : null, sides = less ? [runs, less] : [runs];
  const known = (await Promise.all(sides.map(it => objects(it, event, s.derived)))).flat().sort((a, b) => b.length - a.length);
  let places = await Promise.all(sides.map(it => placesOf(s, it, event, known)));
  // A function whose calls cost nothing may stand in no list, and the server knows it all the same.
  if (!places.flat().length && s.zero) places = [[s.ob ?? ""], ...sides.slice(1).map(() => [])];
  const close = element("button", { className: "close", title: "close (Esc)", ariaLabel: "close", onclick: () => go({ fn: undefined, ob: undefined }) }, "×");
  const head = [close, element("div", { className: "whole" }, shown(s.fn)),
    [...new Set(places.flat())].map(it => element("div", { className: "small" }, shown(it)))];
  if (!places.flat().length) return [...head, note(`This function costs nothing in ${sides.map(nameOf).join(" and ")}.`)];
  const untold = new Set(), [now, before] = await Promise.all(sides.map((it, at) => side(s, it, event, places[at], known, untold)));
  return [...head, element("div", { className: "cards" }, card("self", now, before, "own"), card("with all that it calls", now, before, "all")),
    element("div", { className: "small" }, anchor(link(toHistory([...new Set(places.flat())].at(0), s.fn)), "its history", { id: "its-history", title: "its history ( h )" })),
    ...ofThreads(s), ...inStacks(s, runs), ...lines(s, sides, event, places), ...callTable("Called by", event, now.callers, before?.callers, less),
    ...callTable("Calls", event, now.callees, before?.callees, less),
    ...[...untold].map(it => note(`The lines of calls are not told: ${it}`))];
}
