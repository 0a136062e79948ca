// The view of a history: what the total and chosen functions cost in each run of a group, as lines of which each point leads
// to the difference of its run to the one before.

import { go, link } from "./address.js";
import { matchChoice, PLACES, SAID } from "./difference.js";
import { $, anchor, element, hint, note, toolbar } from "./drawing.js";
import { fitting } from "./names.js";
import { ask, events, functionOf, groups, inclusive, keysOf, nameOf, objects, runName, runs as allRuns, selfCosts, where } from "./store.js";
import { escaped, grouped, many, percent, share, shown, signed, signedShare, signOf, unpercent } from "./texts.js";

// A function that is followed stands among so many first rows of a report most often; else the whole report is read.
const FEW = 300;
// So many questions are asked at once.
const AT_ONCE = 4;
// So many functions are listed where a word fits several.
const LISTED = 30;
const TALL = 118, LEFT = 118, RIGHT = 10, EDGE = 12;
// What the box has at its sides.
const PAD = 12;
// When a change is more than noise: share/scripts/profhouse_costs.py has the same rule.
const AROUND = 2, MORE = 2n;

// Functions in the form of names=, and back.
const packedName = (object, name) => `${percent(object)}:${percent(name)}`;
const namesOf = s => (s.names ?? "").split(",").filter(it => it.includes(":")).map(it => {
  const [object, name] = it.split(":").map(unpercent);
  return { object, name, key: `${escaped(object)}:${escaped(name)}` };
});

// What of an object's path counts.
const matchOf = s => s.match in PLACES ? s.match : "path";

// What leads to the history of a function.
export const toHistory = (object, name) => ({ view: "history", names: packedName(object, name), fn: undefined, ob: undefined, q: undefined,
  zoom: undefined });

// The costs.

// What was read of each run: the total, and the costs of the functions that were asked for.
const read = new Map();

// The rows of a report that end in a text, as their costs and keys. (A name may have the end of a row in it.)
function* rowsWith(text, end) {
  for (let at = text.indexOf(end); at >= 0; at = text.indexOf(end, at + 1)) {
    const row = text.slice(text.lastIndexOf("\n", at) + 1, at + end.length - 1), found = /^(\d+) \d+\.\d\d% /.exec(row);
    if (found) yield { cost: BigInt(found[1]), key: row.slice(found[0].length) };
  }
}

// What a report says of a function, or null: the rows of its own object, or where `known` has the objects of the run, of all
// of which so much of the path agrees.
function costIn(text, it, known, match) {
  const rows = [...rowsWith(text, known ? `:${escaped(it.name)}\n` : `% ${it.key}\n`)].filter(row => {
    if (!known) return row.key === it.key;
    const of = functionOf(row.key, known);
    return of.name === it.name && match(of.object) === match(it.object);
  });
  return rows.length ? rows.reduce((sum, row) => sum + row.cost, 0n) : null;
}

const number = (text, from) => BigInt(/\d+/.exec(text.slice(from, from + 4000))[0]);
const totalOf = text => number(text, text.indexOf("\n"));
const restOf = text => number(text, text.lastIndexOf("\n", text.length - 2));

async function costs(run, event, calls, names, match) {
  const path = calls ? "inclusive" : "reports/function", few = !calls && match === "path";
  let text = await ask(path, { event, run, limit: few ? String(names.length ? FEW : 0) : undefined });
  const known = match === "path" ? null : keysOf(await ask("reports/object", { event, run }));
  const found = new Map(names.map(it => [it.key, costIn(text, it, known, PLACES[match])]));
  if (few && restOf(text) > 0n && [...found.values()].includes(null)) {
    text = await ask(path, { event, run });
    names.forEach(it => found.set(it.key, costIn(text, it, null)));
  }
  return { total: totalOf(text), costs: new Map([...found].map(([key, cost]) => [key, cost ?? 0n])) };
}

// The costs of one run, or null where it has no such event.
async function costsOf(run, event, calls, names, match) {
  const name = JSON.stringify([run.digest, run.number, event, calls, match]), known = read.get(name);
  if (known === null || known && names.every(it => known.costs.has(it.key))) return known;
  let found = null;
  // (what is asked in vain stands in the browser's console: stacks have one event, which other files hardly have)
  if (run.kind === "folded" ? event === "samples" : event !== "samples" || (await events({ run: run.number })).includes(event)) {
    try {
      found = await costs(run.number, event, calls, names, match);
    } catch (error) {
      if (error.message !== "refused: no such event") throw error;
    }
  }
  read.set(name, found);
  return found;
}

// The costs of all runs, some at a time. `told` is called with how many were read.
async function everyCost(runs, event, calls, names, match, told) {
  const found = [];
  let next = 0, done = 0;
  const work = async () => {
    while (next < runs.length) {
      const at = next++;
      found[at] = await costsOf(runs[at], event, calls, names, match);
      told(++done);
    }
  };
  await Promise.all(Array.from({ length: AT_ONCE }, work));
  return found;
}

// The runs.

// The runs of the group, or of the one that has the run, with its baseline; else all.
function ofHistory(s, of) {
  const group = s.every ? null : of.group ? groups.find(it => it.name === of.group) : groups.find(it => it.members.includes(of.run) || it.baseline === of.run);
  const wanted = group && new Set([...group.members, group.baseline]);
  return { group, baseline: group?.baseline || null, runs: allRuns.filter(it => !wanted || wanted.has(it.number)) };
}

// The places of a series at which there is a jump; a null is a run without the event.
export function jumpsIn(series, totals) {
  const places = [...series.keys()].filter(at => series[at] !== null), found = new Map();
  const least = list => list.reduce((a, b) => a < b ? a : b), most = list => list.reduce((a, b) => a > b ? a : b);
  for (let at = 1; at < places.length; at++) {
    const before = places.slice(Math.max(0, at - AROUND), at).map(it => series[it]), after = places.slice(at, at + AROUND).map(it => series[it]);
    const up = least(after) - most(before), down = least(before) - most(after);
    const [gap, base] = up > 0n ? [up, most(before)] : [down, least(before)];
    if (gap > 0n && gap * 100n > MORE * base && gap * 10000n > MORE * totals[places[at - 1]]) found.set(places[at], up > 0n ? "more" : "fewer");
  }
  return found;
}

// The drawing.

function drawn(tag, attributes, ...children) {
  const made = document.createElementNS("http://www.w3.org/2000/svg", tag);
  for (const [name, value] of Object.entries(attributes)) made.setAttribute(name, value);
  made.append(...children);
  return made;
}

// One line: the total or a function over all runs.
class Line {
  constructor(view, title, name, series) {
    Object.assign(this, { view, title, name, series });
    this.known = [...series.keys()].filter(at => series[at] !== null);
    this.jumps = jumpsIn(series, view.totals);
    const costs = this.known.map(at => series[at]);
    this.most = costs.reduce((a, b) => a > b ? a : b);
    this.least = view.fromZero ? 0n : costs.reduce((a, b) => a < b ? a : b);
    this.svg = drawn("svg", { height: TALL, tabindex: 0, role: "application", "aria-label": `${title}: a point for each run, by the arrow keys` });
    this.said = element("div", { className: "below", role: "status" });
    this.svg.onmousemove = event => this.point(this.nearest(event), event);
    this.svg.onmouseleave = () => this.point(null);
    this.svg.onclick = event => this.open(this.nearest(event));
    this.svg.onkeydown = event => this.press(event);
    this.svg.onfocus = () => this.say(this.at ?? this.known.at(-1));
    this.svg.onblur = () => this.point(null);
  }

  x(at) {
    const wide = this.width - LEFT - RIGHT, count = this.series.length;
    return count === 1 ? LEFT + wide / 2 : LEFT + wide * at / (count - 1);
  }

  y(cost) {
    const tall = TALL - 2 * EDGE, range = this.most - this.least;
    return EDGE + (range === 0n ? tall / 2 : tall * (1 - Number((cost - this.least) * 1000000n / range) / 1000000));
  }

  before(at) {
    return this.known[this.known.indexOf(at) - 1];
  }

  told(at) {
    const cost = this.series[at], before = this.series[this.before(at)];
    const change = before === undefined ? "" : `, ${signed(cost - before)}${before ? ` (${signedShare(cost - before, before)})` : ""}`;
    return `${runName(this.view.runs[at].number)}\n${grouped(cost)}${change}`;
  }

  nearest(event) {
    const x = event.clientX - this.svg.getBoundingClientRect().left;
    return this.known.reduce((best, at) => Math.abs(this.x(at) - x) < Math.abs(this.x(best) - x) ? at : best);
  }

  // Marks a point; with the mouse there is a hint.
  point(at, event) {
    this.at = at ?? undefined;
    // (as long as the width is not known, there is nothing to mark)
    if (!this.marker) return;
    this.marker.setAttribute("visibility", at === null ? "hidden" : "visible");
    hint(event ?? null, event ? this.told(at) : "");
    if (at === null) return;
    this.marker.setAttribute("cx", this.x(at));
    this.marker.setAttribute("cy", this.y(this.series[at]));
  }

  say(at) {
    this.point(at);
    this.said.textContent = this.told(at).replace("\n", ": ");
  }

  press(event) {
    const place = this.known.indexOf(this.at ?? this.known.at(-1));
    const next = { ArrowLeft: place - 1, ArrowRight: place + 1, Home: 0, End: this.known.length - 1 }[event.key];
    if (event.key === "Enter") this.open(this.at ?? this.known.at(-1));
    else if (next === undefined) return;
    else if (this.known[next] !== undefined) this.say(this.known[next]);
    event.preventDefault();
    event.stopPropagation();
  }

  // The difference to the run before; the first one has none.
  open(at) {
    const run = this.view.runs[at].number, before = this.before(at);
    const of = this.name ? { fn: this.name.name, ob: PLACES[before === undefined ? "path" : this.view.match](this.name.object) } : { fn: undefined, ob: undefined };
    const gone = { group: undefined, all: undefined, sum: undefined, key: undefined, thread: undefined, q: undefined, ...of };
    hint(null, "");
    // (what makes the total jump is seen best where functions have all that they call)
    if (!this.name) gone.calls = "1";
    go(before === undefined ? { ...gone, run, view: "function" } : { ...gone, run, less: "r" + this.view.runs[before].number, view: "difference" });
  }

  draw(width) {
    this.width = width;
    const { runs, baseline, chosen } = this.view, parts = [], points = width / this.series.length > 6 ? 3 : 1.5;
    const text = (y, words) => drawn("text", { x: LEFT - 10, y, "text-anchor": "end" }, words);
    const base = runs.findIndex(it => it.number === baseline), on = runs.findIndex(it => it.number === chosen);
    if (on >= 0) parts.push(drawn("line", { class: "chosen", x1: this.x(on), x2: this.x(on), y1: 0, y2: TALL }));
    if (base >= 0 && this.series[base] !== null) {
      const y = this.y(this.series[base]);
      parts.push(drawn("line", { class: "base", x1: LEFT, x2: width - RIGHT, y1: y, y2: y }));
    }
    parts.push(drawn("polyline", { points: this.known.map(at => `${this.x(at).toFixed(1)},${this.y(this.series[at]).toFixed(1)}`).join(" ") }));
    parts.push(...this.known.filter(at => points > 2 || this.jumps.has(at)).map(at => drawn("circle", { class: this.jumps.get(at) ?? "", cx: this.x(at), cy: this.y(this.series[at]),
      r: this.jumps.has(at) ? 4.5 : points })));
    this.marker = drawn("circle", { class: "marker", r: 5, visibility: "hidden" });
    const ends = this.most === this.least ? [text(TALL / 2 + 4, grouped(this.most))] : [text(EDGE + 4, grouped(this.most)), text(TALL - EDGE + 4, grouped(this.least))];
    this.svg.setAttribute("width", width);
    this.svg.replaceChildren(...ends, ...parts, this.marker);
  }

  figure() {
    const { baseline, runs } = this.view, newest = this.known.at(-1), base = runs.findIndex(it => it.number === baseline);
    const from = base >= 0 && this.series[base] !== null ? base : this.known[0], change = this.series[newest] - this.series[from];
    const said = [element("span", { className: signOf(change) }, signed(change)), ` ${signedShare(change, this.series[from])} since ${runName(runs[from].number)}`];
    const others = this.view.names.filter(it => it !== this.name).map(it => packedName(it.object, it.name)).join(",");
    const close = this.name ? anchor(link({ names: others }), "×", { title: "take it away" }) : null;
    return element("figure", null, element("figcaption", null, element("code", { title: this.name ? `${this.title}\n${shown(this.name.object)}` : "" }, this.title), " ",
      element("span", { className: "small" }, grouped(this.series[newest]), ", ", said), close), this.svg, this.said);
  }
}

// Draws as soon as the width is known, and again when it is another one.
function follow(box, lines) {
  let width = 0;
  new ResizeObserver(() => requestAnimationFrame(() => {
    const room = box.clientWidth - 2 * PAD;
    if (!box.isConnected || room === width) return;
    width = room;
    lines.forEach(it => it.draw(width));
  })).observe(box);
}

// The functions that may be typed: those of the newest run that has the event, with all that they call too.
async function functionsOf(runs, event, derived) {
  const found = new Map(), run = { run: runs.at(-1).number };
  const [own, all, known] = await Promise.all([where(run, event, derived, () => selfCosts("function", run, event)),
    where(run, event, derived, () => inclusive(run, event)), objects(run, event, derived)]);
  for (const row of [...own.rows, ...all.rows]) if (!found.has(row.key)) found.set(row.key, functionOf(row.key, known));
  return [...found.values()];
}

function finder(s, view, event) {
  const box = element("div", { className: "fits" });
  const added = it => [...new Set([...view.names.map(one => packedName(one.object, one.name)), packedName(it.object, it.name)])].join(",");
  const find = async word => {
    const found = word ? fitting(await functionsOf(view.known, event, s.derived), word) : [];
    if (found.length === 1) return go({ names: added(found[0]) });
    const rows = found.slice(0, LISTED).map(it => element("div", null, anchor(link({ names: added(it) }), shown(it.name)), " ",
      element("span", { className: "small" }, shown(it.object))));
    const said = word ? found.length ? `${many(found.length, "function")} fit: give more of the name, or choose one` : `No function of ${nameOf({ run: view.known.at(-1).number })} fits.` : "";
    return box.replaceChildren(...(said ? [note(said)] : []), ...rows);
  };
  const input = element("input", { id: "find-function", type: "search", placeholder: "add a function", ariaLabel: "add a function", title: "a part of its name that fits one alone is enough",
    autocomplete: "off", spellcheck: false, onkeydown: event => event.key === "Enter" && find(input.value.trim()) });
  return [input, box];
}

function bar(s, view, input) {
  const costs = [["self", undefined], ["with all that they call", "1"]].map(([text, value]) => anchor(link({ calls: value }), text, { className: s.calls === value ? "on" : "" }));
  const from = [["from the least", undefined], ["from 0", "1"]].map(([text, value]) => anchor(link({ floor: value }), text, { className: s.floor === value ? "on" : "" }));
  const named = view.group ? `group ${view.group.name}` : "all runs";
  const other = view.group ? anchor(link({ every: "1" }), "all runs") : s.every ? anchor(link({ every: undefined }), "its group") : null;
  return toolbar(element("span", { className: "choices" }, costs), element("span", { className: "choices" }, from), input, view.names.length ? matchChoice(s, true, view.match) : null, other,
    element("span", { className: "small" }, `${many(view.known.length, "run")} of ${named}${view.baseline ? `, baseline run ${view.baseline}` : ""}; a click opens what differs`));
}

export async function historyView(s, of, event) {
  const names = namesOf(s), calls = s.calls === "1", match = matchOf(s), found = ofHistory(s, of);
  const told = count => {
    if (found.runs.length > 40 && count % 20 === 0 && document.body.dataset.state === "busy") $("content").replaceChildren(note(`${count} of ${many(found.runs.length, "run")} are read.`));
  };
  const all = await everyCost(found.runs, event, calls, names, match, told);
  const view = { ...found, names, chosen: of.run, fromZero: s.floor === "1", match, known: found.runs.filter((_, at) => all[at]), totals: all.map(it => it?.total ?? null) };
  if (!view.known.length) return [note(`No run of these has ${shown(event)}.`)];
  const lines = [new Line(view, "total", null, view.totals),
    ...names.map(it => new Line(view, shown(it.name), it, all.map(one => one && one.costs.get(it.key))))];
  const [input, fits] = finder(s, view, event), box = element("div", { id: "history" }, lines.map(it => it.figure()));
  follow(box, lines);
  const gone = match === "path" && lines.some(it => it.name && it.known.some(at => it.series[at] === 0n));
  const advice = gone ? note("Some runs do not have it, as where builds have folders of their own. ", anchor(link({ match: "last" }), `Compare ${SAID.last}`), ".") : null;
  return [bar(s, view, input), fits, advice, box];
}
