// The frame of the page: the views, the lists of groups and runs, the keys, and what is drawn when the address changes.

import { go, link, replace, state } from "./address.js";
import { panel } from "./calls.js";
import { differenceView, lessOf } from "./difference.js";
import { $, anchor, element, fault, mark, note, reachable, widen } from "./drawing.js";
import { flame } from "./flame.js";
import { historyView, toHistory } from "./history.js";
import { report, verified } from "./reports.js";
import { pick, source } from "./source.js";
import { baselineOf, chosen, events, groups, load, nameOf, Refusal, runName, runs } from "./store.js";
import { labelled, shown, toBytes } from "./texts.js";

const VIEWS = {
  function: ["Functions", (s, of, event) => report("function", s, of, event)],
  inclusive: ["Inclusive", (s, of, event) => report("inclusive", s, of, event)],
  file: ["Files", (s, of, event) => report("file", s, of, event)],
  object: ["Objects", (s, of, event) => report("object", s, of, event)],
  line: ["Lines", (s, of, event) => report("line", s, of, event)],
  thread: ["Threads", (s, of, event) => report("thread", s, of, event)],
  difference: ["Difference", differenceView],
  flame: ["Flame graph", flame],
  source: ["Source", (s, of, event) => source(s, of, event, () => show(true))],
  verify: ["Verify", verified],
  history: ["History", historyView],
};
const WITH_LESS = ["difference", "flame"];
const WITH_PANEL = ["function", "inclusive", "file", "object", "line", "thread", "difference"];
const viewOf = s => s.view in VIEWS ? s.view : "function";

// Beyond so many runs the list has a filter of its own, and shows the newest.
const LISTED = 200;
let wantedRuns = "";

// What another selection of runs drops from the address.
const NONE = { run: undefined, group: undefined, all: undefined, zoom: undefined, sum: undefined, zero: undefined };

function runRow(s, of, run, baselines) {
  const tag = run.kind === "folded" ? "stacks" : baselines.has(run.number) ? "baseline" : "";
  const made = element("div", { className: "pick" + (of.run === run.number ? " on" : "") },
    anchor(link({ ...NONE, run: run.number }), "", { title: `${run.label}\n${run.kind}, SHA-256 ${run.digest}` }),
    tag ? element("span", { className: "tag" }, tag) : null);
  made.firstChild.append(element("span", { className: "number" }, run.number), element("span", { className: "label" }, labelled(run.label)));
  if (WITH_LESS.includes(viewOf(s))) {
    made.append(anchor(link({ less: "r" + run.number }), "−", { className: "minus" + (s.less === "r" + run.number ? " on" : ""), title: `take off run ${run.number}` }));
  }
  return made;
}

function groupRow(of, group) {
  const said = (group.baseline ? `baseline ${group.baseline}, ` : "") + (group.members.length === 1 ? "1 run" : `${group.members.length} runs`);
  return element("div", { className: "pick" + (of.group === group.name ? " on" : "") },
    element("a", { href: link({ ...NONE, group: group.name }), title: `runs ${group.members.join(", ") || "none"}` },
      element("span", { className: "label" }, group.name)), element("span", { className: "tag" }, said));
}

function runList(s, of) {
  const baselines = new Set(groups.map(it => it.baseline)), words = wantedRuns.toLowerCase();
  const found = runs.filter(it => !words || `${it.number} ${it.label}`.toLowerCase().includes(words)).reverse();
  const rows = found.slice(0, LISTED).map(it => runRow(s, of, it, baselines));
  if (found.length > LISTED) rows.push(note(`and ${found.length - LISTED} older ones`));
  return rows;
}

function drawLists(s, of) {
  const list = element("div", { id: "run-list" }, runList(s, of));
  const find = runs.length <= 20 ? null : element("input", { id: "find-run", type: "search", placeholder: "find a run", ariaLabel: "find a run",
    value: wantedRuns, oninput: event => {
      wantedRuns = event.target.value;
      list.replaceChildren(...runList(state(), chosen(state())));
    } });
  const all = element("div", { className: "pick" + (of.run || of.group ? "" : " on") },
    element("a", { href: link({ ...NONE, all: "1" }) }, element("span", { className: "label" }, "all runs")),
    element("span", { className: "tag" }, String(runs.length)));
  const at = $("runs").scrollTop, inside = $("runs").contains(document.activeElement) && document.activeElement.id !== "find-run";
  $("runs").replaceChildren(all, ...(groups.length ? [element("h2", null, "groups"), ...groups.map(it => groupRow(of, it))] : []),
    element("h2", null, "runs"), ...(find ? [find] : []), list);
  $("runs").scrollTop = at;
  // The keyboard stays where it was.
  if (inside) document.querySelector("#runs .on a")?.focus();
}

function drawHead(s, view, of) {
  Object.keys(VIEWS).forEach((name, at) => {
    const it = $("views").children[at];
    it.href = link({ view: name, q: undefined });
    it.className = name === view ? "on" : "";
    it.ariaCurrent = name === view ? "page" : null;
  });
  $("less-label").hidden = !WITH_LESS.includes(view);
  $("filter-place").hidden = view === "source" || view === "history";
  $("filter").placeholder = view === "flame" ? "search  ( / )" : "filter  ( / )";
  if (document.activeElement !== $("filter")) $("filter").value = shown(s.q ?? "");
  const baseline = baselineOf(of), options = [["", baseline ? `baseline: run ${baseline.run}` : "nothing"],
    ...groups.map(it => ["g" + it.name, `group ${it.name}`]), ...runs.map(it => ["r" + it.number, `${it.number} ${labelled(it.label)}`]).reverse()];
  if (!$("less-label").hidden) {
    $("less").replaceChildren(...options.map(([value, text]) => element("option", { value, selected: value === (s.less ?? "") }, text)));
  }
  document.title = `${VIEWS[view][0]}, ${nameOf(of)} – profhouse`;
}

// The event that is looked at: the one of the address, where the runs have it, else their first one. A derived event is
// in no list, so it is asked for as it stands.
async function drawEvents(s, view, of) {
  const sides = [of, ...(view === "difference" ? [lessOf(s, of)] : [])].filter(Boolean);
  const found = [...new Set((await Promise.all(sides.map(events))).flat())];
  const event = s.derived ?? (found.includes(s.event) ? s.event : found[0]);
  const listed = s.derived && !found.includes(s.derived) ? [...found, s.derived] : found;
  $("event-label").hidden = view === "verify" || view === "flame";
  $("event").replaceChildren(...listed.map(it => element("option", { value: it, selected: it === event }, shown(it))),
    element("option", { value: "", title: "one of an `event:` line of the files" }, "a derived one …"));
  return event;
}

// What stands in the content: a click on a function changes only the panel.
let drawn = "", turn = 0;

async function drawContent(s, view, of, event, mine) {
  const { fn, ob, ...rest } = s, name = JSON.stringify(rest);
  if (name === drawn) return;
  const nodes = await VIEWS[view][1](s, of, event);
  if (mine !== turn) return;
  put(name, nodes);
  if (!s.line) $("content").scrollTop = 0;
}

function put(name, nodes) {
  $("content").replaceChildren(...nodes.filter(Boolean));
  reachable($("content"), $("content").querySelector("tr.leads"));
  drawn = name;
}

async function drawPanel(s, view, of, event, mine) {
  const box = $("detail");
  if (s.fn === undefined || !WITH_PANEL.includes(view) || (view === "difference" && !lessOf(s, of))) {
    box.hidden = true;
    return;
  }
  const nodes = await panel({ ...s, view }, of, event);
  if (mine !== turn) return;
  box.replaceChildren(...nodes.flat());
  reachable(box, box.querySelector("tr.leads"));
  box.hidden = false;
  box.scrollTop = 0;
}

// Why the lists of runs and groups could not be read.
let unread = null;

// No other program can import while this one serves the store.
const EMPTY = () => note("The store has no runs yet. End profhouse_web, ", element("code", null, "profhouse import --db D FILE"),
  ", and start it again. Or start it with --write, and ",
  element("code", null, `profhouse_remote import --api ${new URL("api", location.href.split("#")[0])} FILE`), " brings some while it runs.");

async function show(anew) {
  const s = state(), view = viewOf(s), of = chosen(s), mine = ++turn;
  // So that the address shows others the same run, when there is a newer one.
  if (of.run && !s.run) replace({ run: s.run = of.run });
  document.body.dataset.state = "busy";
  if (anew === true) drawn = "";
  drawLists(s, of);
  drawHead(s, view, of);
  try {
    if (unread) throw unread;
    if (!runs.length) return put("", [EMPTY()]);
    const event = await drawEvents(s, view, of);
    if (mine !== turn) return;
    if (event === undefined) return put("", [note("These runs count no event.")]);
    await drawContent({ ...s, view }, view, of, event, mine);
    await drawPanel(s, view, of, event, mine);
    mark();
    widen();
  } catch (error) {
    if (mine === turn) failed(error);
    if (!(error instanceof Refusal)) throw error;
  } finally {
    if (mine === turn) document.body.dataset.state = "ready";
  }
}

// What failed, and how to go on: once more, or with a run that is there.
function failed(error) {
  const newest = runs.at(-1), again = element("button", { id: "again", onclick: () => begin() }, "try again");
  const other = newest && state().run !== newest.number
    ? [" or look at ", anchor(link({ ...NONE, run: newest.number, less: undefined, fn: undefined, ob: undefined }), runName(newest.number), { id: "newest" })] : [];
  $("detail").hidden = true;
  // (an empty list would be no choice)
  $("event-label").hidden ||= !$("event").length;
  put("", [fault(error instanceof Refusal ? error.message : `The page has a fault: ${error.message}`), note(again, ...other)]);
}

async function begin() {
  try {
    await load();
    unread = null;
  } catch (error) {
    unread = error;
  }
  return show(true);
}

// The keys.

const KEYS = [["1 to 9, 0", "a view"], ["h", "the history, of the function that is looked at or has the keyboard"], ["/", "the filter; Esc leaves it"],
  ["r", "fold the list of runs"], ["↑ ↓ Home End", "from row to row"], ["Enter", "open the row"],
  ["↑ ↓ ← →", "in a flame graph: from frame to frame"], ["Esc", "close the function, or the zoom"], ["Alt ←", "back"], ["?", "these keys"]];

function help() {
  const rows = KEYS.map(([key, text]) => element("tr", null, element("td", null, element("kbd", null, key)), element("td", null, text)));
  $("help").replaceChildren(element("h3", null, "Keys"), element("table", null, element("tbody", null, rows)),
    element("p", { className: "small" }, "The view stands in the address: copy it to show others what you see. A number is copied without its gaps."),
    element("button", { onclick: () => $("help").close() }, "close"));
  $("help").showModal();
}

// The list of groups and runs folds, so that names have its room. A narrow page begins so.
const narrow = matchMedia("(max-width: 760px)");

function fold(isFolded) {
  if (isFolded && $("runs").contains(document.activeElement)) $("runs-button").focus();
  $("runs").hidden = isFolded;
  $("runs-button").ariaExpanded = String(!isFolded);
}

function moveRow(key) {
  const focus = document.activeElement, box = focus.closest?.("#detail") ?? $("content");
  const rows = [...box.querySelectorAll("tr.leads")], at = rows.indexOf(focus.closest?.("tr"));
  const next = { ArrowDown: at + 1, ArrowUp: Math.max(0, at - 1), Home: 0, End: rows.length - 1 }[key];
  rows[next]?.focus();
  return rows.length > 0;
}

function escaped(s) {
  if (s.fn !== undefined) go({ fn: undefined, ob: undefined });
  else if (s.zoom !== undefined) go({ zoom: undefined });
  else if (s.q) go({ q: undefined });
}

// The history of the function of the row or frame that has the keyboard, or of the panel; else that of the total.
function openHistory(row, frame) {
  const s = state(), of = row?.change?.fn !== undefined ? row.change : s.fn !== undefined ? s : null;
  if (frame?.node?.above) return go(toHistory("???", frame.node.name || "???"));
  return go(of ? toHistory(of.ob ?? "", of.fn) : { view: "history", q: undefined });
}

function pressed(event) {
  if (event.ctrlKey || event.altKey || event.metaKey || $("help").open) return;
  if (event.target.matches("input, select")) {
    if (event.key === "Escape") event.target.blur();
    return;
  }
  const view = Object.keys(VIEWS)[[..."1234567890"].indexOf(event.key)], row = event.target.closest?.("tr.leads");
  if (view) go({ view, q: undefined });
  else if (event.key === "h") openHistory(row, event.target.closest?.(".frame"));
  else if (event.key === "r") fold(!$("runs").hidden);
  else if (event.key === "/") $("filter").focus();
  else if (event.key === "?") help();
  else if (event.key === "Escape") escaped(state());
  else if (event.key === "Enter" && row && !event.target.matches("a, button")) go(row.change);
  else if (!["ArrowDown", "ArrowUp", "Home", "End"].includes(event.key) || event.target.closest?.("#flame, #history") || !moveRow(event.key)) return;
  event.preventDefault();
}

// Numbers are copied as the program prints them.
function copied(event) {
  const text = String(getSelection());
  if (!/[\u2009\u2212]/.test(text) || event.target.matches?.("input")) return;
  event.clipboardData.setData("text/plain", text.replace(/(\d)\u2009(?=\d)/g, "$1").replace(/\u2212(?=\d)/g, "-"));
  event.preventDefault();
}

function chooseEvent() {
  const value = $("event").value;
  if (value) return go({ event: value, derived: undefined });
  const name = prompt("The name of a derived event, as in an `event:` line of the files:");
  if (name?.trim()) go({ derived: toBytes(name.trim()) });
  else show();
}

let waiting;
function filter() {
  clearTimeout(waiting);
  waiting = setTimeout(() => {
    replace({ q: toBytes($("filter").value) });
    show();
  }, 150);
}

const KEY_OF = [..."1234567890h"];
$("views").append(...Object.values(VIEWS).map(([text], at) => anchor("#", text, { title: `${text} ( ${KEY_OF[at]} )` })));
$("event").onchange = chooseEvent;
$("less").onchange = () => go({ less: $("less").value });
$("filter").oninput = filter;
$("help-button").onclick = help;
$("runs-button").onclick = () => fold(!$("runs").hidden);
narrow.onchange = () => fold(narrow.matches);
fold(narrow.matches);
for (const box of [$("content"), $("detail")]) {
  box.addEventListener("focusin", event => event.target.matches("tr.leads") && reachable(box, event.target));
}
$("home").onclick = () => begin();
addEventListener("keydown", pressed);
addEventListener("copy", copied);
addEventListener("hashchange", () => show());
$("content").ondragover = event => event.preventDefault();
$("content").ondrop = event => {
  event.preventDefault();
  pick(event.dataTransfer.files);
  if (viewOf(state()) === "source") show(true);
};
begin();
