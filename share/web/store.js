// What the server knows.

import { bytesOf, labelled, linesOf, percent, shown, unescaped } from "./texts.js";

// Answers that were read, by their addresses: the page asks for each once.
const known = new Map();
// So many runs are read whole where nobody asked for it, and so many exports are kept.
export const FEW = 4;

export class Refusal extends Error {}

// What profhouse_web tells itself stands below scripts/, all else below api/.
const ITS_OWN = "scripts/";

export async function ask(path, query, body) {
  const words = Object.entries(query ?? {}).filter(([, value]) => value !== undefined);
  const address = (path.startsWith(ITS_OWN) ? "" : "api/") + path + (words.length ? "?" + words.map(([name, value]) => `${name}=${percent(value)}`).join("&") : "");
  let response;
  try {
    response = await fetch(address, body ? { method: "POST", body } : {});
  } catch {
    throw new Refusal("The server does not answer.");
  }
  const text = bytesOf(await response.arrayBuffer());
  if (!response.ok) {
    const refusal = new Refusal(shown(text.trim()) || `the server answers ${response.status}`);
    refusal.isUnknown = response.status === 404 || response.status === 405;
    throw refusal;
  }
  return text;
}

// What `read` makes of an answer.
function once(path, query, read) {
  const name = JSON.stringify([path, query]);
  if (!known.has(name)) {
    // A page that is open for days looks at many reports.
    if (known.size > 300) known.clear();
    const answer = ask(path, query).then(read);
    known.set(name, answer);
    // (all costs of a run take much memory)
    if (path === "csv") for (const it of [...known.keys()].filter(it => it.startsWith('["csv"')).slice(0, -FEW)) known.delete(it);
    answer.catch(() => known.delete(name));
  }
  return known.get(name);
}

const first = line => BigInt(line.slice(0, line.indexOf(" ")));

function readRows(lines, pattern) {
  return lines.map(line => pattern.exec(line)).filter(Boolean);
}

// Self costs: a head, the total, rows, and the rest.
const readReport = text => {
  const lines = linesOf(text);
  const rows = readRows(lines.slice(2, -1), /^(\d+) \d+\.\d\d% (.*)$/s);
  return { total: first(lines[1]), rows: rows.map(it => ({ cost: BigInt(it[1]), key: it[2] })) };
};

const readInclusive = text => {
  const lines = linesOf(text);
  const rows = readRows(lines.slice(2), /^(\d+) \d+\.\d\d% (.*)$/s);
  return { total: first(lines[1]), rows: rows.map(it => ({ cost: BigInt(it[1]), key: it[2] })) };
};

const readDifference = text => {
  const lines = linesOf(text);
  const rows = readRows(lines.slice(2), /^(-?\d+) (.*)$/s);
  return { total: first(lines[1]), rows: rows.map(it => ({ cost: BigInt(it[1]), key: it[2] })) };
};

const readCalls = text => readRows(linesOf(text).slice(2), /^(\d+) (\d+) (.*)$/s)
  .map(it => ({ cost: BigInt(it[1]), count: BigInt(it[2]), key: it[3] }));

// The rows below the head, each with its fields. A field with a comma, a quote or a line's end stands in quotes.
const FIELD = /(?:"((?:[^"]|"")*)"|([^,"\n]*))([,\n])/gy;
function readCsv(text) {
  const rows = [[]];
  for (const [, quoted, plain, end] of text.matchAll(FIELD)) {
    rows.at(-1).push(quoted === undefined ? plain : quoted.replaceAll('""', '"'));
    if (end === "\n") rows.push([]);
  }
  return rows.slice(1, -1);
}

const readVerify = text => linesOf(text).map(line => {
  const [run, event, sum, stated, word] = line.split(" ");
  return { run, event: unescaped(event), sum, stated, word };
});

// The keys of a report, the longest first.
export const keysOf = text => readReport(text).rows.map(row => row.key).sort((a, b) => b.length - a.length);

export const selfCosts = (key, runs, event) => once("reports/" + key, { event, ...runs }, readReport);
export const inclusive = (runs, event) => once("inclusive", { event, ...runs }, readInclusive);
export const verify = runs => once("verify", runs, readVerify);
export const folded = runs => once("folded", runs, text => text);
export const csv = runs => once("csv", runs, readCsv);
export const calls = (which, runs, event, object, name) =>
  once(which, { event, object, function: name, ...runs }, readCalls);

// Whether profhouse_web tells what no report has, or the page is served by another program. That is seen once.
let isTold = true;

// What it tells, or null.
async function told(what, query, read) {
  if (!isTold) return null;
  try {
    return await once(ITS_OWN + what, query, read);
  } catch (error) {
    if (!(error instanceof Refusal) || !error.isUnknown || error.message.startsWith("refused: ")) throw error;
    isTold = false;
    return null;
  }
}

// The lines in which calls are made: cost, count, line, file, and the function at their other end.
const readCallLines = text => readRows(linesOf(text), /^(\d+) (\d+) (\d+) ([^\t]*)\t(.*)$/s)
  .map(it => ({ cost: BigInt(it[1]), count: BigInt(it[2]), line: it[3], path: unescaped(it[4]), key: it[5] }));

// Those of a function itself.
const readLines = text => readRows(linesOf(text), /^(\d+) (\d+) (.*)$/s)
  .map(it => ({ cost: BigInt(it[1]), count: 0n, line: it[2], path: unescaped(it[3]) }));

export const callLines = (which, runs, event, object, name) => told(which, { event, object, function: name, ...runs }, readCallLines);
export const lines = (runs, event, object, name) => told("lines", { event, object, function: name, ...runs }, readLines);

// What functions cost in one thread, as a report has it.
const readFunctions = text => {
  const rows = readRows(linesOf(text), /^(\d+) (.*)$/s).map(it => ({ cost: BigInt(it[1]), key: it[2] }));
  return { total: rows.reduce((sum, row) => sum + row.cost, 0n), rows };
};
export async function ofThread(runs, event, thread) {
  const found = await told("functions", { event, thread, ...runs }, readFunctions);
  if (!found) throw new Refusal("Only profhouse_web tells the functions of a thread.");
  return found;
}

export const difference = (key, runs, less, event) =>
  once("subtract/" + key, { event, ...runs, less_run: less.run, less_group: less.group }, readDifference);

// The events that these runs count, in the order of their files. Derived ones are not told.
export const events = async runs => [...new Set((await verify(runs)).map(it => it.event))];

// Costs where the runs may be without the event: the server refuses an event that none of them has.
const NONE = { total: 0n, rows: [] };
export async function where(runs, event, derived, asked) {
  if (!derived) return (await events(runs)).includes(event) ? asked() : NONE;
  try {
    return await asked();
  } catch (error) {
    if (error.message !== "refused: no such event") throw error;
    return NONE;
  }
}

// The objects of the runs, as they are printed, the longest first. Callgrind's first event counts wherever code ran.
export async function objects(runs, event, derived) {
  const names = new Set();
  for (const it of new Set([event, (await events(runs))[0]])) {
    const report = it === undefined ? NONE : await where(runs, it, derived && it === event, () => selfCosts("object", runs, it));
    report.rows.forEach(row => names.add(row.key));
  }
  return [...names].sort((a, b) => b.length - a.length);
}

// A function is printed as OBJECT:FUNCTION, and both may have colons: so it is cut behind an object that is known.
export function functionOf(key, known) {
  const object = known.find(it => key.startsWith(it + ":"));
  const at = object === undefined ? key.indexOf(":") : object.length;
  return { object: unescaped(key.slice(0, at)), name: unescaped(key.slice(at + 1)) };
}

export let runs = [], groups = [];

export async function load() {
  known.clear();
  const [ofRuns, ofGroups] = await Promise.all([ask("runs"), ask("groups")]);
  runs = readRows(linesOf(ofRuns), /^(\d+) (\w+) ([0-9a-f]+) (.*)$/s)
    .map(it => ({ number: it[1], kind: it[2], digest: it[3], label: shown(unescaped(it[4])) }));
  groups = linesOf(ofGroups).map(line => {
    const [name, baseline, members] = line.split(" ");
    return { name, baseline: baseline === "-" ? "" : baseline, members: members ? members.split(",") : [] };
  });
}

// The runs that are looked at, as the server's parameters: the newest run where the address says nothing. All runs
// are added up only where somebody asks for it, since builds of one program are no one profile.
export function chosen(s) {
  if (s.run || s.group) return s.run ? { run: s.run } : { group: s.group };
  return s.all || !runs.length ? {} : { run: runs.at(-1).number };
}
export const members = of => of.run ? [of.run]
  : of.group ? groups.find(it => it.name === of.group)?.members ?? [] : runs.map(it => it.number);

// How runs are called in a list.
export const runName = number => {
  const run = runs.find(it => it.number === number);
  return run ? `run ${number}, ${labelled(run.label)}` : `run ${number}`;
};
export const nameOf = chosen => chosen.run ? runName(chosen.run) : chosen.group ? `group ${chosen.group}` : "all runs";

// What the runs are compared with where nobody said it: the baseline of their group, or of one that has the run.
export function baselineOf(chosen) {
  const of = chosen.group ? groups.find(it => it.name === chosen.group)
    : groups.find(it => it.baseline && it.baseline !== chosen.run && it.members.includes(chosen.run));
  return of?.baseline ? { run: of.baseline } : null;
}
