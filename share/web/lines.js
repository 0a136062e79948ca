// Lines of functions: which of them cost more than elsewhere, and which an edit only moved. A line is a record with its
// file as it is compared, its path, its number as digits, its cost and how often it calls, in maps by `placeOf`.

import { csv, FEW, lines, members, Refusal } from "./store.js";
import { base, size } from "./texts.js";

export const placeOf = it => `${it.file}:${it.line}`;

// What leads to a line of a report, FILE:LINE.
export const toSource = name => {
  const at = name.lastIndexOf(":");
  return { view: "source", file: name.slice(0, at), line: name.slice(at + 1), q: undefined };
};

// What of a file's path counts, where builds in two folders are compared.
export const fileBy = match => match === "path" ? it => it : base;

export function addLine(lines, line) {
  const found = lines.get(placeOf(line));
  if (found) {
    found.cost += line.cost;
    found.count += line.count;
  } else {
    lines.set(placeOf(line), { ...line });
  }
}

const byPlace = (a, b) => a.file !== b.file ? (a.file < b.file ? -1 : 1) : BigInt(a.line) < BigInt(b.line) ? -1 : 1;

// In the order of the sources.
export const inOrder = lines => [...lines].sort(byPlace);

// A line that is new and one that is gone, in one file and of exactly equal costs, are one that moved. Of several they are
// pairs in their order. share/scripts/profhouse_costs.py has the same rule.
function movedLines(before, after) {
  const gone = new Map(), made = new Map();
  for (const [found, lines, others] of [[gone, before, after], [made, after, before]]) {
    for (const it of inOrder(lines.values())) {
      if (others.has(placeOf(it))) continue;
      const alike = `${it.cost} ${it.count} ${it.file}`;
      found.set(alike, [...(found.get(alike) ?? []), it]);
    }
  }
  return [...made].flatMap(([alike, lines]) => {
    const old = gone.get(alike) ?? [];
    return lines.slice(0, old.length).map((it, at) => ({ ...it, from: old[at].line }));
  });
}

// The lines whose costs differ, the greatest change first; and behind them those that only moved, with their old number.
export function changesOfLines(before, after) {
  const moved = movedLines(before, after), passed = new Set(moved.flatMap(it => [placeOf(it), `${it.file}:${it.from}`]));
  const rows = [...new Set([...before.keys(), ...after.keys()])].filter(it => !passed.has(it)).map(it => {
    const now = after.get(it), old = before.get(it), cost = (now?.cost ?? 0n) - (old?.cost ?? 0n);
    return { ...(now ?? old), cost, count: (now?.count ?? 0n) - (old?.count ?? 0n), isGone: !now };
  }).filter(it => it.cost !== 0n || it.count !== 0n);
  rows.sort((a, b) => size(a.cost) === size(b.cost) ? byPlace(a, b) : size(a.cost) < size(b.cost) ? 1 : -1);
  return [...rows, ...inOrder(moved).map(it => ({ ...it, cost: 0n, count: 0n }))];
}

// What the lines of a function cost: as profhouse_web tells it, or else from all costs of the runs. Null where these are
// many and nobody asked for them, or have no such event.
export async function linesOf(runs, event, match, name, places, isDerived, isAsked) {
  const found = new Map(), fileOf = fileBy(match);
  try {
    const told = await Promise.all(places.map(it => lines(runs, event, it, name)));
    if (!told.includes(null)) {
      for (const it of told.flat()) addLine(found, { ...it, file: fileOf(it.path) });
      return found;
    }
  } catch (error) {
    if (!(error instanceof Refusal)) throw error;
  }
  if (isDerived || !isAsked && members(runs).length > FEW) return null;
  const all = await linesOfFunctions(runs, event, match, (object, it) => it === name && places.includes(object) ? "" : undefined);
  return all.get("") ?? found;
}

// What each line of the functions costs that `wanted` names. No report has the lines of a function, so they are taken from
// all costs of the runs.
async function linesOfFunctions(runs, event, match, wanted) {
  const found = new Map(), fileOf = fileBy(match);
  for (const [object, path, name, line, of, cost] of await csv(runs)) {
    const key = of === event ? wanted(object, name) : undefined;
    if (key === undefined) continue;
    if (!found.has(key)) found.set(key, new Map());
    addLine(found.get(key), { file: fileOf(path), path, line, cost: BigInt(cost), count: 0n });
  }
  return found;
}

// The lines that only moved, of all functions.
export async function movedIn(sides, event, match, place) {
  const wanted = (object, name) => `${place(object)}\0${name}`;
  const [after, before] = await Promise.all(sides.map(it => linesOfFunctions(it, event, match, wanted)));
  return [...after].flatMap(([key, lines]) => before.has(key) ? movedLines(before.get(key), lines) : []);
}
