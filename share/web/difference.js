// The view of a difference: what runs cost less what others cost, by each key.

import { go, link, packed, unpacked } from "./address.js";
import { anchor, changeCell, changeShareCell, element, filtered, functionCell, greatest, leading, nameCell, note,
  rowsBody, table, toolbar, twoBarCell } from "./drawing.js";
import { baselineOf, difference, FEW, functionOf, inclusive, members, nameOf, objects, ofThread, runName, runs as allRuns, selfCosts,
  where } from "./store.js";
import { movedIn, placeOf, toSource } from "./lines.js";
import { base, briefs, many, shown, size, unescaped } from "./texts.js";

const KEYS = ["function", "file", "object", "line", "thread"];
// What a row of each leads to.
const LEADS = {
  function: row => ({ fn: row.name, ob: row.ob }),
  file: row => ({ view: "source", file: row.name, line: undefined, q: undefined }),
  object: row => ({ key: "function", q: row.name, fn: undefined, ob: undefined }),
  line: row => toSource(row.name),
  thread: row => ({ key: "function", thread: row.name, calls: undefined, q: undefined, fn: undefined, ob: undefined }),
};

// Builds in two folders have two paths for one object or file. What of the path counts, by match=
export const PLACES = { path: it => it, last: base, name: () => "" };
export const matchOf = s => s.view === "difference" && s.match in PLACES ? s.match : "path";

export const lessOf = (s, runs) => unpacked(s.less) ?? baselineOf(runs);

// Rows of equal names are added up, and what became 0 is left out.
function merged(rows, byFunction, match) {
  const sums = new Map();
  for (const row of rows) {
    const name = byFunction ? row.name : base(row.name), ob = byFunction ? PLACES[match](row.object) : "";
    const key = `${ob}\0${name}`, found = sums.get(key);
    if (found) {
      found.cost += row.cost;
      found.own += row.own;
      found.objects.add(row.object);
    } else {
      sums.set(key, { ...row, name, ob, objects: new Set([row.object]) });
    }
  }
  const kept = [...sums.values()].filter(row => row.cost !== 0n);
  for (const row of kept) {
    if (row.objects.size > 1) {
      row.place = row.ob ? shown(row.ob) : many(row.objects.size, "object");
      row.places = [...row.objects].map(shown).join("\n");
    }
  }
  return kept;
}

// Of equal changes with all that is called, that comes first whose own cost changed most: the others only call it.
const order = (a, b) => {
  const [one, other] = size(a.cost) === size(b.cost) ? [size(a.own), size(b.own)] : [size(a.cost), size(b.cost)];
  return one === other ? (a.name < b.name ? -1 : 1) : one < other ? 1 : -1;
};

// The server has self costs alone. Costs with all that is called are taken off here, in whole numbers.
async function inclusiveDifference(s, sides, event) {
  const [[now, before], self] = await Promise.all([
    Promise.all(sides.map(it => where(it, event, s.derived, () => inclusive(it, event)))), difference("function", ...sides, event)]);
  const own = new Map(self.rows.map(row => [row.key, row.cost])), { total, rows } = less(now, before);
  return { total, rows: rows.map(row => ({ ...row, own: own.get(row.key) ?? 0n })) };
}

// Costs by their keys, one side less the other.
function less(now, before) {
  const costs = new Map(now.rows.map(row => [row.key, row.cost]));
  for (const row of before.rows) costs.set(row.key, (costs.get(row.key) ?? 0n) - row.cost);
  return { total: now.total - before.total, rows: [...costs].filter(([, cost]) => cost !== 0n).map(([key, cost]) => ({ key, cost })) };
}

function found(s, key, sides, event) {
  if (key !== "function") return difference(key, ...sides, event);
  if (!s.thread) return s.calls ? inclusiveDifference(s, sides, event) : difference(key, ...sides, event);
  return Promise.all(sides.map(it => where(it, event, s.derived, () => ofThread(it, event, s.thread)))).then(it => less(...it));
}

async function changes(s, key, sides, event) {
  const byFunction = key === "function", match = matchOf(s), { total, rows: all } = await found(s, key, sides, event);
  const known = byFunction ? (await Promise.all(sides.map(it => objects(it, event, s.derived)))).flat() : null;
  known?.sort((a, b) => b.length - a.length);
  const rows = all.map(row => ({ cost: row.cost, own: row.own ?? 0n,
    ...(byFunction ? functionOf(row.key, known) : { name: unescaped(row.key) }) }));
  const kept = match === "path" ? rows.map(row => ({ ...row, ob: row.object })) : merged(rows, byFunction, match);
  const moved = key === "line" ? await withoutMoved(s, kept, sides, event, match) : { rows: kept, moved: [] };
  return { total, rows: [...moved.rows.sort(order), ...moved.moved] };
}

// Takes out of the differences by line what an edit only moved. (All costs of both sides are read for that, so only where
// something went up by as much as something else of its file went down.)
async function withoutMoved(s, rows, sides, event, match) {
  const fileOf = row => row.name.slice(0, row.name.lastIndexOf(":")), seen = new Set(rows.map(row => `${row.cost} ${fileOf(row)}`));
  if (s.derived || sides.some(it => members(it).length > FEW) || !rows.some(row => seen.has(`${-row.cost} ${fileOf(row)}`))) return { rows, moved: [] };
  const moved = await movedIn(sides, event, match, PLACES[match]), costs = new Map(rows.map(row => [row.name, row.cost]));
  for (const it of moved) {
    for (const [name, cost] of [[placeOf(it), -it.cost], [`${it.file}:${it.from}`, it.cost]]) costs.set(name, (costs.get(name) ?? 0n) + cost);
  }
  const told = new Map(moved.map(it => [`${placeOf(it)} ${it.from}`, { name: placeOf(it), from: it.from, cost: 0n, own: 0n }]));
  return { rows: [...costs].filter(([, cost]) => cost !== 0n).map(([name, cost]) => ({ name, cost, own: 0n })), moved: [...told.values()] };
}

// Whether a name went up in one place and down in another, and which match would put both together.
function twins(rows, byFunction) {
  const seen = new Map();
  for (const row of rows) {
    const name = byFunction ? row.name : base(row.name), place = byFunction ? row.object : row.name;
    const others = seen.get(name) ?? [];
    const other = others.find(it => (it.cost > 0n) !== (row.cost > 0n));
    if (other) return !byFunction || base(place) === base(other.place) ? "last" : "name";
    seen.set(name, [...others, { cost: row.cost, place }]);
  }
  return null;
}

export const SAID = { path: "the whole path", last: "the last part of the path", name: "only the function's name" };

export function matchChoice(s, byFunction, match = matchOf(s)) {
  const choices = byFunction ? ["path", "last", "name"] : ["path", "last"];
  return element("label", null, "compare ", element("select", { id: "match", onchange: event => go({ match: event.target.value, fn: undefined, ob: undefined }) },
    choices.map(it => element("option", { value: it, selected: it === match }, SAID[it]))));
}

function bar(s, key, sides) {
  const [runs, less] = sides;
  const byKey = KEYS.map(it => anchor(link({ key: it, fn: undefined, ob: undefined }), it, { className: it === key ? "on" : "" }));
  const costs = [["self", undefined], ["with all that they call", "1"]].map(([text, value]) =>
    anchor(link({ calls: value }), text, { className: s.calls === value ? "on" : "" }));
  const turned = less && packed(runs) ? anchor(link({ run: less.run, group: less.group, less: packed(runs) }), "turn round") : null;
  const thread = key === "function" && s.thread ? element("span", { className: "chip" }, `in thread ${shown(s.thread)} `,
    anchor(link({ thread: undefined }), "×", { title: "functions of all threads" })) : null;
  return toolbar(element("span", { className: "choices" }, byKey), key !== "function" ? null : thread ?? element("span", { className: "choices" }, costs),
    less && key !== "thread" ? matchChoice(s, key === "function") : null, turned,
    less ? element("span", { className: "small" }, `${nameOf(runs)}, less ${nameOf(less)}`) : null);
}

// What to do where nothing can be compared yet, or where it would say little.
function advice(s, runs, less) {
  if (!less) {
    const kind = allRuns.find(it => it.number === runs.run)?.kind;
    const before = allRuns.filter(it => it.kind === kind && Number(it.number) < Number(runs.run)).at(-1);
    const offered = before ? [" Or take ", anchor(link({ less: "r" + before.number }), runName(before.number)), ", the one before."] : [];
    return note("Choose what is taken off in the list ‘less’ above, or by the sign − beside a run.", ...offered);
  }
  const others = members(runs).filter(it => it !== less.run);
  if (s.sum || !less.run || others.length < 2) return null;
  const newest = others.at(-1);
  return note(`${many(members(runs).length, "run")} would be added up and compared with a single one, ${nameOf(less)}. `,
    anchor(link({ run: newest, group: undefined, all: undefined, less: packed(less) }), `Compare ${runName(newest)} with it`), ", or ",
    anchor(link({ sum: "1" }), "add them up"), " all the same.");
}

export async function differenceView(s, runs, event) {
  const key = KEYS.includes(s.key) ? s.key : "function", byFunction = key === "function";
  const less = lessOf(s, runs), sides = [runs, less];
  const advised = advice(s, runs, less);
  if (advised) return [bar(s, key, sides), advised];
  const { total, rows } = await changes(s, key, sides, event);
  const before = (await where(less, event, s.derived, () => selfCosts("object", less, event))).total;
  const kept = filtered(rows, row => byFunction ? `${row.object}:${row.name}` : row.name);
  const top = greatest(rows), short = byFunction ? briefs(rows.map(row => shown(row.name))) : null;
  const draw = row => leading(element("tr", null, changeCell(row.cost), changeShareCell(row.cost, before), twoBarCell(row.cost, top),
    byFunction ? functionCell(row, short) : nameCell(row.name, row.from && `moved from ${row.from}`)), LEADS[key](row));
  const moved = rows.filter(row => row.from).length, count = rows.length - moved;
  const text = `total; ${many(count, key)} differ${count === 1 ? "s" : ""}${moved ? `, ${many(moved, "other")} only moved` : ""}`;
  const totalRow = element("tbody", null, element("tr", { className: "total" }, changeCell(total),
    changeShareCell(total, before), element("td", { className: "bar" }), element("td", null, text)));
  const columns = [["cost", shown(event)], ["share", "of all before"], ["bar", ""], ["name", key]];
  const better = matchOf(s) === "path" ? twins(rows.filter(row => !row.from), byFunction) : null;
  const hint = better ? note("Some names cost more in one place and less in another, as builds in two folders do. ",
    anchor(link({ match: better, fn: undefined, ob: undefined }), `Compare ${SAID[better]}`), ".") : null;
  return [bar(s, key, sides), hint, table(columns, totalRow, rowsBody(kept, draw)), rows.length ? null : note("No difference.")];
}
