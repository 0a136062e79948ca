// The views of one selection of runs: where an event went, by function, file, object, line or thread; and verify.

import { anchor, barCell, costCell, element, filtered, fullBar, functionCell, leading, nameCell, note, rowsBody,
  shareCell, sum, table } from "./drawing.js";
import { link } from "./address.js";
import { toSource } from "./lines.js";
import { functionOf, inclusive, members, objects, ofThread, selfCosts, verify } from "./store.js";
import { briefs, grouped, many, share, shown, unescaped } from "./texts.js";

// What a row of each view leads to.
const LEADS = {
  function: row => ({ fn: row.name, ob: row.object }),
  inclusive: row => ({ fn: row.name, ob: row.object }),
  object: row => ({ view: "function", in: row.name, fn: undefined, ob: undefined, q: undefined }),
  file: row => ({ view: "source", file: row.name, line: undefined, q: undefined }),
  line: row => toSource(row.name),
  thread: row => ({ view: "function", thread: row.name, in: undefined, q: undefined }),
};

async function namedRows(view, s, runs, event) {
  const byFunction = view === "function" || view === "inclusive";
  const report = await (view === "inclusive" ? inclusive(runs, event) : view === "function" && s.thread ? ofThread(runs, event, s.thread) : selfCosts(view, runs, event));
  const known = byFunction ? await objects(runs, event, s.derived) : null;
  const named = row => byFunction ? functionOf(row.key, known) : { name: unescaped(row.key) };
  const rows = report.rows.map(row => ({ cost: row.cost, ...named(row) }));
  return { total: report.total, rows: byFunction && s.in ? rows.filter(row => row.object === s.in) : rows };
}

function totalRow(view, s, runs, total, rows, kept) {
  const word = view === "inclusive" ? "function" : view, count = members(runs).length;
  let text = `${count > 1 ? `total of ${count} runs, added up` : "total"}; ${many(rows.length, word)}`;
  if (kept !== rows) {
    text += `, ${grouped(BigInt(kept.length))} of them match`;
    // Inclusive costs count a cost in each function that it went through.
    if (view !== "inclusive") text += `, with ${grouped(sum(kept))} (${share(sum(kept), total)})`;
  }
  const chip = (said, change, title) => element("span", { className: "chip" }, `in ${said} `, anchor(link(change), "×", { title }));
  const only = [s.in && word === "function" ? chip(shown(s.in), { in: undefined }, "functions of all objects") : null,
    s.thread && view === "function" ? chip(`thread ${shown(s.thread)}`, { thread: undefined }, "functions of all threads") : null];
  return element("tbody", null, element("tr", { className: "total" }, costCell(total),
    element("td", { className: "share" }, "100 %"), element("td", { className: "bar" }), element("td", null, text, only)));
}

export async function report(view, s, runs, event) {
  const { total, rows } = await namedRows(view, s, runs, event);
  const byFunction = view === "function" || view === "inclusive";
  const kept = filtered(rows, row => byFunction ? `${row.object}:${row.name}` : row.name);
  const top = fullBar(rows, total), short = byFunction ? briefs(rows.map(row => shown(row.name))) : null;
  const draw = row => {
    const made = element("tr", null, costCell(row.cost), shareCell(row.cost, total), barCell(row.cost, top),
      byFunction ? functionCell(row, short) : nameCell(row.name));
    return leading(made, LEADS[view](row));
  };
  const columns = [["cost", shown(event)], ["share", "share"], ["bar", ""], ["name", byFunction ? "function" : view]];
  const drawn = table(columns, totalRow(view, s, runs, total, rows, kept), rowsBody(kept, draw));
  return rows.length ? [drawn] : [drawn, note("No costs.")];
}

const WORDS = { ok: "they agree", differs: "they differ", none: "" };

export async function verified(s, runs) {
  const rows = filtered(await verify(runs), row => `${row.run} ${row.event} ${row.word}`);
  const draw = row => element("tr", { className: row.word }, element("td", { className: "run" }, row.run),
    element("td", { className: "event" }, shown(row.event)), costCell(BigInt(row.sum)),
    row.stated === "none" ? element("td", { className: "cost dim" }, "none") : costCell(BigInt(row.stated)),
    element("td", { className: "word" }, WORDS[row.word] ?? row.word));
  const wrong = rows.filter(row => row.word === "differs").length;
  const stated = rows.filter(row => row.word !== "none").length;
  const said = stated ? `Of ${many(stated, "total")} that files state, ${wrong || "none"} differ${wrong === 1 ? "s" : ""} from the sum of the costs.`
    : "None of these files states a total.";
  return [note(said), table([["run", "run"], ["event", "event"], ["cost", "sum of the costs"], ["cost", "stated in the file"],
    ["word", ""]], rowsBody(rows, draw))];
}
