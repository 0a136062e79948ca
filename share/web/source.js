// A source with the cost of each of its lines. It is picked on this machine, sent to the server, and kept nowhere.

import { go, link } from "./address.js";
import { anchor, costCell, element, fault, note, shareCell, toolbar } from "./drawing.js";
import { ask, Refusal, selfCosts } from "./store.js";
import { base, grouped, linesOf, many, part, share, shown, shownLine, unescaped } from "./texts.js";

const GREATEST = 1 << 24;
// So many lines are drawn: those round the one that is asked for.
const DRAWN = 4000;

// The files that were picked, by their names.
const picked = new Map();

export function pick(files) {
  for (const file of files) {
    const others = (picked.get(file.name) ?? []).filter(it => it.webkitRelativePath !== file.webkitRelativePath);
    picked.set(file.name, [...others, file]);
  }
}

// Of several files of one name the one whose folders agree longest with the path in the profile.
function sourceOf(path) {
  const wanted = shown(path).split("/").reverse();
  const alike = file => {
    const parts = (file.webkitRelativePath || file.name).split("/").reverse();
    const end = parts.findIndex((it, at) => it !== wanted[at]);
    return end === -1 ? parts.length : end;
  };
  return (picked.get(wanted[0]) ?? []).reduce((best, it) => !best || alike(it) > alike(best) ? it : best, null);
}

function readAnnotated(text) {
  const lines = linesOf(text);
  const rows = lines.slice(2, -1).map(line => /^(\d+|\.) (\d+): ?(.*)$/s.exec(line)).filter(Boolean);
  return { total: BigInt(lines[1].split(" ")[0]), outside: BigInt(lines.at(-1).split(" ")[0]),
    rows: rows.map(it => ({ cost: it[1] === "." ? 0n : BigInt(it[1]), line: it[2], text: it[3] })) };
}

function lineRow(row, total, top, asked) {
  const made = element("tr", { id: "line" + row.line, tabIndex: -1 },
    row.cost ? costCell(row.cost) : element("td", { className: "cost" }),
    row.cost ? shareCell(row.cost, total) : element("td", { className: "share" }),
    element("td", { className: "number" }, row.line), element("td", { className: "text" }, shownLine(row.text)));
  if (row.cost) {
    made.classList.add("costs");
    made.style.setProperty("--heat", 8 + part(row.cost, top) / 2 + "%");
  }
  made.classList.toggle("on", row.line === asked);
  return made;
}

function costliest(rows, total) {
  const found = rows.filter(row => row.cost).sort((a, b) => a.cost < b.cost ? 1 : -1).slice(0, 5);
  if (!found.length) return null;
  return ["Costliest: ", ...found.flatMap((row, at) => [at ? ", " : "",
    anchor(link({ line: row.line }), `line ${row.line}`), ` ${share(row.cost, total)}`]), "."];
}

function annotated(s, answer, event) {
  const { total, outside, rows } = answer, top = rows.reduce((most, row) => row.cost > most ? row.cost : most, 0n);
  const wanted = rows.findIndex(row => s.line ? row.line === s.line : row.cost === top);
  const from = Math.max(0, Math.min(wanted - DRAWN / 2, rows.length - DRAWN)), drawn = rows.slice(from, from + DRAWN);
  const said = [`${grouped(total)} ${shown(event)} in this file`];
  if (outside) said.push(`; ${grouped(outside)} outside of this source, which may have changed since`);
  const body = element("tbody", null, drawn.map(row => lineRow(row, total, top, s.line)));
  const missing = rows.length - drawn.length;
  const box = element("div", null, note(...said, ". ", costliest(rows, total)),
    missing ? note(`${many(missing, "line")} farther away ${missing === 1 ? "is" : "are"} not drawn.`) : null,
    element("table", { className: "source" }, body));
  requestAnimationFrame(() => body.children[wanted - from]?.scrollIntoView({ block: "center" }));
  return box;
}

async function beside(s, runs, event, known) {
  const name = shown(s.file);
  if (!known) return note(element("code", null, name), ` has no cost of ${shown(event)} in these runs.`);
  const file = sourceOf(s.file);
  if (!file) return note("Pick the source of ", element("code", null, name), " or drop it here. A whole folder can be picked at once.");
  if (file.size > GREATEST) return fault("The server takes a source of 16 MiB at most.");
  try {
    return annotated(s, readAnnotated(await ask("annotate", { event, file: s.file, ...runs }, file)), event);
  } catch (error) {
    if (!(error instanceof Refusal)) throw error;
    return fault(error.message);
  }
}

function picker(text, id, folder, again) {
  const input = element("input", { type: "file", multiple: true, id, webkitdirectory: folder, className: "away" });
  input.onchange = () => {
    pick(input.files);
    again();
  };
  return [input, element("button", { onclick: () => input.click() }, text)];
}

export async function source(s, runs, event, again) {
  const report = await selfCosts("file", runs, event);
  const files = report.rows.map(row => ({ cost: row.cost, name: unescaped(row.key) }));
  const known = files.some(it => it.name === s.file);
  const options = files.slice(0, 5000).map((it, at) => element("option", { value: String(at), title: shown(it.name),
    selected: it.name === s.file }, `${shown(base(it.name))}   ${share(it.cost, report.total)}`));
  const choice = element("select", { id: "file", ariaLabel: "file of the profile", onchange: event => go({ file: files[event.target.value]?.name, line: undefined }) },
    element("option", { value: "" }, "which file of the profile …"), options);
  const bar = toolbar(choice, picker("pick sources …", "pick", false, again), picker("pick a folder …", "pick-folder", true, again),
    element("span", { className: "small" }, s.file === undefined ? "" : shown(s.file)));
  const below = s.file === undefined ? note("Choose a file of the profile, and pick its source on this machine. It is sent to the server of this page alone.")
    : await beside(s, runs, event, known);
  return [bar, below];
}
