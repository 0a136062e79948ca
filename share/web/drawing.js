// Parts of the page that several views have.

import { go, state } from "./address.js";
import { base, grouped, part, share, shown, signed, signedShare, signOf, size } from "./texts.js";

export const $ = id => document.getElementById(id);

// An element with its properties and what is in it; null is left out.
export function element(tag, properties, ...children) {
  const made = document.createElement(tag);
  const { dataset, style, ...others } = properties ?? {};
  Object.assign(made, others);
  Object.assign(made.dataset, dataset);
  Object.assign(made.style, style);
  made.append(...children.flat().filter(it => it !== null && it !== undefined && it !== ""));
  return made;
}

export const note = (...children) => element("p", { className: "note" }, ...children);
export const fault = text => element("p", { className: "fault", role: "alert" }, text);
export const anchor = (href, text, properties) => element("a", { href, ...properties }, text);
export const toolbar = (...children) => element("div", { className: "toolbar" }, ...children);

// A name is shown as it is read, in short where `short` has that, and whole as a hint.
export function functionCell(row, short, ...below) {
  const name = shown(row.name), object = row.place ?? (row.object === "???" ? "" : shown(base(row.object)));
  return element("td", { className: "name", title: `${name}\n${row.places ?? shown(row.object)}` },
    element("code", null, short.get(name) ?? name), object ? element("span", { className: "place" }, object) : null, ...below);
}

// Of a path that is too long, the end is shown.
export function nameCell(name, said) {
  const text = shown(name), at = text.lastIndexOf("/") + 1;
  // (the cell goes from right to left)
  return element("td", { className: "name path", title: said ? `${text}, ${said}` : text }, said ? element("span", { className: "place" }, said) : null,
    element("code", null, element("span", { className: "folder" }, text.slice(0, at)), text.slice(at)));
}

export const costCell = number => element("td", { className: "cost" }, grouped(number));
export const shareCell = (number, whole) => element("td", { className: "share" }, share(number, whole));
export const changeCell = number => element("td", { className: "cost " + signOf(number) }, signed(number));
export const changeShareCell = (number, whole) => element("td", { className: "share" }, signedShare(number, whole));

// A bar from the left, for a cost of at most `top`.
export const barCell = (number, top) => element("td", { className: "bar" },
  element("div", { className: "one" }, element("i", { style: { width: part(number, top) + "%" } })));

// A bar to either side of a middle line.
export const twoBarCell = (number, top) => element("td", { className: "bar" },
  element("div", { className: "two" },
    element("i", { className: signOf(number), style: { width: part(number, top) / 2 + "%" } })));

// A table: its columns are pairs of a class and a head.
export function table(columns, ...bodies) {
  const head = element("tr", null, columns.map(([className, text]) => element("th", { className, scope: "col" }, text)));
  return element("table", null, element("thead", null, head), bodies);
}

const PIECE = 500;

// Rows of a table, which are drawn when they are wanted: a report may have tens of thousands.
export function rowsBody(rows, draw) {
  const body = element("tbody", { className: "rows" });
  let drawn = 0;
  const more = () => {
    body.querySelector(".further")?.remove();
    body.append(...rows.slice(drawn, drawn + PIECE).map(draw));
    drawn += PIECE;
    if (drawn >= rows.length) return;
    const shows = () => {
      more();
      widen();
    };
    const button = element("button", { onclick: shows }, `${grouped(BigInt(rows.length - drawn))} more rows: show ${Math.min(PIECE, rows.length - drawn)}`);
    // (with more columns than there are, names would have little room)
    body.append(element("tr", { className: "further" }, element("td", { colSpan: body.rows[0].cells.length }, button)));
  };
  more();
  return body;
}

// Makes columns as wide as their longest number: one that is cut reads like another one.
const NUMBERS = ".cost, .share, .count";
export function widen() {
  for (const it of document.querySelectorAll("main table")) {
    const heads = [...it.querySelectorAll("th")], rows = [...it.rows];
    const wide = heads.map((_, at) => Math.max(...rows.map(row => row.cells[at]?.matches(NUMBERS) ? row.cells[at].scrollWidth : 0)));
    heads.forEach((head, at) => {
      // (as far as the number goes, and the edge behind it)
      if (wide[at] > head.clientWidth) head.style.width = wide[at] + 9 + "px";
    });
  }
}

// A row that leads to a view, by a click or by Enter.
export function leading(row, change) {
  row.classList.add("leads");
  row.tabIndex = -1;
  row.change = change;
  row.onclick = () => {
    // A name that is being copied is not clicked.
    if (String(getSelection()) === "") go(change);
  };
  return row;
}

// Of the rows in a box Tab reaches one, with the lines in it, and the arrows lead to the others.
export function reachable(box, row) {
  for (const it of box.querySelectorAll("tr.leads[tabindex='0'], tr.leads [tabindex='0']")) it.tabIndex = -1;
  if (row) for (const it of [row, ...row.querySelectorAll(".at a, .at button")]) it.tabIndex = 0;
}

// Marks the rows of the function that is looked at.
export function mark() {
  const s = state();
  for (const row of document.querySelectorAll("#content tr.leads")) {
    const on = row.change.fn !== undefined && row.change.fn === s.fn && (row.change.ob ?? "") === (s.ob ?? "");
    row.classList.toggle("on", on);
  }
}

// The rows that a filter leaves: each of its words stands in the name.
export function filtered(rows, textOf) {
  const words = shown(state().q ?? "").toLowerCase().split(" ").filter(Boolean);
  if (!words.length) return rows;
  return rows.filter(row => {
    row.text ??= shown(textOf(row)).toLowerCase();
    return words.every(it => row.text.includes(it));
  });
}

export const greatest = rows => rows.reduce((top, row) => size(row.cost) > top ? size(row.cost) : top, 0n);
export const sum = rows => rows.reduce((all, row) => all + row.cost, 0n);

// What a full bar stands for: the greatest row, or a tenth of the total where all are smaller. So a flat profile has short bars.
export const fullBar = (rows, total) => [greatest(rows), total / 10n].reduce((a, b) => a > b ? a : b);

// A hint beside the mouse.
export function hint(event, text) {
  const box = $("tip");
  box.textContent = text;
  box.hidden = !text;
  if (!text) return;
  box.style.left = Math.max(0, Math.min(event.clientX + 12, innerWidth - box.offsetWidth - 8)) + "px";
  box.style.top = Math.max(0, Math.min(event.clientY + 16, innerHeight - box.offsetHeight - 8)) + "px";
}
