// The flame graph of folded runs: the root at the top, as wide as its samples. With a second selection the colours say
// which frames have a greater or a smaller share than there.

import { go, link, packed } from "./address.js";
import { lessOf } from "./difference.js";
import { anchor, element, hint, note, toolbar } from "./drawing.js";
import { folded, nameOf, runs as allRuns } from "./store.js";
import { grouped, linesOf, many, share, shown } from "./texts.js";

const HEIGHT = 19;
// Deeper frames are drawn when one of these is zoomed to.
const DEPTH = 300;
// Narrower frames, in pixels, are left out.
const NARROWEST = 0.7;

const frame = (name, above) => ({ name, above, count: 0n, below: new Map() });

export function treeOf(text) {
  const root = frame("all", null);
  for (const line of linesOf(text)) {
    const at = line.lastIndexOf(" "), count = BigInt(line.slice(at + 1));
    let node = root;
    root.count += count;
    for (const name of line.slice(0, at).split(";")) {
      let next = node.below.get(name);
      if (!next) node.below.set(name, next = frame(name, node));
      next.count += count;
      node = next;
    }
  }
  return root;
}

function namesTo(node) {
  const names = [];
  for (let it = node; it.above; it = it.above) names.unshift(it.name);
  return names.join(";");
}

// The frame at these names, or the last one on the way to it; of the other tree only the frame itself.
function reached(root, zoom, exactly) {
  let node = root;
  for (const name of zoom === undefined ? [] : zoom.split(";")) {
    const next = node.below.get(name);
    if (!next) return exactly ? null : node;
    node = next;
  }
  return node;
}

const label = name => shown(name || "???");
const ratio = (count, of) => of === 0n ? 0 : Number(count * 1000000n / of) / 1000000;

function warm(name) {
  let mixed = 7;
  for (const it of name) mixed = (mixed * 31 + it.charCodeAt(0)) % 9973;
  return `hsl(${20 + mixed % 36} ${76 + mixed % 19}% ${65 + mixed % 13}%)`;
}

// From grey, where a share is as before, to red or green, where all of it is new or gone.
function changed(now, before) {
  const change = (now - before) / Math.max(now, before, 1e-9);
  if (Math.abs(change) < 0.02) return "var(--same)";
  const much = Math.round(Math.abs(change) * 70 + 30);
  return `color-mix(in srgb, var(${change > 0 ? "--more-fill" : "--fewer-fill"}) ${much}%, var(--same))`;
}

// The frames to draw below one: each with its place from 0 to 1, and its depth.
function placed(node, mate, above, width) {
  const found = [], waiting = [{ node, mate, left: 0, wide: 1, depth: above }];
  let cut = false;
  while (waiting.length) {
    const it = waiting.pop();
    found.push(it);
    if (it.depth - above >= DEPTH) {
      cut ||= it.node.below.size > 0;
      continue;
    }
    let left = it.left;
    const names = [...it.node.below.keys()].sort();
    for (const next of names.map(name => it.node.below.get(name))) {
      const wide = it.wide * ratio(next.count, it.node.count);
      if (wide * width >= NARROWEST) waiting.push({ node: next, mate: it.mate?.below.get(next.name), left, wide, depth: it.depth + 1 });
      left += wide;
    }
  }
  return { found, cut };
}

class Flame {
  constructor(s, root, before) {
    Object.assign(this, { s, root, before });
    this.box = element("div", { id: "flame", role: "tree", ariaLabel: "flame graph" });
    this.line = element("div", { className: "below", role: "status" });
    this.words = shown(s.q ?? "").toLowerCase();
    this.top = reached(root, s.zoom);
  }

  told(node, mate) {
    const { root, before } = this;
    const text = `${label(node.name)}\n${many(node.count, "sample")}, ${share(node.count, root.count) || "0 %"} of all`;
    return before ? `${text}, before ${mate ? share(mate.count, before.count) || "0 %" : "none"}` : text;
  }

  hit(node) {
    return this.words !== "" && node.above !== null && label(node.name).toLowerCase().includes(this.words);
  }

  // The samples of stacks with a frame that is searched for.
  hits() {
    let count = 0n;
    const waiting = [this.root];
    while (waiting.length) {
      const node = waiting.pop();
      if (this.hit(node)) count += node.count;
      else waiting.push(...node.below.values());
    }
    return count;
  }

  frameBox({ node, mate, left, wide, depth }, outside, width) {
    const { root, before } = this;
    const fill = before ? changed(ratio(node.count, root.count), mate ? ratio(mate.count, before.count) : 0) : warm(node.name);
    const made = element("div", { className: "frame", role: "treeitem", tabIndex: -1, ariaLabel: this.told(node, mate),
      style: { left: left * 100 + "%", width: wide * 100 + "%", top: depth * HEIGHT + "px", background: fill } }, wide * width > 24 ? label(node.name) : "");
    made.classList.toggle("thin", wide * width < 4);
    made.classList.toggle("outside", outside);
    made.classList.toggle("hit", this.hit(node));
    made.node = node;
    made.onclick = () => go({ zoom: node === root ? undefined : namesTo(node) });
    made.onmousemove = event => hint(event, this.told(node, mate));
    made.onmouseleave = () => hint(null, "");
    made.onfocus = () => { this.line.textContent = this.told(node, mate).replace("\n", ": "); };
    return made;
  }

  draw() {
    const width = this.box.clientWidth || 1000, trail = [];
    hint(null, "");
    for (let it = this.top.above; it; it = it.above) trail.unshift(it);
    const mateOf = node => this.before && reached(this.before, namesTo(node) || undefined, true);
    const { found, cut } = placed(this.top, mateOf(this.top), trail.length, width);
    const outside = trail.map((node, depth) => this.frameBox({ node, mate: mateOf(node), left: 0, wide: 1, depth }, true, width));
    this.box.replaceChildren(...outside, ...found.map(it => this.frameBox(it, false, width)));
    this.box.style.height = (found.reduce((deep, it) => Math.max(deep, it.depth), 0) + 1) * HEIGHT + "px";
    this.line.textContent = cut ? "Deeper frames are drawn when you click one of the last." : "";
  }

  // Draws as soon as the width is known, and again when it is another one.
  follow() {
    let width = 0;
    new ResizeObserver(() => requestAnimationFrame(() => {
      if (!this.box.isConnected || this.box.clientWidth === width) return;
      width = this.box.clientWidth;
      this.draw();
    })).observe(this.box);
  }

  // The frame in a direction from the one that has the keyboard.
  next(node, key) {
    if (key === "ArrowUp") return node.above;
    const beside = key === "ArrowDown" ? node : node.above;
    if (!beside) return null;
    const names = [...beside.below.keys()].sort();
    if (key === "ArrowDown") return names.map(it => node.below.get(it)).sort((a, b) => a.count < b.count ? 1 : -1)[0];
    return beside.below.get(names[names.indexOf(node.name) + (key === "ArrowLeft" ? -1 : 1)]);
  }

  move(event) {
    const boxes = [...this.box.children], at = boxes.find(it => it === document.activeElement);
    if (event.key === "Enter" && at) at.click();
    if (!event.key.startsWith("Arrow")) return;
    event.preventDefault();
    const next = at ? this.next(at.node, event.key) : this.top;
    boxes.find(it => it.node === next)?.focus();
  }
}

export async function flame(s, runs) {
  const less = lessOf(s, runs);
  const [text, other] = await Promise.all([folded(runs), less ? folded(less) : ""]);
  const root = treeOf(text), before = less && other ? treeOf(other) : null;
  if (!root.count) {
    const run = allRuns.filter(it => it.kind === "folded").at(-1);
    return [note("These runs have no stacks: files of Callgrind have none. ", run
      ? [anchor(link({ run: run.number, group: undefined, all: undefined, less: undefined }), `Run ${run.number}`), " has."]
      : "`profhouse import --folded` takes folded stacks.")];
  }
  const drawing = new Flame(s, root, before);
  const said = [`${grouped(root.count)} samples of ${nameOf(runs)}`];
  if (before) said.push(`beside ${nameOf(less)}: red has a greater share than there, green a smaller one, grey the same`);
  if (drawing.words) said.push(`‘${drawing.words}’ is in ${share(drawing.hits(), root.count) || "0 %"} of them`);
  const whole = element("button", { disabled: s.zoom === undefined, onclick: () => go({ zoom: undefined }) }, "whole");
  const turned = before && packed(runs) ? anchor(link({ run: less.run, group: less.group, less: packed(runs), zoom: undefined }), "turn round") : null;
  drawing.box.onkeydown = event => drawing.move(event);
  drawing.follow();
  drawing.box.tabIndex = 0;
  return [toolbar(whole, turned, element("span", { className: "small" }, said.join("; "))), drawing.box, drawing.line];
}
