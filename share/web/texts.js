// Texts as the server and the address have them, and as people read them. A name is a string of bytes, with a character
// of code 0 to 255 for each of them, since a name need not be UTF-8. A cost is a BigInt, since it may be above 2^53.

export function bytesOf(buffer) {
  const bytes = new Uint8Array(buffer);
  let text = "";
  // A call takes only so many arguments.
  for (let at = 0; at < bytes.length; at += 32768) {
    text += String.fromCharCode.apply(null, bytes.subarray(at, at + 32768));
  }
  return text;
}

export const toBytes = text => bytesOf(new TextEncoder().encode(text).buffer);

const UTF8 = new TextDecoder("utf-8", { fatal: true, ignoreBOM: true });

// The characters of a name: UTF-8 where it is that, else Latin-1.
export function decoded(name) {
  if (!/[\x80-\xff]/.test(name)) return name;
  try {
    return UTF8.decode(Uint8Array.from(name, it => it.charCodeAt(0)));
  } catch {
    return name;
  }
}

// Characters that cannot be seen, as all blanks but U+0020, or that change the order of those around them.
// share/scripts/profhouse_script.py has the same ones, and writes them so.
const HIDDEN = new RegExp("[\\0-\\x1f\\x7f-\\xa0\\xad\\u034f\\u061c\\u115f\\u1160\\u1680\\u17b4\\u17b5\\u180b-\\u180f\\u2000-\\u200f"
  + "\\u2028-\\u202f\\u205f-\\u206f\\u2800\\u3000\\u3164\\ufe00-\\ufe0f\\ufeff\\uffa0\\ufff0-\\ufffb"
  + "\\u{13430}-\\u{1343f}\\u{1bca0}-\\u{1bca3}\\u{1d173}-\\u{1d17a}\\u{e0000}-\\u{e0fff}]", "gu");

// A control code of ASCII, and a byte of a name that is no UTF-8, is \x and two digits; all else is \u and four, or \U and
// eight, so that U+009B and the byte 9B are two.
function code(it, least) {
  const number = it.codePointAt(0), digits = number.toString(16);
  return number < least ? "\\x" + digits.padStart(2, "0") : number < 0x10000 ? "\\u" + digits.padStart(4, "0") : "\\U" + digits.padStart(8, "0");
}

function shownBut(kept, name) {
  const text = decoded(name), least = text === name ? 0x100 : 0x80;
  return text.replace(HIDDEN, it => it === kept ? it : code(it, least));
}

export const shown = name => shownBut("", name);

export const shownLine = line => shownBut("\t", line);

// Reports double a backslash, and write a control code as \x and two digits.
export const unescaped = printed => printed.includes("\\")
  ? printed.replace(/\\(\\|x[0-9a-f]{2})/g, (_, it) => it === "\\" ? it : String.fromCharCode(parseInt(it.slice(1), 16)))
  : printed;

// A name as a report prints it.
export const escaped = name => name.replace(/[\0-\x1f\x7f\\]/g,
  it => it === "\\" ? "\\\\" : "\\x" + it.charCodeAt(0).toString(16).padStart(2, "0"));

export const percent = name => name.replace(/[^A-Za-z0-9_.~-]/g,
  it => "%" + it.charCodeAt(0).toString(16).padStart(2, "0"));

// An address that somebody wrote by hand may have other characters than percent() leaves.
export const unpercent = text => toBytes(text).replace(/%([0-9a-f]{2})/gi, (_, it) => String.fromCharCode(parseInt(it, 16)));

export const linesOf = text => text.split("\n").slice(0, -1);

export const base = path => path.slice(path.lastIndexOf("/") + 1) || path;

// A label in short: the last part of a path, but all of one that says what was run, as `bench=sort branch=my/branch`.
export const labelled = label => /(?:^|[ /])[a-z][a-z0-9_-]*=[^ ]/.test(label) ? label : base(label);

const size = number => number < 0n ? -number : number;
export { size };

const marked = digits => digits.replace(/\B(?=(\d{3})+$)/g, "\u2009");

export const grouped = number => (number < 0n ? "\u2212" : "") + marked(size(number).toString());

export const signed = number => (number > 0n ? "+" : "") + grouped(number);

// How long a bar is, in percent of the longest one.
export const part = (number, whole) => whole === 0n ? 0 : Number(size(number) * 10000n / size(whole)) / 100;

// A share in percent, cut to two decimals as the reports have it, and nothing of nothing.
export function share(number, whole) {
  if (whole === 0n) return "";
  const cut = size(number) * 10000n / whole;
  return `${marked((cut / 100n).toString())}.${(cut % 100n).toString().padStart(2, "0")} %`;
}

export const signedShare = (number, whole) =>
  whole === 0n ? "" : (number < 0n ? "\u2212" : number > 0n ? "+" : "") + share(number, whole);

export const signOf = number => number > 0n ? "more" : number < 0n ? "fewer" : "";

export const many = (count, word) => `${marked(String(count))} ${word}${String(count) === "1" ? "" : "s"}`;

// Names of operators have the signs that are brackets elsewhere.
const BRACKET = /operator\s*(?:\(\)|\[\]|->\*?|<=>|<<=?|>>=?|[-+*\/%^&|~!=<>]=?)|\(anonymous namespace\)|[()<>]/g;

// A name cut at its outermost brackets: what stands outside of them, and in turn what stands in them, with them.
function piecesOf(name) {
  const cuts = [0];
  let depth = 0;
  for (const { 0: it, index: at } of name.matchAll(BRACKET)) {
    // A name of Rust may begin with the type in brackets.
    const opens = (it === "(" || it === "<") && at > 0, closes = depth > 0 && (it === ")" || it === ">") && name[at - 1] !== "-";
    if (opens && depth === 0) cuts.push(at);
    depth += opens - closes;
    if (closes && depth === 0) cuts.push(at + 1);
  }
  return depth ? [name] : cuts.map((from, at) => name.slice(from, cuts[at + 1]));
}

// A name without what stands in its brackets: ns::Cache<int, long>::get(int) is ns::Cache::get.
export const bare = name => piecesOf(name).filter((_, at) => at % 2 === 0).join("");

// A name that is shorter is shown whole; and what of texts that differ.
const LONG = 48, SHORT = 20, FEW = 4;

function agree(texts) {
  let at = 0;
  while (at < texts[0].length && texts.every(it => it[at] === texts[0][at])) at++;
  return at;
}

// Texts that differ, each without the front and the end in which all agree, where these are long. No word is cut.
function apart(texts) {
  const front = texts[0].slice(0, agree(texts)).replace(/[\p{L}\p{N}_]+$/u, ""), least = Math.min(...texts.map(it => it.length)) - front.length;
  const back = Math.min(least, agree(texts.map(it => [...it].reverse().join(""))));
  const end = texts[0].slice(texts[0].length - back).replace(/^[\p{L}\p{N}_]+/u, ""), isShort = texts.every(it => it.length <= SHORT);
  const [first, last] = [front, end].map(it => isShort || it.length <= FEW ? it : "\u2026");
  return texts.map(it => first + it.slice(front.length, it.length - end.length) + last);
}

// Long names in short, as std::map<…>::operator[](…), by the names; where some would then be alike, what differs is kept.
// share/scripts/profhouse_names.py has the same rules.
export function briefs(names) {
  const alike = new Map(), found = new Map();
  for (const name of new Set(names)) {
    if (name.length < LONG) continue;
    const pieces = piecesOf(name), outside = pieces.filter((_, at) => at % 2 === 0).join("\u2026");
    if (!alike.has(outside)) alike.set(outside, []);
    alike.get(outside).push(pieces);
  }
  for (const group of alike.values()) {
    const shows = group.map(() => "");
    group[0].forEach((_, place) => {
      const inside = place % 2 ? [...new Set(group.map(it => it[place].slice(1, -1)))] : [];
      const differ = inside.length > 1 ? apart(inside) : ["\u2026"], said = new Map(inside.map((it, at) => [it, differ[at]]));
      group.forEach((pieces, at) => {
        const it = pieces[place];
        shows[at] += place % 2 === 0 || it.length === 2 ? it : it[0] + said.get(it.slice(1, -1)) + it.at(-1);
      });
    });
    group.forEach((pieces, at) => found.set(pieces.join(""), shows[at]));
  }
  return found;
}
