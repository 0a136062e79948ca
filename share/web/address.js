// The view stands in the address behind #, so that it can be sent to others and the browser's Back works. Values are
// strings of bytes, as names are.
//
//   view=  run= or group= or all=1  event= or derived=  q= the filter  in= an object alone  fn= and ob= the function of the panel
//   thread= of a list of functions, one thread alone
//   zero=1 where it was found by a call that costs nothing
//   less=r1 or gNAME  key=  calls=1 with all that is called  match=  sum=1 many runs less one     of a difference
//   zoom= frames joined by ;     file= and line= of a source
//   names= functions joined by , as OBJECT:FUNCTION, each percent-encoded  every=1 all runs  floor=1 lines from 0  calls=  match=
//   of a history

import { percent, unpercent } from "./texts.js";

export function state() {
  const found = Object.create(null);
  for (const it of location.hash.slice(1).split("&")) {
    const at = it.indexOf("=");
    if (at > 0) found[it.slice(0, at)] = unpercent(it.slice(at + 1));
  }
  return found;
}

export function link(change) {
  const parts = Object.entries({ ...state(), ...change }).filter(([, value]) => value !== undefined && value !== "");
  return "#" + parts.map(([name, value]) => `${name}=${percent(value)}`).join("&");
}

export const go = change => {
  location.hash = link(change);
};

// A change that is not worth a step of Back.
export const replace = change => {
  history.replaceState(null, "", link(change));
};

// A selection in the form of less=, and back.
export const packed = runs => runs.run ? "r" + runs.run : runs.group ? "g" + runs.group : "";
export const unpacked = text => !text ? null : text[0] === "r" ? { run: text.slice(1) } : { group: text.slice(1) };
