// Sentences about runs and zones.

import { price, whole, euros } from "./numbers.js";

export const UNPUBLISHED = "the run is unpublished";

export function whenText(day, short) {
  const from = day.times[short.quarter - 1];
  const to = day.times[short.quarter];
  return `quarter ${short.quarter}, ${from}\u2013${to}, ${short.kind}`;
}

// What is shown of a run in the second form; nothing in the first.
export function shownText(short) {
  if (short.gap === undefined) return "";
  return short.gap === null ? ", first" : `, within ${euros(BigInt(short.gap))} EUR of the best`;
}

export function gapText(short) {
  return `Run ${short.run}: no admissible activation is better by more than ${euros(BigInt(short.gap))} EUR`;
}

export function shortText(day, short, zone) {
  const head = `Run ${short.run}, ${whenText(day, short)}`;
  if (!short.price) return `${head}: unpublished, given up after ${whole(short.nodes)} nodes`;
  return `${head}: ${day.zones[zone]} ${price(short.price[zone])} EUR/MWh, `
    + `up ${whole(short.activated[0])} MW, down ${whole(short.activated[1])} MW, `
    + `rent ${euros(BigInt(short.rent))} EUR${shownText(short)}`;
}

export function unservedText(short) {
  return `Run ${short.run}: ${whole(short.unserved)} MW of inelastic demand unserved at the cap`;
}

// The names of zones that are numbered from 1.
export function zoneNames(numbers, day) {
  return numbers.map((number) => day.zones[number - 1]);
}

// Net import of a zone: the flows that enter it less those that leave it.
export function netImport(day, run, zone) {
  return day.borders.reduce((all, [from, to], at) => all
    + (to === zone ? run.borders.flow[at] : 0) - (from === zone ? run.borders.flow[at] : 0), 0);
}

export function unpublishedText(short, budget) {
  return `Run ${short.run} is unpublished: its search was given up after ${whole(short.nodes)} nodes, with a budget of ${
    whole(budget)}. It has no prices, and nothing is activated in it.`;
}
