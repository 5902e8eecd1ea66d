// A run joined with its quarter: its bids with what they offer, run and are paid, and why.

import { part } from "./parts.js";
import { gatesOf, reachTreeOf, treeOf } from "./tree.js";

const REJECTED = "rejected in the money";
const WITHHELD = "withheld";

// The tags of a bid: what it is beside a price and a quantity.
function tagsOf(quarter, place, children) {
  const tags = [];
  const [least, greatest] = [quarter.least[place], quarter.greatest[place]];
  if (least > 0 && least === greatest) tags.push({ letter: "I", text: "indivisible" });
  else if (least > 0) tags.push({ letter: "M", text: `at least ${least} MW` });
  if (quarter.group[place] !== null) {
    tags.push({ letter: "G", text: `group ${quarter.group[place]}` });
  }
  if (quarter.parent[place] !== null) {
    tags.push({ letter: "C", text: `child of ${quarter.name[quarter.parent[place]]}` });
  }
  if (children.has(place)) {
    tags.push({ letter: "P", text: `parent of ${children.get(place).join(", ")}` });
  }
  for (const text of quarter.links[place] || []) tags.push({ letter: "L", text });
  return tags;
}

function childrenOf(quarter) {
  const children = new Map();
  quarter.parent.forEach((parent, place) => {
    if (parent === null) return;
    if (!children.has(parent)) children.set(parent, []);
    children.get(parent).push(quarter.name[place]);
  });
  return children;
}

// A bid of the quarter hour as a run has it; `at` is its place among those that the run is offered.
function bidOf(day, quarter, run, place, at) {
  const state = day.states[run.reasons.state[place]];
  return { place, at, name: quarter.name[place], provider: quarter.provider[place],
    zone: quarter.zone[place], up: quarter.up[place] === 1, price: quarter.price[place],
    gated: quarter.gated[place] === 1, group: quarter.group[place], parent: quarter.parent[place],
    state, why: run.reasons.text[place], rejected: state === REJECTED, withheld: state === WITHHELD,
    mw: at === null ? 0 : run.bids.mw[at], offered: at === null ? 0 : run.bids.left[at],
    amount: at === null ? 0n : BigInt(run.bids.pay[at]) };
}

function joined(day, run, quarter) {
  const places = new Map(run.bids.place.map((place, at) => [place, at]));
  const children = childrenOf(quarter);
  return quarter.name.map((name, place) => {
    const bid = bidOf(day, quarter, run, place, places.has(place) ? places.get(place) : null);
    bid.tags = tagsOf(quarter, place, children);
    return bid;
  });
}

function nodesOf(day, run, gates) {
  return day.form === 2 ? reachTreeOf(run.tree, gates, run.zones.price) : treeOf(run.tree.items, gates);
}

// A run in full: the quarter hour's bids, those that it is offered, their gates, and the nodes of its tree. `run` is
// null where it is unpublished.
export async function runView(day, number) {
  const short = day.runs[number - 1];
  const [run, quarter] = await Promise.all([part(`run-${number}`), part(`quarter-${short.quarter}`)]);
  const all = joined(day, run, quarter);
  const bids = all.filter((bid) => !bid.withheld);
  const gates = gatesOf(bids);
  return { short, run: short.price ? run : null, all, bids, gates,
    nodes: short.price ? nodesOf(day, run, gates) : null };
}
