// Finds bids by their name or their provider, in all runs of the day.

import { price, whole, euros } from "./numbers.js";
import { part } from "./parts.js";
import { runView } from "./run.js";
import { Table } from "./table.js";
import { readingOf } from "./frame.js";

const MOST = 500;

function matches(quarter, wanted, test) {
  return quarter.name.map((name, place) => place)
    .filter((place) => [quarter.name[place], quarter.provider[place]]
      .some((name) => test(name.toLowerCase(), wanted)));
}

// The runs whose quarter hours have bids that are found, each with the places of these bids; and bids without a run.
async function runsWith(day, wanted, test) {
  const found = [];
  for (const short of day.runs) {
    const quarter = await part(`quarter-${short.quarter}`);
    const places = matches(quarter, wanted, test);
    if (places.length) found.push({ short, places: new Set(places) });
  }
  const without = await part("without-run").catch(() => ({ name: [], provider: [] }));
  return { found, without: matches(without, wanted, test).map((place) => ({ short: null, bid: {
    name: without.name[place], provider: without.provider[place], zone: without.zone[place],
    quarter: without.quarter[place], price: without.price[place], mw: 0, amount: 0n, up: without.up[place] === 1,
    state: "no run", why: without.why } })) };
}

// A row for each found bid in each run: those that have just this name, or else those with it within theirs.
export async function find(day, text) {
  const wanted = text.trim().toLowerCase();
  for (const test of [(name, word) => name === word, (name, word) => name.includes(word)]) {
    const { found, without } = await runsWith(day, wanted, test);
    const rows = [];
    for (const { short, places } of found) {
      if (rows.length > MOST) break;
      const view = await runView(day, short.run);
      rows.push(...view.all.filter((bid) => places.has(bid.place)).map((bid) => ({ short, bid })));
    }
    if (rows.length || without.length) return [...rows, ...without];
  }
  return [];
}

export class Find {
  constructor(form, host, day, selection) {
    Object.assign(this, { host, day, selection, newest: 0 });
    this.reading = readingOf(host);
    d3.select(host).select("h2").append("button").attr("type", "button").text("close")
      .on("click", () => this.open(false));
    const when = ({ short, bid }) => day.times[(short || bid).quarter - 1];
    const columns = [
      { head: "Bid", value: (row) => row.bid.name, text: (row) => row.bid.name },
      { head: "Provider", value: (row) => row.bid.provider, text: (row) => row.bid.provider },
      { head: "Run", number: true, value: (row) => (row.short ? row.short.run : 0),
        text: (row) => (row.short ? `${row.short.run}` : "") },
      { head: "Time", value: (row) => (row.short || row.bid).quarter, text: when },
      { head: "Zone", value: (row) => row.bid.zone, text: (row) => day.zones[row.bid.zone] },
      { head: "State", value: (row) => row.bid.state, text: (row) => row.bid.state },
      { head: "Way", value: (row) => (row.bid.up ? 1 : 0), text: (row) => (row.bid.up ? "up" : "down") },
      { head: "Price", unit: "EUR/MWh", number: true, value: (row) => row.bid.price,
        text: (row) => price(row.bid.price) },
      { head: "Activated", unit: "MW", number: true, value: (row) => row.bid.mw, text: (row) => whole(row.bid.mw) },
      { head: "Is paid", unit: "EUR", number: true, value: (row) => row.bid.amount,
        text: (row) => (row.bid.mw ? euros(row.bid.amount) : "") },
    ];
    this.table = new Table(host, { label: "Found bids", file: "found", columns,
      below: { head: "Why", text: (row) => row.bid.why },
      mark: (row) => (row.bid.rejected ? "refused" : row.bid.mw ? "runs" : ""),
      pick: (row) => row.short && selection.set(row.short.run, row.bid.zone) });
    form.addEventListener("submit", (event) => {
      event.preventDefault();
      this.look(form.elements[0].value);
    });
  }

  open(shown) {
    this.host.hidden = !shown;
    this.host.parentElement.classList.toggle("finding", shown);
  }

  // Shows what is found for the newest text.
  async look(text) {
    if (!text.trim()) return;
    this.newest += 1;
    const mine = this.newest;
    this.open(true);
    this.reading.text("looking \u2026");
    this.table.draw([]);
    const rows = await find(this.day, text);
    if (mine !== this.newest) return;
    const paid = rows.reduce((all, row) => all + row.bid.amount, 0n);
    this.table.draw(rows.slice(0, MOST));
    this.reading.text(!rows.length ? `no bid or provider is called ${text.trim()}`
      : rows.length > MOST ? `the first ${whole(MOST)} rows of ${text.trim()}`
        : `${text.trim()}: ${whole(rows.length)} rows, paid ${euros(paid)} EUR`);
    this.host.scrollIntoView({ block: "nearest" });
  }
}
