// The table of a zone's bids in a run, each with its reason below it.

import { price, whole, euros } from "./numbers.js";
import { Table } from "./table.js";

function chips(cell, bid) {
  const tags = bid.tags.length ? bid.tags : [{ letter: "", text: "divisible" }];
  for (const tag of tags) {
    const chip = document.createElement("span");
    chip.className = tag.letter ? `chip ${tag.letter}` : "chip plain";
    chip.textContent = tag.text;
    cell.append(chip);
  }
}

function kindText(bid) {
  return bid.tags.map((tag) => tag.text).join(" ");
}

function stateOf(bid) {
  return bid.mw && bid.mw < bid.offered ? "activated in part" : bid.state;
}

export class BidTable {
  constructor(host) {
    const columns = [
      { head: "Bid", value: (bid) => bid.name, text: (bid) => bid.name },
      { head: "Provider", value: (bid) => bid.provider, text: (bid) => bid.provider },
      { head: "State", value: stateOf, text: stateOf },
      { head: "Way", value: (bid) => (bid.up ? 1 : 0), text: (bid) => (bid.up ? "up" : "down") },
      { head: "Price", unit: "EUR/MWh", number: true, value: (bid) => bid.price,
        text: (bid) => price(bid.price) },
      { head: "Offered", unit: "MW", number: true, value: (bid) => bid.offered,
        text: (bid) => whole(bid.offered) },
      { head: "Activated", unit: "MW", number: true, value: (bid) => bid.mw,
        text: (bid) => whole(bid.mw) },
      { head: "Is paid", unit: "EUR", number: true, value: (bid) => bid.amount,
        text: (bid) => (bid.mw ? euros(bid.amount) : "") },
      { head: "Kind", value: kindText, text: kindText, draw: chips },
    ];
    this.table = new Table(host, { label: "Bids of the zone", file: "bids", columns,
      below: { head: "Why", text: (bid) => bid.why },
      mark: (bid) => (bid.rejected ? "refused" : bid.mw ? "runs" : bid.withheld ? "withheld" : "") });
  }

  draw(bids) {
    const order = bids.slice().sort((a, b) => Number(a.withheld) - Number(b.withheld)
      || Number(b.up) - Number(a.up) || (a.up ? a.price - b.price : b.price - a.price) || a.place - b.place);
    this.table.draw(order);
  }
}
