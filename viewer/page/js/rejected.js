// The run's rejected bids that the price would have paid, each with its reason.

import { price, gain } from "./numbers.js";
import { readingOf } from "./frame.js";
import { UNPUBLISHED } from "./sentences.js";

const SHOWN = 60;

export class Rejected {
  constructor(host, day, selection) {
    Object.assign(this, { host, day, selection });
    const panel = d3.select(host);
    this.reading = readingOf(host);
    this.none = panel.append("p").attr("class", "none");
    this.list = panel.append("ol").attr("class", "reasons").attr("tabindex", 0)
      .attr("aria-label", "Bids rejected in the money");
    this.elsewhere = panel.append("p").attr("class", "elsewhere");
    const runs = day.runs.filter((run) => run.rejected).slice(0, SHOWN);
    this.elsewhere.append("span").text(runs.length ? "Runs of the day with such bids: " : "");
    this.elsewhere.selectAll("button").data(runs).enter().append("button").attr("type", "button")
      .attr("title", (run) => `${run.rejected} rejected in the money`)
      .text((run) => run.run).on("click", (run) => selection.setRun(run.run));
  }

  draw(view) {
    const { zone } = this.selection;
    const found = view.bids.filter((bid) => bid.rejected);
    const gained = (bid) => gain(bid, view.run.zones.price[bid.zone], bid.offered);
    found.sort((a, b) => Number(b.zone === zone) - Number(a.zone === zone)
      || (gained(a) < gained(b) ? 1 : -1));
    const here = found.filter((bid) => bid.zone === zone).length;
    this.reading.text(!view.run ? UNPUBLISHED
      : `${found.length} in the run, ${here} in ${this.day.zones[zone]}`);
    this.none.text(found.length || !view.run ? ""
      : "Every bid that the price pays for is activated, or is at the price itself.");
    this.none.attr("hidden", found.length ? true : null);
    this.elsewhere.selectAll("button")
      .attr("aria-current", (run) => (run.run === view.short.run ? "true" : null));
    this.drawList(found);
  }

  drawList(found) {
    this.list.selectAll("li").remove();
    const lines = this.list.selectAll("li").data(found.slice(0, SHOWN)).enter().append("li")
      .classed("near", (bid) => bid.zone === this.selection.zone);
    lines.append("button").attr("type", "button").text((bid) => bid.name)
      .attr("title", (bid) => `To ${this.day.zones[bid.zone]}`)
      .on("click", (bid) => this.selection.setZone(bid.zone));
    lines.append("span").text((bid) => ` of ${bid.provider}, ${bid.up ? "up" : "down"} at ${
      price(bid.price)}: ${bid.why}`);
    if (found.length > SHOWN) {
      this.list.append("li").text(`And ${found.length - SHOWN} more.`);
    }
  }
}
