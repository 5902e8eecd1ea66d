// The price of each zone in each run as colours: a row for each zone, on the day's axis.

import { price } from "./numbers.js";
import { priceColour } from "./colour.js";

const NAMED = 11;     // the height of a row that has room for a name

function rowHeight(zones) {
  return zones <= 9 ? Math.min(13, Math.floor(110 / zones)) : Math.max(2, Math.min(9, Math.floor(84 / zones)));
}

// A picture of one dot for each place across and two for each zone down: a scheduled run fills its quarter, and direct
// runs after it share the lower dots.
function painted(slots, x, width, zones, colour) {
  const canvas = document.createElement("canvas");
  [canvas.width, canvas.height] = [Math.max(1, Math.round(width)), 2 * zones];
  const pen = canvas.getContext("2d");
  const start = x.range()[0];
  const of = (kind) => slots.filter(({ run }) => run.kind === kind).map(({ run }) => run.quarter);
  const scheduled = new Set(of("scheduled"));
  const direct = d3.nest().key((quarter) => quarter).rollup((all) => all.length).map(of("direct"));
  const seen = new Map();
  for (const { run } of slots) {
    const { quarter } = run;
    const below = run.kind === "direct" && scheduled.has(quarter);
    const count = run.kind === "direct" ? direct.get(quarter) : 1;
    const place = run.kind === "direct" ? seen.get(quarter) || 0 : 0;
    if (run.kind === "direct") seen.set(quarter, place + 1);
    const [from, to] = [quarter - 1 + place / count, quarter - 1 + (place + 1) / count];
    const left = Math.round(Math.max(0, x(from) - start));
    const wide = Math.max(1, Math.round(Math.min(width, x(to) - start)) - left);
    run.price.forEach((cents, zone) => {
      pen.fillStyle = colour(cents);
      pen.fillRect(left, 2 * zone + (below ? 1 : 0), wide, below ? 1 : 2);
    });
  }
  return canvas.toDataURL();
}

export class ZonePrices {
  constructor(day, range) {
    Object.assign(this, { day, range, row: rowHeight(day.zones.length) });
    this.high = this.row * day.zones.length;
  }

  draw(group, slots, x, top) {
    Object.assign(this, { top, left: x.range()[0], width: x.range()[1] - x.range()[0] });
    group.append("image").attr("x", this.left).attr("y", top).attr("width", this.width)
      .attr("height", this.high).attr("preserveAspectRatio", "none")
      .attr("href", painted(slots, x, this.width, this.day.zones.length, priceColour(this.range)));
    this.names = group.append("g").attr("class", "axis zone-names");
    this.frame = group.append("rect").attr("class", "zone-frame").attr("x", this.left)
      .attr("width", this.width).attr("height", this.row);
  }

  // The names that fit, and always the selected zone's.
  select(zone) {
    const top = (at) => this.top + at * this.row;
    this.frame.attr("y", top(zone));
    const named = this.row >= NAMED ? d3.range(this.day.zones.length) : [zone];
    this.names.selectAll("text").remove();
    this.names.selectAll("text").data(named).enter().append("text").attr("x", this.left - 6)
      .attr("y", (at) => top(at) + this.row / 2 + 3.5).classed("others", (at) => at !== zone)
      .text((at) => this.day.zones[at]);
  }

  // The zone at a height, or null.
  zoneAt(y) {
    const zone = Math.floor((y - this.top) / this.row);
    return zone >= 0 && zone < this.day.zones.length && y >= this.top ? zone : null;
  }

  note() {
    return `EUR/MWh, from violet ${price(Math.round(this.range[0]))} to yellow ${
      price(Math.round(this.range[1]))}; click picks zone and run`;
  }
}
