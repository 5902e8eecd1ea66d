// The day: prices, MW, rent and welfare over the quarters, on one axis; a click picks a run.

import { price, whole, rough, euros, sum } from "./numbers.js";
import { usualPrices, usualRange, widened } from "./colour.js";
import { gapText, shortText, unservedText } from "./sentences.js";
import { readingOf, sizeTo, spotOf } from "./frame.js";
import { ZonePrices } from "./zone_prices.js";
import { slotsOf, tenths, steps, stacked, bars, diamonds } from "./strokes.js";
import { save } from "./csv.js";

const SIDE = { left: 74, right: 20 };
const LANES = [
  { name: "price", head: "Price", unit: "EUR/MWh", high: 104 },
  { name: "zones", head: "Price by zone" },
  { name: "mw", head: "Activated", unit: "MW", high: 54 },
  { name: "rent", head: "Congestion rent", unit: "EUR", high: 26 },
  { name: "welfare", head: "Welfare", unit: "EUR", high: 26 },
];
const GAP = 5;
const HEAD = 14;
const MARKS = 10;
const AXIS = 26;

// The prices of all published runs as records.
function priceRecords(day) {
  const rows = day.runs.filter((run) => run.price).flatMap((run) => run.price.map((cents, zone) => [run.run,
    run.quarter, day.times[run.quarter - 1], run.kind, day.zones[zone], (cents / 100).toFixed(2)]));
  return [["run", "quarter", "time", "kind", "zone", "price"], ...rows];
}

export class DayChart {
  constructor(host, day, selection) {
    Object.assign(this, { host, day, selection });
    this.slots = slotsOf(day.runs);
    this.starts = this.slots.map((slot) => slot.start);
    this.published = this.slots.filter((slot) => slot.run.price);
    const first = this.slots.length ? Math.floor(this.slots[0].start) : 0;
    const last = this.slots.length ? Math.ceil(this.slots[this.slots.length - 1].end) : 1;
    this.whole = [first, Math.max(last, first + 1)];
    this.window = this.whole;
    this.range = widened(usualPrices(this.published.flatMap((slot) => slot.run.price)));
    this.zonePrices = new ZonePrices(day, this.range);
    LANES[1].high = this.zonePrices.high;
    this.frame();
    new ResizeObserver(() => this.resize()).observe(host);
  }

  frame() {
    this.reading = readingOf(this.host);
    const legend = d3.select(this.host).append("p").attr("class", "legend");
    legend.html(`<span><i class="key scheduled"></i> scheduled</span>
      <span><i class="key direct"></i> direct</span>
      <span><i class="key others"></i> other zones</span> <span><i class="key up"></i> up</span>
      <span><i class="key down"></i> down</span>
      <span><i class="key up light"></i><i class="key down light"></i> of direct runs</span>
      <span><i class="key asked"></i> demand</span>
      ${this.day.form === 2 ? '<span><b class="gap">\u25cb</b> within a gap of the best</span>'
    : '<span><i class="key unpublished"></i> unpublished</span>'}
      <span><b class="flag">\u25be</b> rejected in the money</span>
      <span><b class="flag">\u25a0</b> demand unserved</span>`);
    legend.append("button").attr("type", "button").attr("class", "csv").text("CSV")
      .attr("title", "The prices of all runs, as a CSV file")
      .on("click", () => save("prices.csv", priceRecords(this.day)));
    this.back = legend.append("button").attr("type", "button").text("whole day")
      .attr("hidden", true).on("click", () => this.zoom(this.whole));
    const svg = d3.select(this.host).append("svg").attr("role", "img");
    svg.append("title").text("Prices, activated MW, congestion rent and welfare of each run");
    svg.append("defs").append("pattern").attr("id", "hatch").attr("width", 5).attr("height", 5)
      .attr("patternUnits", "userSpaceOnUse").attr("patternTransform", "rotate(45)")
      .append("path").attr("d", "M0,0V5").attr("class", "hatch");
    this.svg = svg;
    this.lanes = svg.append("g");
    this.cursor = svg.append("g").attr("class", "cursor");
    this.axis = svg.append("g").attr("class", "axis time");
    this.brush = svg.append("g").attr("class", "brush");
    this.listen();
  }

  listen() {
    const node = this.svg.node();
    const at = (event) => this.runAt(spotOf(node, event)[0]);
    const zone = (event) => {
      const found = this.zonePrices.zoneAt(spotOf(node, event)[1]);
      return found === null ? this.selection.zone : found;
    };
    let held = false;
    node.addEventListener("pointerdown", (event) => {
      if (this.brush.node().contains(event.target) || event.button !== 0) return;
      held = true;
      this.selection.set(at(event), zone(event));
    });
    node.addEventListener("pointermove", (event) => {
      const run = at(event);
      if (held) this.selection.set(run, zone(event));
      this.read(run, zone(event));
    });
    window.addEventListener("pointerup", () => { held = false; });
    node.addEventListener("pointerleave", () => this.read(this.selection.run));
  }

  // The number of the run that is drawn at a place, or is nearest to it.
  runAt(left) {
    const at = this.x.invert(left);
    return Math.max(1, d3.bisectRight(this.starts, at));
  }

  read(number, zone = this.selection.zone) {
    const run = this.day.runs[number - 1];
    if (run) this.reading.text(shortText(this.day, run, zone));
  }

  resize() {
    const width = Math.max(420, this.host.clientWidth - 24);
    if (width === this.width) return;
    this.width = width;
    this.draw();
  }

  zoom(window) {
    this.window = window;
    this.back.attr("hidden", window === this.whole ? true : null);
    this.draw();
  }

  // Draws all lanes anew: at first, at another width and at another window.
  draw() {
    if (!this.width) return;
    this.x = d3.scaleLinear(this.window, [SIDE.left, this.width - SIDE.right]);
    const [from, to] = this.window;
    this.seen = this.published.filter((slot) => slot.end > from && slot.start < to);
    let top = MARKS;
    for (const lane of LANES) {
      lane.top = top + HEAD;
      top += HEAD + lane.high + GAP;
    }
    this.bottom = top - GAP;
    sizeTo(this.svg, this.width, this.bottom + AXIS);
    this.lanes.selectAll("*").remove();
    this.grid = this.lanes.append("g");
    this.heads = this.lanes.append("g");
    this.drawMarks();
    this.drawPrices();
    this.drawZonePrices();
    this.drawMegawatts();
    this.drawMoney(LANES[3], "rent");
    this.drawMoney(LANES[4], "welfare");
    this.heads.raise();
    this.drawAxis();
    this.select();
  }

  scale(lane, domain, count, format) {
    const y = d3.scaleLinear(domain, [lane.top + lane.high, lane.top + 1]).clamp(true);
    const ticks = y.ticks(count);
    const lines = this.grid.append("g").attr("class", "axis");
    for (const tick of ticks) {
      const at = y(tick);
      lines.append("path").attr("d", `M${SIDE.left},${at}H${this.width - SIDE.right}`)
        .classed("zero", tick === 0);
      lines.append("text").attr("x", SIDE.left - 6).attr("y", at + 3.5).text(format(tick));
    }
    this.head(lane, this.laneNote(lane));
    return y;
  }

  head(lane, note) {
    const text = this.heads.append("text").attr("class", "lane").attr("x", SIDE.left)
      .attr("y", lane.top - 4);
    text.append("tspan").text(lane.head);
    text.append("tspan").attr("class", "unit").attr("dx", 5).text(note);
  }

  drawZonePrices() {
    this.zonePrices.draw(this.lanes.append("g"), this.seen, this.x, LANES[1].top);
    this.head(LANES[1], this.zonePrices.note());
  }

  laneNote(lane) {
    const runs = this.published.map((slot) => slot.run);
    if (lane.name === "rent" || lane.name === "welfare") {
      const all = sum(runs.map((run) => BigInt(run[lane.name])));
      const { stacks, range } = this.moneyOf(lane.name);
      const beyond = stacks.filter((stack) => stack.to > range[1]).length;
      return `${lane.unit}, the day ${euros(all)}${beyond ? `, ${beyond} runs beyond the axis` : ""}`;
    }
    if (lane.name === "price") return lane.unit + this.beyondText();
    const up = d3.sum(runs, (run) => run.activated[0]);
    const down = d3.sum(runs, (run) => run.activated[1]);
    return `${lane.unit}, the day's runs up ${whole(up)}, down ${whole(down)}`;
  }

  beyondText() {
    const [low, high] = this.range;
    const beyond = this.published.filter((slot) => slot.run.price
      .some((value) => value < low || value > high));
    if (!beyond.length) return "";
    const values = beyond.flatMap((slot) => slot.run.price);
    return `, in ${beyond.length} runs beyond the axis, as far as `
      + `${price(d3.max(values) > high ? d3.max(values) : d3.min(values))}`;
  }

  drawMarks() {
    const { x } = this;
    const marks = this.lanes.append("g");
    for (const slot of this.slots) {
      const { run } = slot;
      const middle = x((slot.start + slot.end) / 2);
      if (middle < SIDE.left || middle > this.width - SIDE.right) continue;
      if (!run.price) {
        const [left, right] = [x(run.quarter - 1), x(run.quarter)];
        marks.append("rect").attr("class", "unpublished").attr("x", left).attr("y", 0)
          .attr("width", Math.max(2, right - left)).attr("height", run.kind === "direct" ? MARKS : this.bottom)
          .append("title").text(`Run ${run.run} is unpublished`);
        continue;
      }
      if (run.rejected) {
        marks.append("path").attr("class", "flag").attr("d", `M${middle - 3.5},2h7l-3.5,6z`)
          .append("title").text(`Run ${run.run}: ${run.rejected} bids rejected in the money`);
      }
      if (run.unserved) {
        marks.append("rect").attr("class", "flag lack").attr("x", middle - 3 + (run.rejected ? 8 : 0)).attr("y", 2)
          .attr("width", 6).attr("height", 6).append("title").text(unservedText(run));
      }
      if (run.gap) {
        const before = [run.rejected, run.unserved].filter(Boolean).length;
        marks.append("circle").attr("class", "gap").attr("cx", middle + 8 * before).attr("cy", 5).attr("r", 3)
          .append("title").text(gapText(run));
      }
    }
  }

  // The published runs that are seen, of one kind or of both, each over its quarter.
  strokes(kind) {
    const [from, to] = this.window;
    return this.seen.filter((slot) => !kind || slot.run.kind === kind).map(({ run }) => ({
      left: tenths(this.x(Math.max(from, run.quarter - 1))), right: tenths(this.x(Math.min(to, run.quarter))), run }));
  }

  // The direct runs side by side where they are picked.
  spots() {
    return this.seen.filter((slot) => slot.run.kind === "direct").map(({ start, end, run }) => ({
      left: tenths(this.x(start)), right: tenths(this.x(end)), run }));
  }

  drawPrices() {
    const y = this.scale(LANES[0], d3.scaleLinear().domain(this.range.map((cents) => cents / 100))
      .nice(4).domain(), 4, whole);
    this.y = (cents) => y(cents / 100);
    const group = this.lanes.append("g").attr("class", "others");
    [this.scheduled, this.direct] = [this.strokes("scheduled"), this.strokes("direct")];
    this.day.zones.forEach((name, zone) => {
      const at = (run) => run.price[zone];
      group.append("path").attr("class", "scheduled").attr("d", steps(this.scheduled, at, this.y, true));
      group.append("path").attr("class", "direct").attr("d", steps(this.direct, at, this.y, false));
    });
    this.chosen = this.lanes.append("g").attr("class", "chosen");
  }

  drawMegawatts() {
    const value = (key, place) => (run) => (place ? -1 : 1) * run[key][place];
    const every = this.published.map(({ run }) => ({ run }));
    const ends = (place) => ["activated", "asked"].flatMap((key) => stacked(every, value(key, place)))
      .map((stack) => stack.to);
    const y = this.scale(LANES[2], [d3.min(ends(1)) || -1, d3.max(ends(0)) || 1], 3, rough);
    const group = this.lanes.append("g");
    for (const place of [0, 1]) {
      const stacks = stacked(this.strokes(), value("activated", place));
      for (const kind of ["scheduled", "direct"]) {
        group.append("path").attr("class", `bars ${place ? "down" : "up"} ${kind}`)
          .attr("d", bars(stacks.filter((stack) => stack.run.kind === kind), y));
      }
      const asked = stacked(this.strokes(), value("asked", place));
      const lasts = new Map(asked.map((stack) => [stack.run.quarter, stack]));
      const tops = [...lasts.values()].map(({ left, right, to }) => ({ left, right, run: { to } }));
      group.append("path").attr("class", "asked").attr("d", steps(tops, (run) => run.to, y, true));
    }
  }

  // The bars of all published runs for rent or welfare, in EUR, and the usual range of their ends.
  moneyOf(key) {
    const stacks = stacked(this.published.map(({ run }) => ({ run })), (run) => Number(run[key]) / 400);
    return { stacks, range: usualRange(stacks.map((stack) => stack.to), 100) };
  }

  drawMoney(lane, key) {
    const [least, most] = this.moneyOf(key).range;
    const y = this.scale(lane, [Math.min(0, least), Math.max(most, 1)], 2, rough);
    const stacks = stacked(this.strokes(), (run) => Number(run[key]) / 400);
    for (const kind of ["scheduled", "direct"]) {
      this.lanes.append("path").attr("class", `bars money ${kind}`)
        .attr("d", bars(stacks.filter((stack) => stack.run.kind === kind), y));
    }
  }

  drawAxis() {
    const [from, to] = this.window;
    const every = [1, 2, 4, 8, 12, 24, 48, 96].find((n) => (to - from) / n <= this.width / 56);
    const ticks = d3.range(Math.ceil(from / every) * every, to + 0.01, every);
    const axis = d3.axisBottom(this.x).tickValues(ticks).tickSize(4).tickPadding(3)
      .tickFormat((quarter) => this.day.times[quarter] || "");
    this.axis.attr("transform", `translate(0,${this.bottom + 2})`).call(axis);
    const area = [[SIDE.left, this.bottom + 2], [this.width - SIDE.right, this.bottom + AXIS]];
    this.brushing = d3.brushX().extent(area).on("end", () => this.brushed());
    this.brush.call(this.brushing);
    this.brush.select(".overlay").selectAll("title").data([0]).enter().append("title")
      .text("Drag here to look closer");
  }

  brushed() {
    const pair = d3.event.selection;
    if (!d3.event.sourceEvent || !pair) return;
    const [from, to] = pair.map(this.x.invert);
    this.zoom([Math.floor(from), Math.max(Math.floor(from) + 1, Math.ceil(to))]);
    this.brush.call(this.brushing.move, null);
  }

  // Follows the selection: the cursor, and the selected zone's lines.
  select() {
    const slot = this.slots[this.selection.run - 1];
    if (!this.x || !slot) return;
    const [from, to] = this.window;
    if (slot.end <= from || slot.start >= to) {
      this.zoom(this.whole);
      return;
    }
    const at = (run) => run.price[this.selection.zone];
    this.chosen.selectAll("*").remove();
    this.chosen.append("path").attr("class", "scheduled")
      .attr("d", steps(this.scheduled, at, this.y, true));
    this.chosen.append("path").attr("class", "direct")
      .attr("d", steps(this.direct, at, this.y, false));
    this.chosen.append("path").attr("class", "diamonds").attr("d", diamonds(this.spots(), at, this.y));
    this.zonePrices.select(this.selection.zone);
    this.drawCursor(slot);
    this.read(this.selection.run);
  }

  drawCursor(slot) {
    this.cursor.selectAll("*").remove();
    const { quarter } = slot.run;
    const left = this.x(Math.max(quarter - 1, this.window[0]));
    const width = Math.max(2, this.x(Math.min(quarter, this.window[1])) - left);
    this.cursor.append("rect").attr("x", left).attr("y", 0).attr("width", width)
      .attr("height", this.bottom + 2).classed("all", this.window[1] - this.window[0] === 1);
    const short = slot.run;
    if (!short.price) return;
    this.cursor.append("circle").attr("cx", this.x((slot.start + slot.end) / 2)).attr("r", 3.5)
      .attr("cy", this.y(short.price[this.selection.zone]));
  }
}
