// The merit order of a zone in a run: upward bids to the right, downward bids to the left.

import { price, whole } from "./numbers.js";
import { netImport, UNPUBLISHED } from "./sentences.js";
import { usualRange } from "./colour.js";
import { BidTable } from "./bid_table.js";
import { readingOf, sizeTo } from "./frame.js";

const HIGH = 250;
const SIDE = { left: 58, right: 16, top: 24, bottom: 34 };

// Bids as blocks side by side: the cheapest upward and the dearest downward bid stand at 0.
function blocksOf(bids) {
  const up = bids.filter((bid) => bid.up).sort((a, b) => a.price - b.price || a.at - b.at);
  const down = bids.filter((bid) => !bid.up).sort((a, b) => b.price - a.price || a.at - b.at);
  let at = 0;
  const right = up.map((bid) => ({ bid, from: at, to: at += bid.offered }));
  at = 0;
  const left = down.map((bid) => ({ bid, from: at, to: at -= bid.offered }));
  return [...right, ...left];
}

function boxes(blocks, x, y) {
  return blocks.map(([from, to, level]) => `M${x(from).toFixed(1)},${y(0).toFixed(1)}`
    + `V${y(level).toFixed(1)}H${x(to).toFixed(1)}V${y(0).toFixed(1)}Z`).join("");
}

export class MeritOrder {
  constructor(host, day, selection) {
    Object.assign(this, { host, day, selection });
    const panel = d3.select(host);
    this.reading = readingOf(host);
    panel.append("p").attr("class", "legend").html(`<span><i class="key up"></i> up</span>
      <span><i class="key down"></i> down</span> <span><i class="key up rest"></i>
      <i class="key down rest"></i> not activated</span>
      <span><i class="key refused"></i> rejected in the money</span>
      <span><b>I</b> indivisible</span> <span><b>M</b> minimum</span> <span><b>G</b> group</span>
      <span><b>C</b> child</span> <span><b>P</b> parent</span> <span><b>L</b> linked</span>`);
    this.svg = panel.append("svg").attr("role", "img").attr("aria-label", "Merit order");
    this.balance = panel.append("p").attr("class", "balance");
    this.table = new BidTable(host);
    new ResizeObserver(() => this.resize()).observe(host);
  }

  resize() {
    const width = Math.max(320, this.host.clientWidth - 24);
    if (width === this.width) return;
    this.width = width;
    sizeTo(this.svg, width, HIGH);
    if (this.view) this.draw(this.view);
  }

  draw(view) {
    this.view = view;
    if (!this.width) this.resize();
    const { zone } = this.selection;
    const all = view.all.filter((bid) => bid.zone === zone);
    const bids = all.filter((bid) => !bid.withheld);
    this.blocks = blocksOf(bids);
    this.svg.selectAll("*").remove();
    const others = all.length - bids.length;
    this.reading.text(`${this.day.zones[zone]}, ${whole(bids.length)} bids${
      others ? `, and ${whole(others)} withheld` : ""}${view.run ? "" : `; ${UNPUBLISHED}`}`);
    this.balance.text(view.run ? this.balanceText(view, bids) : "");
    this.table.draw(all);
    this.drawChart(view.run, zone);
  }

  balanceText(view, bids) {
    const { zone } = this.selection;
    const { demands } = view.run;
    const mine = demands.zone.map((at, place) => place).filter((at) => demands.zone[at] === zone);
    const signed = (key) => d3.sum(mine, (at) => (key === "asked" ? demands.asked[at]
      : Math.sign(demands.asked[at]) * demands.served[at]));
    const up = d3.sum(bids, (bid) => (bid.up ? bid.mw : 0));
    const down = d3.sum(bids, (bid) => (bid.up ? 0 : bid.mw));
    const enters = netImport(this.day, view.run, zone);
    const lacks = d3.sum(mine, (at) => demands.unserved[at]);
    const alarm = lacks ? `${whole(lacks)} MW of inelastic demand unserved at the cap. ` : "";
    return `${alarm}Demand ${whole(signed("asked"))} MW, served ${whole(signed("served"))} MW = up ${
      whole(up)} \u2212 down ${whole(down)} + net import ${whole(enters)} MW`;
  }

  drawChart(run, zone) {
    const at = run ? run.zones.price[zone] : 0;
    const levels = [...this.blocks.map((block) => block.bid.price), 0];
    const [low, high] = usualRange(levels.length > 1 ? levels : [0, at]);
    const near = at > high + 3 * (high - low) || at < low - 3 * (high - low) ? [] : [at];
    const ends = [Math.min(low, 0, ...near), 1.1 * Math.max(high, 0, ...near)];
    const y = d3.scaleLinear(ends.map((cents) => cents / 100), [HIGH - SIDE.bottom, SIDE.top])
      .nice(5);
    const [floor, roof] = y.domain();
    const level = (cents) => y(Math.max(floor, Math.min(roof, cents / 100)));
    const [left, right] = [d3.min, d3.max].map((most) => most(this.blocks, (b) => b.to) || 0);
    const x = d3.scaleLinear([Math.min(0, left), Math.max(right, left < 0 ? 0 : 1)],
      [SIDE.left, this.width - SIDE.right]);
    Object.assign(this, { x, level });
    this.drawAxes(x, y);
    this.drawBlocks(x, level);
    if (run) this.drawPrice(run, zone, level);
    this.drawTags(x, level);
    this.svg.append("rect").attr("class", "catch").attr("x", SIDE.left).attr("y", SIDE.top)
      .attr("width", this.width - SIDE.left - SIDE.right)
      .attr("height", HIGH - SIDE.top - SIDE.bottom)
      .on("mousemove", () => this.hover()).on("mouseleave", () => this.tip.text(""));
    this.tip = this.svg.append("text").attr("class", "tip").attr("x", this.width - SIDE.right)
      .attr("y", 12);
  }

  drawAxes(x, y) {
    const axis = this.svg.append("g").attr("class", "axis");
    for (const tick of y.ticks(5)) {
      axis.append("path").attr("d", `M${SIDE.left},${y(tick)}H${this.width - SIDE.right}`)
        .classed("zero", tick === 0);
      axis.append("text").attr("x", SIDE.left - 6).attr("y", y(tick) + 3.5).text(whole(tick));
    }
    axis.append("text").attr("class", "unit start").attr("x", 4).attr("y", 12).text("EUR/MWh");
    this.svg.append("g").attr("class", "axis time")
      .attr("transform", `translate(0,${HIGH - SIDE.bottom})`)
      .call(d3.axisBottom(x).ticks(9).tickSize(4).tickFormat((mw) => whole(Math.abs(mw))));
    axis.append("path").attr("class", "middle")
      .attr("d", `M${x(0)},${SIDE.top - 4}V${HIGH - SIDE.bottom}`);
    const below = (text, at, side) => axis.append("text").attr("class", `unit ${side}`)
      .attr("x", at).attr("y", HIGH - 4).text(text);
    if (x.domain()[0] < 0) below("\u25c0 down, MW", SIDE.left, "start");
    if (x.domain()[1] > 0) below("up, MW \u25b6", this.width - SIDE.right, "");
  }

  drawBlocks(x, level) {
    const parts = { "up run": [], "up rest": [], "down run": [], "down rest": [], refused: [] };
    for (const { bid, from, to } of this.blocks) {
      const name = bid.up ? "up" : "down";
      const cut = from + (bid.up ? bid.mw : -bid.mw);
      if (bid.mw) parts[`${name} run`].push([from, cut, bid.price]);
      if (cut !== to) parts[bid.rejected ? "refused" : `${name} rest`].push([cut, to, bid.price]);
    }
    const zero = (cents) => level(cents);
    for (const [name, blocks] of Object.entries(parts)) {
      this.svg.append("path").attr("class", `block ${name}`).attr("d", boxes(blocks, x, zero));
    }
    this.svg.append("path").attr("class", "tops").attr("d", this.blocks.map(({ bid, from, to }) =>
      `M${x(from).toFixed(1)},${level(bid.price).toFixed(1)}H${x(to).toFixed(1)}`).join(""));
  }

  drawPrice(run, zone, level) {
    const [least, at, greatest] = [run.zones.least[zone], run.zones.price[zone],
      run.zones.greatest[zone]];
    const width = this.width - SIDE.left - SIDE.right;
    const group = this.svg.append("g").attr("class", "price");
    if (least !== greatest) {
      group.append("rect").attr("x", SIDE.left).attr("width", width).attr("y", level(greatest))
        .attr("height", Math.max(2, level(least) - level(greatest)))
        .append("title").text("The interval of consistent prices");
    }
    const y = level(at);
    group.append("path").attr("d", `M${SIDE.left},${y}h${width}`);
    const among = least === greatest ? "" : ` (from ${price(least)} to ${price(greatest)})`;
    group.append("text").attr("class", "halo").attr("x", SIDE.left + 6)
      .attr("y", Math.max(SIDE.top - 4, y - 5))
      .text(`price ${price(at)} EUR/MWh${among}`);
  }

  drawTags(x, level) {
    const wide = this.blocks.filter(({ bid, from, to }) => bid.tags.length
      && Math.abs(x(to) - x(from)) > 7).slice(0, 200);
    this.svg.append("g").attr("class", "tags").selectAll("text").data(wide).enter().append("text")
      .attr("x", ({ from, to }) => (x(from) + x(to)) / 2)
      .attr("y", ({ bid }) => (bid.price >= 0 ? Math.max(SIDE.top + 8, level(bid.price) - 3)
        : level(bid.price) + 10))
      .text(({ bid }) => [...new Set(bid.tags.map((tag) => tag.letter))].join(""));
  }

  hover() {
    const at = this.x.invert(d3.mouse(this.svg.node())[0]);
    const found = this.blocks.find(({ from, to }) => (at >= 0 ? from <= at && at < to
      : to < at && at <= from));
    this.tip.text(found ? `${found.bid.name}: ${whole(found.bid.mw)} of ${
      whole(found.bid.offered)} MW ${found.bid.up ? "up" : "down"} at ${
      price(found.bid.price)} EUR/MWh` : "");
  }
}
