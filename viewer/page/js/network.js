// The network of a run: zones coloured by price, borders as arrows, and the table of borders.

import { price, whole, euros, percent } from "./numbers.js";
import { inkOn, priceColour, usualPrices, widened } from "./colour.js";
import { Table } from "./table.js";
import { readingOf, sizeTo } from "./frame.js";
import { UNPUBLISHED } from "./sentences.js";
import { clearest, apart, onMap } from "./layout.js";

// A border as the run has it, in the direction in which energy flows, or else would pay to flow.
function borderRow(day, run, at) {
  const [start, end] = day.borders[at];
  const flow = run.borders.flow[at];
  const { price: prices } = run.zones;
  const turned = flow < 0 || (flow === 0 && prices[end] < prices[start]);
  const [from, to] = turned ? [end, start] : [start, end];
  const [limit, back] = turned ? [run.borders.back[at], run.borders.limit[at]]
    : [run.borders.limit[at], run.borders.back[at]];
  const mw = Math.abs(flow);
  const spread = prices[to] - prices[from];
  return { at, from, to, mw, limit, spread, rent: BigInt(run.borders.rent[at]),
    full: mw === limit && (mw > 0 || spread > 0), open: mw < limit && -mw < back,
    share: limit ? mw / limit : 0 };
}

function fullText(row) {
  return row.full && !row.mw ? "no room" : percent(row.mw, row.limit);
}

export class Network {
  constructor(host, day, selection) {
    Object.assign(this, { host, day, selection });
    this.small = day.zones.length > 26;
    this.high = day.zones.length > 4 ? 400 : 200;
    this.names = day.zones.map((name) => this.short(name));
    const box = d3.max(this.names, (name) => this.wide(name));
    this.side = box / 2 + 2;
    this.around = this.small ? [box + 4, 27] : [box + 20, 54];
    if (!day.positions) {
      this.places = clearest(day.zones, day.borders, this.around, [490 - box, this.high - 48]);
    }
    this.frame();
    new ResizeObserver(() => this.resize()).observe(host);
  }

  frame() {
    const host = d3.select(this.host);
    this.reading = readingOf(this.host);
    const legend = host.append("p").attr("class", "legend");
    const scale = legend.append("span");
    this.lowText = scale.append("span");
    scale.append("i").attr("class", "ramp").style("background", `linear-gradient(90deg, ${
      d3.range(0, 1.01, 0.1).map((share) => d3.interpolateViridis(share)).join(",")})`);
    this.highText = scale.append("span");
    legend.append("span").html("<i class='key area'></i> one area");
    legend.append("span").html("<i class='key flow'></i> flow of limit");
    legend.append("span").html("<i class='key full'></i> full");
    this.svg = host.append("svg").attr("role", "img").attr("aria-label", "Network of the run");
    this.layers = ["areas", "borders", "zones"].map((name) => this.svg.append("g")
      .attr("class", name));
    this.table = new Table(this.host, { label: "Borders", file: "borders", pick: (row) => this.pick(row),
      mark: (row) => (row.from === this.selection.zone || row.to === this.selection.zone
        ? "near" : ""),
      sort: 5, down: true, columns: this.columns() });
  }

  short(name) {
    const most = this.small ? 7 : 16;
    return name.length > most ? `${name.slice(0, most - 1)}\u2026` : name;
  }

  wide(name) {
    return this.small ? 40 : Math.max(56, 7 * name.length + 12);
  }

  columns() {
    const name = (zone) => this.day.zones[zone];
    return [
      { head: "Border", value: (row) => name(row.from), text: (row) =>
        `${name(row.from)} \u2192 ${name(row.to)}` },
      { head: "Flow", unit: "MW", number: true, value: (row) => row.mw, text: (row) => whole(row.mw) },
      { head: "Limit", unit: "MW", number: true, value: (row) => row.limit,
        text: (row) => whole(row.limit) },
      { head: "Full", number: true, value: (row) => row.share, text: fullText, draw: (cell, row) => {
        cell.textContent = fullText(row);
        cell.classList.add("share");
        cell.style.setProperty("--share", row.share);
        cell.classList.toggle("is-full", row.full);
      } },
      { head: "Spread", unit: "EUR/MWh", number: true, value: (row) => row.spread,
        text: (row) => price(row.spread) },
      { head: "Rent", unit: "EUR", number: true, value: (row) => row.rent,
        text: (row) => euros(row.rent) },
    ];
  }

  pick(row) {
    this.selection.setZone(row.from === this.selection.zone ? row.to : row.from);
  }

  resize() {
    const width = Math.max(320, this.host.clientWidth - 24);
    if (width === this.width) return;
    this.width = width;
    sizeTo(this.svg, width, this.high);
    const { side } = this;
    const [wide, high] = [width - 2 * side, this.high - 48];
    const places = this.places || onMap(this.day.positions, wide / high);
    this.spots = apart(places.map(([x, y]) => [side + x * wide, 24 + y * high]), this.around,
      [side, width - side, 18, this.high - 18]);
    if (this.view) this.draw(this.view);
  }

  draw(view) {
    this.view = view;
    if (!this.width) this.resize();
    if (!this.spots) return;
    const { run } = view;
    this.paint(run);
    const rows = run ? this.day.borders.map((pair, at) => borderRow(this.day, run, at)) : [];
    this.drawAreas(run, rows);
    this.drawBorders(rows);
    this.drawZones(run);
    this.table.draw(rows);
    const areas = run ? new Set(run.zones.area).size : 0;
    const full = rows.filter((row) => row.full).length;
    const some = `${areas} ${areas === 1 ? "area" : "areas"} of one price`;
    this.reading.text(run ? `${some}, ${full} of ${rows.length} borders full` : UNPUBLISHED);
  }

  // Colours by the prices of this run: the day's chart shows how they change.
  paint(run) {
    const [low, high] = widened(usualPrices(run ? run.zones.price : [0]));
    this.colour = priceColour([low, high]);
    this.lowText.text(`${price(low)} `);
    this.highText.text(` ${price(high)} EUR/MWh`);
  }

  // Borders inside an area as broad bands of its colour.
  drawAreas(run, rows) {
    const inside = rows.filter((row) => run.zones.area[row.from] === run.zones.area[row.to]
      && row.open);
    const bands = this.layers[0].selectAll("path").data(inside, (row) => row.at);
    bands.exit().remove();
    bands.enter().append("path").merge(bands)
      .attr("d", (row) => `M${this.spots[row.from]}L${this.spots[row.to]}`)
      .style("stroke-width", this.small ? 14 : 30)
      .style("stroke", (row) => this.colour(run.zones.price[row.from]));
  }

  drawBorders(rows) {
    const most = d3.max(rows, (row) => Math.max(row.limit, row.mw)) || 1;
    const thick = d3.scaleSqrt([0, most], [0, this.small ? 7 : 11]);
    const lines = this.layers[1].selectAll("g").data(rows, (row) => row.at);
    lines.exit().remove();
    const fresh = lines.enter().append("g");
    fresh.append("path").attr("class", "limit");
    fresh.append("path").attr("class", "flow");
    fresh.append("path").attr("class", "arrow");
    fresh.append("text");
    fresh.append("title");
    const all = fresh.merge(lines).attr("class", (row) => (row.full ? "full" : "free"))
      .classed("shut", (row) => row.full && !row.mw)
      .classed("near", (row) => row.from === this.selection.zone || row.to === this.selection.zone);
    const line = (row) => `M${this.spots[row.from]}L${this.spots[row.to]}`;
    all.select(".limit").attr("d", line)
      .style("stroke-width", (row) => Math.max(1, thick(row.limit)));
    all.select(".flow").attr("d", line).style("stroke-width", (row) => thick(row.mw));
    all.select(".arrow").attr("d", (row) => this.arrow(row, thick));
    all.select("text").attr("transform", (row) => this.labelPlace(row))
      .text((row) => this.label(row));
    all.select("title").text((row) => `${this.day.zones[row.from]} \u2192 ${
      this.day.zones[row.to]}: ${whole(row.mw)} of ${whole(row.limit)} MW, rent ${
      euros(row.rent)} EUR`);
  }

  arrow(row, thick) {
    if (!row.mw) return "";
    const [[a, b], [c, d]] = [this.spots[row.from], this.spots[row.to]];
    const length = Math.hypot(c - a, d - b) || 1;
    const [u, v] = [(c - a) / length, (d - b) / length];
    const half = Math.max(3.5, thick(row.mw) / 2 + 2.5);
    const [x, y] = [a + (c - a) * 0.5 + u * half, b + (d - b) * 0.5 + v * half];
    const back = [x - u * 2 * half, y - v * 2 * half];
    return `M${x},${y}L${back[0] - v * half},${back[1] + u * half}`
      + `L${back[0] + v * half},${back[1] - u * half}Z`;
  }

  label(row) {
    const near = row.from === this.selection.zone || row.to === this.selection.zone;
    const shown = this.small ? near && row.full
      : near || row.full || this.day.borders.length <= 16;
    return shown ? `${whole(row.mw)}/${whole(row.limit)}` : "";
  }

  // Beside the middle of the line, or above zones that stand too close side by side.
  labelPlace(row) {
    const [[a, b], [c, d]] = [this.spots[row.from], this.spots[row.to]];
    const length = Math.hypot(c - a, d - b) || 1;
    if (Math.abs(c - a) < this.around[0] + 30 && Math.abs(d - b) < 26) {
      return `translate(${(a + c) / 2},${(b + d) / 2 - 20})`;
    }
    const side = (d - b) * (c - a) > 0 ? -1 : 1;
    return `translate(${(a + c) / 2 + side * 9 * Math.abs(d - b) / length},${
      (b + d) / 2 - 9 * Math.abs(c - a) / length + 3})`;
  }

  drawZones(run) {
    const zones = this.layers[2].selectAll("g").data(this.day.zones);
    const fresh = zones.enter().append("g")
      .on("click", (name, at) => this.selection.setZone(at));
    fresh.append("rect");
    fresh.append("text").attr("class", "name");
    fresh.append("text").attr("class", "price");
    fresh.append("title");
    const all = fresh.merge(zones);
    const paint = (at) => (run ? this.colour(run.zones.price[at]) : "#8a8f98");
    all.attr("transform", (name, at) => `translate(${this.spots[at]})`)
      .classed("selected", (name, at) => at === this.selection.zone);
    const wide = (name, at) => this.wide(this.names[at]);
    const high = this.small ? 22 : 32;
    all.select("rect").attr("x", (name, at) => -wide(name, at) / 2).attr("y", -high / 2).attr("rx", 5)
      .attr("width", wide).attr("height", high)
      .transition().duration(200).style("fill", (name, at) => paint(at));
    all.selectAll("text").style("fill", null);
    all.select(".name").attr("y", this.small ? -1 : -2).text((name, at) => this.names[at])
      .style("fill", (name, at) => inkOn(paint(at)));
    all.select(".price").attr("y", this.small ? 8 : 11)
      .text((name, at) => (run ? price(run.zones.price[at]) : "none"))
      .style("fill", (name, at) => inkOn(paint(at)));
    all.select("title").text((name, at) => (run
      ? `${name}: ${price(run.zones.price[at])} EUR/MWh, area ${run.zones.area[at]}`
      : `${name}: no price`));
    this.layers[2].classed("small", this.small);
  }
}
