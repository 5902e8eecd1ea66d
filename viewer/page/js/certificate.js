// The certificate: how large the tree is, and its picture, or of a large one its leaves by depth.

import { euros, price, whole } from "./numbers.js";
import { placed, depthsOf, isBranch, leafClass } from "./tree.js";
import { drawFacts } from "./facts.js";
import { readingOf, sizeTo } from "./frame.js";
import { UNPUBLISHED, unpublishedText, zoneNames } from "./sentences.js";

const DRAWN = 161;
const NAMED = 15;     // of a tree of the second form with more items the branches have no names
const HIGH = 220;
const SHAPES = { o: d3.symbolCircle, x: d3.symbolDiamond, cut: d3.symbolSquare };
const NAMES = { o: "bound", x: "conflict", i: "cut in", u: "cut out", n: "none" };

export class Certificate {
  constructor(host, day) {
    Object.assign(this, { host, day });
    const panel = d3.select(host);
    this.reading = readingOf(host);
    this.facts = panel.append("dl").attr("class", "facts");
    const [third, way] = day.form === 2 ? ["none", "published; left closed or at most"]
      : ["conflict", "published gates; left closed, right open"];
    panel.append("p").attr("class", "legend").html(`<i class="leaf o"></i>bound
      <i class="leaf cut"></i>cut <i class="leaf x"></i>${third}
      <i class="key way"></i>${way}`);
    this.svg = panel.append("svg").attr("role", "img");
    this.note = panel.append("p").attr("class", "note");
    new ResizeObserver(() => this.resize()).observe(host);
  }

  resize() {
    const width = Math.max(300, this.host.clientWidth - 24);
    if (width === this.width) return;
    this.width = width;
    if (this.view) this.draw(this.view);
  }

  draw(view) {
    this.view = view;
    if (!this.width) this.resize();
    this.svg.selectAll("*").remove();
    sizeTo(this.svg, this.width, 0);
    this.note.text("");
    const { nodes } = view;
    this.drawFacts(view);
    if (!view.run) {
      this.note.text(unpublishedText(view.short, this.day.budget));
    } else if (!nodes) {
      this.note.text("The tree doesn\u2019t fit the gated bids of the run: the publication and the market "
        + "files aren\u2019t of one day.");
    } else if (nodes.length <= DRAWN) {
      this.drawTree(placed(nodes), view);
    } else {
      this.drawDepths(depthsOf(nodes));
    }
  }

  drawFacts(view) {
    const { nodes, gates } = view;
    const items = view.run ? view.run.tree.items : "";
    const count = (letters) => [...items].filter((letter) => letters.includes(letter)).length;
    const facts = !view.run
      ? [["Nodes", whole(view.short.nodes)], ["Budget", whole(this.day.budget)]]
      : [["Nodes", whole(items.length)], ["Depth", nodes ? whole(d3.max(nodes, (n) => n.depth)) : ""],
        ...(this.day.form === 2 ? [["At gates", whole(count("B"))], ["At prices", whole(count("P"))]]
          : [["Branches", whole(count("B"))]]),
        ["Bounds", whole(count("o"))], ["Cuts", whole(count("iu"))],
        this.day.form === 2 ? ["None", whole(count("n"))] : ["Conflicts", whole(count("x"))],
        ["Gated bids", whole(gates.length)], ["Budget", whole(this.day.budget)]];
    drawFacts(this.facts, facts);
    const many = items.length === 1 ? "one bound shows" : `${whole(items.length)} nodes show`;
    const more = view.short.gap ? ` by more than ${euros(BigInt(view.short.gap))} EUR` : "";
    this.reading.text(view.run ? `${many} that nothing is better${more}` : UNPUBLISHED);
  }

  drawTree(nodes, view) {
    const depth = d3.max(nodes, (node) => node.depth);
    const left = this.day.form === 1 && depth > 0 && depth <= 20 ? 128 : 16;
    const x = (node) => left + node.x * (this.width - left - 16);
    const high = Math.min(HIGH, 28 + 40 * depth);
    const y = d3.scaleLinear([0, Math.max(depth, 1)], [14, Math.max(15, high - 14)]);
    sizeTo(this.svg, this.width, high);
    this.svg.attr("aria-label", `Tree of ${nodes.length} nodes and depth ${depth}`);
    const lines = this.svg.append("g").attr("class", "edges");
    for (const published of [false, true]) {
      lines.selectAll(null).data(nodes.filter((n) => n.above && n.published === published)).enter()
        .append("path").classed("way", published)
        .attr("d", (n) => `M${x(n.above)},${y(n.above.depth)}L${x(n)},${y(n.depth)}`);
    }
    if (left > 16) this.drawLevels(view.gates.slice(0, depth), y);
    if (this.day.form === 2) this.drawBranches(nodes, x, y);
    const size = nodes.length > 60 ? 34 : 60;
    this.svg.append("g").selectAll("path").data(nodes.filter((node) => !isBranch(node.kind))).enter()
      .append("path").attr("class", (node) => `leaf ${leafClass(node.kind)}`)
      .attr("transform", (node) => `translate(${x(node)},${y(node.depth)})`)
      .attr("d", (node) => d3.symbol().type(SHAPES[leafClass(node.kind)]).size(size)())
      .append("title").text((node) => this.leafText(node, view));
  }

  // Each level decides the gate of one bid.
  drawLevels(gates, y) {
    const levels = this.svg.append("g").attr("class", "levels").selectAll("text").data(gates)
      .enter().append("text").attr("x", 4).attr("y", (gate, at) => y(at + 0.5) + 3.5)
      .text((gate) => `${gate.bid.name}${gate.open ? " runs" : ""}`);
    levels.classed("open", (gate) => gate.open);
  }

  // In the second form each branch decides its own gate or price.
  drawBranches(nodes, x, y) {
    const marks = this.svg.append("g").attr("class", "branches").selectAll("g")
      .data(nodes.filter((node) => isBranch(node.kind))).enter().append("g")
      .attr("transform", (node) => `translate(${x(node)},${y(node.depth)})`);
    marks.append("circle").attr("r", 2.5).append("title").text((node) => this.branchText(node));
    if (nodes.length > NAMED) return;
    const isLeft = (node) => x(node) > this.width - 110 || (node.above && !node.open && x(node) > 110);
    marks.append("text").attr("x", (node) => (isLeft(node) ? -6 : 6)).attr("y", -2)
      .attr("text-anchor", (node) => (isLeft(node) ? "end" : "start"))
      .text((node) => node.bid || this.limitText(node));
  }

  limitText({ limit: [zone, cents] }) {
    return `${this.day.zones[zone]} ${price(cents)}`;
  }

  branchText(node) {
    return node.limit ? `branch at the price ${this.limitText(node)}: left at most that, right above it`
      : `branch at the gate of ${node.bid}: left closed, right open`;
  }

  // What leads to a node in the second form.
  decisionText(node) {
    const { above, open } = node;
    if (!above.limit) return `${above.bid} ${open ? "open" : "closed"}`;
    return `${this.day.zones[above.limit[0]]} ${open ? "above" : "at most"} ${price(above.limit[1])}`;
  }

  leafText(node, view) {
    const [open, decided] = [[], []];
    for (let at = node; at.above; at = at.above) {
      if (this.day.form === 2) decided.unshift(this.decisionText(at));
      else if (at.open) open.unshift(view.gates[at.depth - 1].bid.name);
    }
    const { zones, bounds } = view.run.tree;
    const ends = bounds[node.at];
    const detail = zones[node.at] ? `, zones ${zoneNames(zones[node.at], this.day).join(", ")}`
      : ends ? `, potentials from ${price(ends[0])} to ${price(ends[1])} EUR/MWh` : "";
    const way = this.day.form === 2 ? decided.join(", ") || "nothing decided" : `open: ${open.join(", ") || "none"}`;
    return `${NAMES[node.kind]} at depth ${node.depth}${detail}; ${way}`;
  }

  // Of a large tree the leaves by depth.
  drawDepths(rows) {
    const [left, bottom] = [46, HIGH - 28];
    sizeTo(this.svg, this.width, HIGH);
    this.svg.attr("aria-label", "Leaves by depth");
    const kinds = ["o", "cut", "x"];
    const x = d3.scaleLinear([0, rows.length], [left, this.width - 10]);
    const most = d3.max(rows, (row) => d3.sum(kinds, (kind) => row[kind]));
    const y = d3.scaleLinear([0, most || 1], [bottom, 12]).nice(4);
    const axis = this.svg.append("g").attr("class", "axis");
    for (const tick of y.ticks(4)) {
      axis.append("path").attr("d", `M${left},${y(tick)}H${this.width - 10}`);
      axis.append("text").attr("x", left - 6).attr("y", y(tick) + 3.5).text(whole(tick));
    }
    this.svg.append("g").attr("class", "axis time").attr("transform", `translate(0,${bottom})`)
      .call(d3.axisBottom(x).ticks(Math.min(10, rows.length)).tickFormat(d3.format("d")));
    axis.append("text").attr("class", "unit").attr("x", this.width - 10).attr("y", HIGH - 1)
      .text("leaves by depth");
    for (const row of rows) {
      let base = 0;
      for (const kind of kinds) {
        if (!row[kind]) continue;
        this.svg.append("rect").attr("class", `leaf ${kind}`).attr("x", x(row.depth) + 0.5)
          .attr("width", Math.max(1, x(row.depth + 1) - x(row.depth) - 1))
          .attr("y", y(base + row[kind])).attr("height", y(base) - y(base + row[kind]));
        base += row[kind];
      }
    }
    this.note.text("The tree is too large to draw: its leaves are counted by depth.");
  }
}
