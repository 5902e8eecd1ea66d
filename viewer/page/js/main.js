// Builds the panels and draws what is selected.

import { price, whole, euros } from "./numbers.js";
import { summary } from "./parts.js";
import { Selection } from "./selection.js";
import { runView } from "./run.js";
import { whenText, shortText, shownText } from "./sentences.js";
import { DayChart } from "./day_chart.js";
import { Network } from "./network.js";
import { MeritOrder } from "./merit_order.js";
import { Rejected } from "./rejected.js";
import { Certificate } from "./certificate.js";
import { Ledger } from "./ledger.js";
import { listen } from "./keys.js";
import { drawFacts } from "./facts.js";
import { Find } from "./find.js";

const byId = (name) => document.getElementById(name);
const later = () => new Promise((done) => { setTimeout(done); });

function say(text) {
  byId("fault").hidden = false;
  byId("fault").textContent = text;
}

function head(day, selection) {
  byId("date").textContent = day.date;
  document.title = `Mari: ${day.date}`;
  const without = day.runs.filter((run) => !run.price).length;
  const lacking = day.runs.filter((run) => run.unserved).length;
  const within = day.runs.filter((run) => run.gap).length;
  const rest = whole(day.runs.length - without - within);
  byId("count").textContent = `${rest} ${day.form === 2 ? "first" : "published"}`
    + (without ? `, ${whole(without)} unpublished` : "")
    + (within ? `, ${whole(within)} within a gap` : "")
    + (lacking ? `, ${whole(lacking)} with demand unserved` : "");
  byId("of").textContent = `of ${whole(day.runs.length)}`;
  byId("run").max = day.runs.length;
  byId("run").addEventListener("change", () => {
    selection.setRun(Math.round(Number(byId("run").value)) || selection.run);
    byId("run").value = selection.run;
  });
  d3.select("#zone").selectAll("option").data(day.zones).enter().append("option")
    .attr("value", (name, at) => at).text((name) => name);
  byId("zone").addEventListener("change", () => selection.setZone(Number(byId("zone").value)));
  byId("skip").addEventListener("click", () => byId("main").focus());
  byId("earlier").addEventListener("click", () => selection.setRun(selection.run - 1));
  byId("later").addEventListener("click", () => selection.setRun(selection.run + 1));
}

function stand(day, selection) {
  const short = day.runs[selection.run - 1];
  byId("run").value = selection.run;
  byId("zone").value = selection.zone;
  byId("when").textContent = whenText(day, short);
  byId("when").className = short.price ? short.kind : "missing";
  byId("spoken").textContent = shortText(day, short, selection.zone);
  byId("earlier").disabled = selection.run === 1;
  byId("later").disabled = selection.run === day.runs.length;
  figures(day, short, selection.zone);
}

function figures(day, short, zone) {
  const of = (asked, served) => `${whole(served)} of ${whole(asked)}`;
  const list = !short.price ? [["Run", "unpublished", `after ${whole(short.nodes)} nodes`],
    ["Demand up", whole(short.asked[0]), "MW asked"], ["Demand down", whole(short.asked[1]), "MW asked"]]
    : [[`Price in ${day.zones[zone]}`, price(short.price[zone]), "EUR/MWh"],
      ["Prices", `${price(d3.min(short.price))} \u2013 ${price(d3.max(short.price))}`, "EUR/MWh"],
      ["Reference", price(short.reference), "EUR/MWh"],
      ["Demand up", of(short.asked[0], short.served[0]), "MW served"],
      ["Demand down", of(short.asked[1], short.served[1]), "MW served"],
      ["Unserved at the cap", whole(short.unserved), "MW, inelastic", short.unserved > 0],
      ["Activated up / down", `${whole(short.activated[0])} / ${whole(short.activated[1])}`, "MW"],
      ["Congestion rent", euros(BigInt(short.rent)), "EUR"],
      [`Welfare${shownText(short)}`, euros(BigInt(short.welfare)), "EUR"]];
  drawFacts(d3.select("#figures"), list);
}

// Draws the newest selection only, and what stands below after what stands above it.
function drawer(day, selection, panels) {
  let newest = 0;
  return async () => {
    newest += 1;
    const mine = newest;
    try {
      const view = await runView(day, selection.run);
      for (const panel of panels) {
        if (mine !== newest) return;
        panel.draw(view);
        await later();
      }
      if (mine === newest) document.body.dataset.drawn = `${selection.run} ${selection.zone}`;
    } catch (fault) {
      say(fault.message);
    }
  };
}

function open(day) {
  const selection = new Selection(day);
  head(day, selection);
  const dayChart = new DayChart(byId("day-chart"), day, selection);
  stand(day, selection);
  const panels = [new Network(byId("network"), day, selection),
    new MeritOrder(byId("merit-order"), day, selection), new Rejected(byId("rejected"), day, selection),
    new Certificate(byId("certificate"), day), new Ledger(byId("ledger"), day)];
  const draw = drawer(day, selection, panels);
  selection.watch(() => {
    stand(day, selection);
    dayChart.select();
    draw();
  });
  listen(selection);
  new Find(byId("find"), byId("found"), day, selection);
  draw();
}

function start() {
  if (typeof DecompressionStream === "undefined") {
    say("This browser is too old for the page: it can't unpack the day.");
    document.body.classList.add("empty");
    return;
  }
  let day;
  try {
    day = summary();
  } catch (fault) {
    document.body.classList.add("empty");
    say("The page's day can't be read: the page was cut off or changed.");
    return;
  }
  if (day.fault) {
    say(`The day is damaged. ${day.fault}.${day.runs.length
      ? ` The ${day.runs.length} of ${day.awaited} runs before it are shown.` : ""}`);
  }
  if (day.runs.length) open(day);
  else document.body.classList.add("empty");
  if (!day.fault && !day.runs.length) say("The day has no runs.");
}

start();
