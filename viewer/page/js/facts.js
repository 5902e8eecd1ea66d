// A row of facts, each a name, a value, its unit, and whether it is to be noticed.

export function drawFacts(list, facts) {
  const boxes = list.selectAll("div").data(facts);
  boxes.exit().remove();
  const fresh = boxes.enter().append("div");
  fresh.append("dt");
  const values = fresh.append("dd");
  values.append("b");
  values.append("small");
  const all = fresh.merge(boxes).classed("alarm", ([, , , alarms]) => Boolean(alarms));
  all.select("dt").text(([name]) => name);
  all.select("b").text(([, value]) => value);
  all.select("small").text(([, , unit]) => (unit ? ` ${unit}` : ""));
}
