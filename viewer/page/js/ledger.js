// The ledger: what operators and providers pay and get, in the run or over the day.

import { euros, sum } from "./numbers.js";
import { part } from "./parts.js";
import { Table } from "./table.js";
import { readingOf } from "./frame.js";
import { UNPUBLISHED } from "./sentences.js";

function rowsOf(list, keys) {
  return list.name.map((name, at) => {
    const row = { name };
    for (const key of keys) row[key] = BigInt(list[key][at]);
    return row;
  });
}

function money(head, key) {
  return { head, unit: "EUR", number: true, value: (row) => row[key],
    text: (row) => euros(row[key]) };
}

const NAME = (head) => ({ head, value: (row) => row.name, text: (row) => row.name });

export class Ledger {
  constructor(host, day) {
    Object.assign(this, { host, day, whole: false });
    const panel = d3.select(host);
    const pick = panel.select("h2").append("span").attr("class", "scope").attr("role", "radiogroup")
      .attr("aria-label", "Ledger of");
    for (const [name, whole] of [["run", false], ["day", true]]) {
      const label = pick.append("label");
      label.append("input").attr("type", "radio").attr("name", "scope").attr("value", name)
        .property("checked", !whole).property("disabled", whole && !day.totals)
        .on("change", () => { this.whole = whole; this.draw(this.view); });
      label.append("span").text(name);
    }
    this.reading = readingOf(host);
    const columns = panel.append("div").attr("class", "pair");
    this.operators = this.side(columns, "Operators", [NAME("Operator"), money("Pays", "payment"),
      money("Part of rents", "rent"), money("Net", "net")]);
    this.providers = this.side(columns, "Providers", [NAME("Provider"), money("Is paid", "amount")]);
  }

  side(columns, head, list) {
    const box = columns.append("div").attr("class", head.toLowerCase());
    const line = box.append("h3").text(head);
    const note = line.append("span").attr("class", "reading");
    return { table: new Table(box.node(), { label: head, file: head.toLowerCase(), columns: list }), note };
  }

  async draw(view) {
    this.view = view;
    const list = this.whole ? await part("totals") : view.run;
    if (this.view !== view) return;
    const operators = list ? rowsOf(list.operators, ["payment", "rent", "net"]) : [];
    const providers = list ? rowsOf(list.providers, ["amount"]) : [];
    this.operators.table.draw(operators);
    this.providers.table.draw(providers);
    const all = (rows, key) => euros(sum(rows.map((row) => row[key])));
    this.operators.note.text(`${operators.length}, part of rents ${all(operators, "rent")} EUR, `
      + `nets ${all(operators, "net")} EUR in all`);
    this.providers.note.text(`${providers.length}, paid ${all(providers, "amount")} EUR in all`);
    this.reading.text(this.whole ? `${this.day.date}, all published runs`
      : list ? `run ${view.short.run}` : `${UNPUBLISHED}: no ledger`);
  }
}
