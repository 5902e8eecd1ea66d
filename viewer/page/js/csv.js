// Tables as CSV files, which the browser saves.

const QUOTED = /[",\r\n]/;

function field(value) {
  const text = String(value);
  return QUOTED.test(text) ? `"${text.replaceAll('"', '""')}"` : text;
}

export function csvText(rows) {
  return rows.map((row) => `${row.map(field).join(",")}\n`).join("");
}

// A number of the page without marks between thousands, and with an ASCII minus.
export function plain(text) {
  return text.replaceAll(",", "").replace("\u2212", "-");
}

export function save(name, rows) {
  const url = URL.createObjectURL(new Blob([csvText(rows)], { type: "text/csv" }));
  const link = document.createElement("a");
  link.href = url;
  link.download = name;
  link.click();
  setTimeout(() => URL.revokeObjectURL(url), 10_000);
}
