// What the panels have in common: what is read of one beside its name, and the size of its drawing.

export function readingOf(host) {
  return d3.select(host).select("h2").append("span").attr("class", "reading");
}

// Where there is less room, as on paper, a drawing is made smaller and not cut.
export function sizeTo(svg, width, height) {
  svg.attr("width", width).attr("height", height).attr("viewBox", `0 0 ${width} ${height}`);
}

// Where an event is in the drawing.
export function spotOf(svg, event) {
  const box = svg.getBoundingClientRect();
  const scale = svg.viewBox.baseVal.width / box.width;
  return [(event.clientX - box.left) * scale, (event.clientY - box.top) * scale];
}
