"use strict";
// Builds the page from `data`, and lights a value in the source, the statements and the slots at once.
const fills = { load: "#8dbce6", again: "#ef8a80", compute: "#f6cf65", recompute: "#e0a0d8" };
const byId = name => document.getElementById(name);
let kept = false;

function make(parent, tag, attributes, text) {
  const space = ["svg", "rect", "text", "line", "title", "polygon", "g"].includes(tag) ? "http://www.w3.org/2000/svg" : "http://www.w3.org/1999/xhtml";
  const made = document.createElementNS(space, tag);
  for (const [name, value] of Object.entries(attributes)) made.setAttribute(name, value);
  if (text !== undefined) made.textContent = text;
  parent.appendChild(made);
  return made;
}

function head() {
  const head = byId("head");
  make(head, "b", {}, data.name + " of " + data.file);
  for (const [name, value] of Object.entries(data.numbers)) make(head, "span", {}, name + " ").append(make(head, "b", { style: "margin:0;font-size:13px" }, value));
  make(head, "div", { class: "remarks" }, data.remarks.join("; "));
}

function source() {
  data.source.forEach((text, k) => {
    const row = make(byId("source"), "div", { class: "row", "data-line": k + 1 });
    make(row, "span", { class: "n" }, k + 1);
    make(row, "span", { class: "c" }, text);
  });
}

function code() {
  for (const statement of data.statements) {
    const row = make(byId("code"), "div", { class: "row " + statement.kind + (statement.why ? " again" : ""), "data-v": statement.v });
    make(row, "span", { class: "n" }, statement.at > 0 && statement.at <= data.steps ? statement.at : "");
    make(row, "span", { class: "c" }, statement.code);
    make(row, "span", { class: "note" }, statement.note);
    if (statement.why) make(row, "span", { class: "why" }, statement.why);
  }
}

function time() {
  const left = 52, top = 6, height = 20, slots = data.numbers.slots;
  const step = Math.max(12, Math.min(30, (document.documentElement.clientWidth - left - 30) / data.steps));
  const foot = top + slots * height;
  const svg = make(byId("time"), "svg", { width: Math.max(900, left + step * data.steps + 20), height: foot + 42 });
  for (let slot = 0; slot < slots; slot++) {
    make(svg, "line", { x1: left, x2: left + step * data.steps, y1: top + (slot + 1) * height, y2: top + (slot + 1) * height, stroke: "#ddd" });
    make(svg, "text", { x: 6, y: top + slot * height + 14 }, "slot " + slot);
  }
  for (const stay of data.stays) {
    const x = left + stay.begin * step, y = top + stay.slot * height + 2, width = (stay.end - stay.begin) * step;
    const used = Math.min(width, (stay.last_read + 1 - stay.begin) * step), name = data.names[stay.vertex];
    make(svg, "rect", { x, y, width, height: height - 4, fill: fills[stay.kind], "fill-opacity": .25, "data-v": stay.vertex });
    make(svg, "rect", { class: "bar", x, y, width: used, height: height - 4, fill: fills[stay.kind], "data-v": stay.vertex });
    const size = Math.min(10, (width - 2) / (.58 * name.length));
    if (size >= 6) make(svg, "text", { x: x + 2, y: y + 12, style: "font-size:" + size + "px" }, name);
  }
  for (const statement of data.statements) {
    if (statement.kind !== "load" && statement.kind !== "store") continue;
    const x = left + (statement.at - .5) * step, up = statement.kind === "load";
    const points = up ? `${x - 4},${foot + 12} ${x + 4},${foot + 12} ${x},${foot + 4}` : `${x - 4},${foot + 4} ${x + 4},${foot + 4} ${x},${foot + 12}`;
    const colour = statement.why ? "#d43f2a" : up ? "#2471a3" : "#8e2b20";
    make(make(svg, "polygon", { points, fill: colour, "data-v": statement.v }), "title", {}, statement.code + " " + statement.why);
  }
  for (let k = 0; k < data.steps; k += 10) make(svg, "text", { x: left + k * step, y: foot + 24, fill: "#888" }, k + 1);
  make(svg, "text", { x: left, y: foot + 38, fill: "#666" },
    "blue: loaded; red: loaded again; yellow: computed; violet: computed again; pale: not read any more; up: a load; down: a store; red marks: reloads and spills");
}

function light(vertices, line) {
  document.querySelectorAll(".lit, .near").forEach(one => one.classList.remove("lit", "near"));
  const chosen = new Set(vertices);
  for (const one of document.querySelectorAll("[data-v]")) if (chosen.has(Number(one.dataset.v))) one.classList.add("lit");
  const lines = new Set(vertices.map(v => data.lines[v]).filter(Boolean));
  if (line) lines.add(line);
  for (const number of lines) {
    const row = document.querySelector(`[data-line="${number}"]`);
    if (row) row.classList.add("lit");
  }
  if (vertices.length === 1) {
    const readers = data.reads.flatMap((reads, v) => reads.includes(vertices[0]) ? [v] : []);
    for (const v of readers) {
      const row = data.lines[v] && document.querySelector(`[data-line="${data.lines[v]}"]`);
      if (row && !row.classList.contains("lit")) row.classList.add("near");
    }
    for (const one of document.querySelectorAll("#code [data-v]")) {
      if (readers.includes(Number(one.dataset.v)) && !one.matches(".load, .store")) one.classList.add("near");
    }
  }
}

function tell(vertices, line) {
  if (vertices.length !== 1) {
    byId("said").textContent = `line ${line}: ${vertices.length} values`;
    return;
  }
  const steps = data.statements.filter(statement => statement.v === vertices[0]);
  const listed = steps.map(statement => `${statement.kind} at ${statement.at}${statement.why ? " (" + statement.why + ")" : ""}`);
  byId("said").textContent = `${data.names[vertices[0]]}: ${listed.join("; ")}`;
}

function chosen(target) {
  const one = target.closest ? target.closest("[data-v], [data-line]") : null;
  if (!one) return null;
  if (one.dataset.line) {
    const line = Number(one.dataset.line);
    return [data.lines.flatMap((of, v) => of === line ? [v] : []), line];
  }
  return Number(one.dataset.v) < 0 ? null : [[Number(one.dataset.v)], 0];
}

function show(target) {
  const found = chosen(target);
  if (!found) return;
  light(...found);
  tell(...found);
}

head();
source();
code();
time();
document.addEventListener("mouseover", event => { if (!kept) show(event.target); });
document.addEventListener("click", event => {
  kept = chosen(event.target) !== null;
  show(event.target);
  if (!kept) return;
  for (const part of ["source", "code", "time"]) {
    const lit = byId(part).querySelector(".lit");
    if (lit && !byId(part).contains(event.target)) lit.scrollIntoView({ block: "center", inline: "center" });
  }
});
const wanted = /^#v(\d+)$/.exec(location.hash);
if (wanted) {
  light([Number(wanted[1])], 0);
  tell([Number(wanted[1])], 0);
  for (const part of ["source", "code", "time"]) {
    const lit = byId(part).querySelector(".lit");
    if (lit) lit.scrollIntoView({ block: "center", inline: "center" });
  }
}
