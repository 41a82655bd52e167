// Keeps the page up to date by server-sent events, and filters and sorts the table of networks. What comes as text stays
// text; the parts of a network's page come as HTML that the server has escaped.
"use strict";

const main = document.getElementById("main");
const alive = document.getElementById("alive");
const said = document.getElementById("said");
const SAYS_EVERY = 10000; // milliseconds between two sentences for who listens
let saidAt = -Infinity;
let toSay = "";

// Tells a sentence to who listens, the latest one, and not too often.
function say(text) {
  toSay = text;
  const left = saidAt + SAYS_EVERY - performance.now();
  if (left <= 0) {
    saidAt = performance.now();
    said.textContent = toSay;
  } else if (!say.waits) {
    say.waits = setTimeout(() => { say.waits = 0; saidAt = performance.now(); said.textContent = toSay; }, left);
  }
}

// A part of a network's page, with the focus where it was.
function replacePart(name, html) {
  const part = document.getElementById("part-" + name);
  const focused = part.contains(document.activeElement) ? document.activeElement : null;
  const link = focused && focused.getAttribute("href");
  const scrolled = [...part.querySelectorAll(".wide")].map((it) => it.scrollLeft);
  part.innerHTML = html;
  part.querySelectorAll(".wide").forEach((it, at) => { it.scrollLeft = scrolled[at] || 0; });
  if (focused) {
    const again = link ? [...part.querySelectorAll("a")].find((it) => it.getAttribute("href") === link)
      : part.querySelector("[tabindex]");
    if (again) again.focus({ preventScroll: true });
  }
}

// The table of networks

const table = document.getElementById("networks");
const wanted = document.getElementById("wanted");
let sorted = { column: 0, isDown: false };

function cellsOf(row) { return [...row.cells].map((it) => it.textContent); }

function putRow(values) {
  const body = table.tBodies[0];
  let row = [...body.rows].find((it) => it.dataset.name === values[0]);
  if (!row) {
    row = body.insertRow();
    row.dataset.name = values[0];
    const head = document.createElement("th");
    head.scope = "row";
    const link = document.createElement("a");
    link.href = "/networks/" + encodeURIComponent(values[0]);
    link.textContent = values[0];
    head.append(link);
    row.append(head);
    values.slice(1).forEach(() => row.insertCell());
    row.lastElementChild.className = "text";
  }
  values.slice(1).forEach((it, at) => { row.cells[at + 1].textContent = it; });
}

function filterRows() {
  const text = wanted.value.trim().toLowerCase();
  let count = 0;
  for (const row of table.tBodies[0].rows) {
    row.hidden = !cellsOf(row).join(" ").toLowerCase().includes(text);
    count += row.hidden ? 0 : 1;
  }
  const told = text ? `${count} of ${table.tBodies[0].rows.length}` : "";
  const found = document.getElementById("found");
  if (found.textContent !== told) found.textContent = told;
}

function sortRows() {
  const order = new Intl.Collator("en", { numeric: true }).compare;
  const rows = [...table.tBodies[0].rows];
  const at = sorted.column;
  const wantedRows = [...rows].sort((a, b) => (sorted.isDown ? -1 : 1) * order(a.cells[at].textContent, b.cells[at].textContent));
  if (wantedRows.some((it, place) => it !== rows[place])) {
    const focused = document.activeElement;
    table.tBodies[0].append(...wantedRows);
    if (table.contains(focused)) focused.focus({ preventScroll: true });
  }
}

function makeTable() {
  [...table.tHead.rows[0].cells].forEach((head, at) => {
    const button = document.createElement("button");
    button.type = "button";
    button.textContent = head.textContent;
    button.addEventListener("click", () => {
      sorted = { column: at, isDown: sorted.column === at && !sorted.isDown };
      for (const it of table.tHead.rows[0].cells) it.removeAttribute("aria-sort");
      head.setAttribute("aria-sort", sorted.isDown ? "descending" : "ascending");
      sortRows();
    });
    head.replaceChildren(button);
  });
  table.tHead.rows[0].cells[0].setAttribute("aria-sort", "ascending");
  document.getElementById("filter").hidden = false;
  wanted.addEventListener("input", filterRows);
}

// What comes

function take(told) {
  alive.textContent = "Up to date at " + new Date().toISOString().slice(11, 19) + " UTC";
  for (const [name, html] of Object.entries(told.parts || {})) replacePart(name, html);
  if (told.rows) {
    told.rows.forEach(putRow);
    sortRows();
    filterRows();
  }
  if (told.said) say(told.said);
}

if (table) makeTable();
if (main.dataset.events) {
  const events = new EventSource(main.dataset.events);
  events.addEventListener("message", (event) => take(JSON.parse(event.data)));
  events.addEventListener("error", () => { alive.textContent = "Not connected; what is shown may be old"; });
}
