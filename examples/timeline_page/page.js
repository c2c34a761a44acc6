"use strict";
// Draws the part of a history that is in view. D is what drawing.py made; a place is where an entry is drawn, in entries.
const D = JSON.parse(document.getElementById("data").textContent);
const $ = (id) => document.getElementById(id);
const LEFT = 168, AXIS = 71, ROW = 21, MOST_WIDTH = 400000;
const SYMBOLS = {
  open: "session opens", lost: "lost", stop: "agent stops", start: "agent starts", prepared: "draft prepared", commit: "committed", drop: "dropped",
  launch: "launch", has: "in the record", run: "running", end: "terminal", heard: "master hears", ack: "acknowledged", gone: "leaves the record", closed: "stream ends",
};
const BELOW = ["ack", "heard", "run", "has"];
const STATES = ["staging", "running", "finished", "failed", "killed", "lost", "error"];
let width = 0, at = null, hits = null;

const escaped = (text) => String(text).replace(/[&<>"]/g, (it) => `&#${it.charCodeAt(0)};`);
const hue = (framework) => (197 + framework * 137.508) % 360;
const view = () => pane.clientWidth - LEFT;
const pane = $("pane");

// The lanes from top to bottom: each has its top and height, what is written at its left, and draws what lies between two places.
const lanes = [];
let height = 6;

function packed(tasks, pixels) {
  const free = [];
  for (const task of tasks) {
    const label = (6 * Math.min(task.name.length, 14) + 10) / pixels;
    let row = free.findIndex((it) => it <= task.from);
    if (row < 0) row = free.length;
    free[row] = task.until + (label > task.until - task.from ? label : 0) + 10 / pixels;
    task.row = row;
  }
  return free.length;
}

function lay_out() {
  const bands = D.agents.reduce((sum, it) => sum + it.bands.length, 0), high = bands < 4 ? 64 : bands < 13 ? 36 : 24;
  for (const agent of D.agents) {
    const tall = 16 + agent.bands.length * (high + 10) + 34;
    lanes.push({ top: height, tall, high, agent, draw: draw_agent, label: label_agent });
    height += tall;
  }
  D.frameworks.forEach((framework, number) => {
    const rows = packed(framework.tasks, Math.max(1200 / D.length, D.length > 600 ? 2.2 : 0));
    lanes.push({ top: height, tall: 28 + ROW * rows, framework, number, draw: draw_framework, label: label_framework });
    height += 28 + ROW * rows;
  });
}

const x = (place) => (place * width / D.length).toFixed(2);
const rect = (css, from, until, y, tall, more = "") =>
  `<rect class="${css}" x="${x(from)}" y="${y.toFixed(2)}" width="${Math.max((until - from) * width / D.length, .4).toFixed(2)}" height="${tall.toFixed(2)}" ${more}/>`;
const key_of = (key) => `data-key="${escaped(key)}"${hits && hits.has(key) ? ' data-hit=""' : ""}`;
const mark = (symbol, place, y, key, words, css = "") =>
  `<use class="mark ${css}" href="#m-${symbol}" x="${x(place)}" y="${y}" ${key_of(key)} data-words="${escaped(words)}"/>`;
const text = (css, left, y, words, more = "") => `<text class="${css}" x="${left}" y="${y}" ${more}>${escaped(words)}</text>`;

function draw_agent(lane, seen) {
  let y = lane.top + 16, out = "";
  for (const band of lane.agent.bands) {
    const floor = y + lane.high, unit = band.most ? lane.high / band.most : 0;
    out += `<g class="band" data-agent="${escaped(lane.agent.name)}" data-name="${escaped(band.name)}" data-top="${y}" data-floor="${floor}">`;
    for (const [kind, framework, key, low, high, from, until] of band.cells) if (seen(from, until)) {
      const top = floor - high * unit, tall = (high - low) * unit;
      out += rect(`cell ${kind}`, from, until, top, tall, kind === "free" ? "" : `style="--hue:${hue(framework)}" ${key_of(key)}`);
      if (kind === "offered") out += rect("stripes", from, until, top, tall);
      if (kind === "free") out += rect("ceiling", from, until, top - .7, 1.4);
    }
    for (const from of lane.agent.unknown) out += rect("unknown", from, D.length, y, lane.high);
    out += "</g>";
    y += lane.high + 10;
  }
  for (const [from, until, entry] of lane.agent.sessions) if (seen(from, until)) out += rect("session", from, until, y + 3, 2, key_of(`e${entry}`));
  for (const [place, symbol, words, entry] of lane.agent.marks) if (seen(place, place)) out += mark(symbol, place, y + 4, `e${entry}`, words);
  for (const [from, until, how, entry, end] of lane.agent.drafts) if (seen(from, until)) {
    out += rect("draft", from, until, y + 17, 2, key_of(`e${entry}`)) + mark("prepared", from, y + 18, `e${entry}`, "draft prepared");
    if (how) out += mark(how, until, y + 18, `e${end}`, `draft: ${SYMBOLS[how]}`);
  }
  return out;
}

function label_agent(lane) {
  let y = lane.top + 16, out = text("name", 14, lane.top + 10, lane.agent.name.slice(0, 22));
  for (const band of lane.agent.bands) {
    out += text("resource", 24, y + lane.high / 2 + 4, band.name.slice(0, 14)) + text("end", LEFT - 8, y + 8, band.most.toLocaleString("en"));
    y += lane.high + 10;
  }
  return out + text("", 24, y + 7, "session") + text("", 24, y + 21, "drafts");
}

function draw_framework(lane, seen) {
  const y = lane.top + 14;
  let out = rect("off", 0, D.length, y - .5, 1);
  for (const [name, from, until, why] of lane.framework.streams) if (seen(from, until)) {
    out += rect("stream", from, until, y - 2, 4);
    if ((until - from) * width / D.length > 6 * name.length) out += text("", +x(from) + 4, y - 5, name);
    if (why) out += mark(why === "TEARDOWN" ? "lost" : "closed", until, y, "", `stream ${name} ends by ${why}`);
  }
  for (const task of lane.framework.tasks) if (seen(task.from, task.until)) out += draw_task(task, y + 9 + ROW * task.row);
  return out;
}

function draw_task(task, top) {
  const state = `--state:var(--${task.state.toLowerCase()})`;
  let out = `<g style="${state}">` + rect("tail", task.from, task.until, top + 5, 2, key_of(task.key));
  for (const [kind, from, until] of task.spans) out += rect(`bar ${kind}`, from, until, top, 12, key_of(task.key));
  for (const [place, symbol, words, entry] of task.marks) out += mark(symbol, place, top + (BELOW.includes(symbol) ? 16 : 6), task.key, `${entry}  ${words}`);
  return out + text("task", +x(task.from) + 4, top + 9.5, task.name.slice(0, 14)) + "</g>";
}

function label_framework(lane) {
  const square = (css, left) => `<rect class="${css}" style="--hue:${hue(lane.number)}" x="${left}" y="${lane.top + 8}" width="11" height="11" rx="2"/>`;
  return text("name", 14, lane.top + 18, lane.framework.id) + square("live", LEFT - 36) + square("offered", LEFT - 22);
}

function draw_axis(seen) {
  let out = "", back = "", steps = [1, 2, 5, 10, 20, 50, 100, 200, 500, 1000, 2000, 5000, 10000, 50000];
  D.runs.forEach(([from, until, entry], number) => {
    back += rect(`run${number % 2}`, from, until, 0, height);
    out += rect(`head${number % 2}`, from, until, 0, 18, key_of(`e${entry}`)) + text("run", Math.max(+x(from), pane.scrollLeft) + 4, 13, `run ${number + 1}`);
  });
  const step = steps.find((it) => it * width / D.length >= 58) || 50000;
  let end = -1;
  for (let entry = 0; entry < D.entries; entry += step) {
    const place = place_of(entry), left = +x(place);
    if (left < end || !seen(place, place)) continue;
    end = left + 50;
    out += text("middle", Math.max(left, 8), 32, entry);
    back += `<line class="rule" x1="${left}" x2="${left}" y2="${height}"/>`;
  }
  const row = (items, css, y, words) => {
    let end = -1;
    for (const [place, it, entry] of items) if (seen(place, place)) {
      const left = +x(place), half = 3 * words(it).length + 2;
      if (left - half > end) { out += text(`middle ${css}`, left, y, words(it), key_of(`e${entry}`)); end = left + half + 3; }
    }
  };
  row(D.ticks, "", 48, (it) => `${it.toLocaleString("en")} s`);
  row(D.refused, "code", 63, (it) => it);
  $("axis").innerHTML = out;
  $("back").innerHTML = back;
}

function between(points, value, from, to) {
  let low = 0, high = points.length - 1;
  while (high - low > 1) {
    const middle = (low + high) >> 1;
    if (points[middle][from] <= value) low = middle; else high = middle;
  }
  const a = points[low], b = points[high];
  return b[from] === a[from] ? a[to] : a[to] + (b[to] - a[to]) * (value - a[from]) / (b[from] - a[from]);
}
const place_of = (entry) => between(D.points, entry, 0, 1);
const entry_at = (place) => Math.floor(between(D.points, place, 1, 0) + 1e-6);

function draw() {
  const margin = view() / 2, left = (pane.scrollLeft - margin) * D.length / width, right = (pane.scrollLeft + view() + margin) * D.length / width;
  const top = pane.scrollTop - pane.clientHeight / 2, floor = pane.scrollTop + 1.5 * pane.clientHeight;
  const seen = (from, until) => until >= left && from <= right;
  const shown = lanes.filter((it) => it.top + it.tall >= top && it.top <= floor);
  $("shapes").innerHTML = shown.map((it) => it.draw(it, seen)).join("");
  $("labels").innerHTML = shown.map((it) => it.label(it)).join("");
  for (const it of document.querySelectorAll("[data-hit]")) it.classList.add("hit");
  draw_axis(seen);
}
let asked = false;
function soon() {
  if (!asked) { asked = true; requestAnimationFrame(() => { asked = false; draw(); }); }
}

function zoom(wanted, anchor = .5) {
  const middle = width ? (pane.scrollLeft + view() * anchor) / width : 0;
  width = Math.max(view(), Math.min(wanted, D.length * 60, MOST_WIDTH));
  for (const it of [$("chart"), $("axis")]) it.setAttribute("width", width);
  pane.scrollLeft = middle * width - view() * anchor;
  show_cursor();
  draw();
}

function show_cursor() {
  const place = at === null ? -1 : +x(place_of(at));
  for (const it of ["x1", "x2"]) $("cursor").setAttribute(it, place);
}

function tell(words, left, top) {
  const tip = $("tip");
  tip.textContent = words;
  tip.style.display = words ? "block" : "none";
  tip.style.left = `${Math.min(left + 14, innerWidth - tip.offsetWidth - 8)}px`;
  tip.style.top = `${Math.min(top + 14, innerHeight - tip.offsetHeight - 8)}px`;
}

function step_to(entry) {
  at = Math.max(0, Math.min(entry, D.entries - 1));
  const left = +x(place_of(at));
  if (left < pane.scrollLeft || left > pane.scrollLeft + view()) pane.scrollLeft = left - view() / 2;
  show_cursor();
  const box = pane.getBoundingClientRect();
  tell(D.texts[at], box.left + LEFT + left - pane.scrollLeft, box.top + AXIS);
}

function find(words) {
  const wanted = words.trim().toLowerCase(), names = (key) => [key, ...(D.named[key] || [])].map((it) => it.toLowerCase());
  const keys = Object.keys(D.told), same = keys.filter((it) => names(it).includes(wanted));
  const found = !wanted ? [] : same.length ? same : keys.filter((it) => names(it).some((name) => name.startsWith(wanted)));
  hits = found.length ? new Set(found.flatMap((it) => [it, ...(D.named[it] || []).slice(1)])) : null;
  $("chart").classList.toggle("dim", Boolean(hits));
  const is_entry = /^\d+$/.test(wanted) && D.texts[wanted];
  $("found").textContent = wanted ? `${found.length + (is_entry ? 1 : 0)} found` : "";
  if (is_entry) step_to(+wanted);
  else if (found.length) go_to(found[0]);
  draw();
}

function go_to(key) {
  const of_task = D.frameworks.flatMap((it) => it.tasks).find((it) => it.key === key);
  const cell = D.agents.flatMap((it) => it.bands).flatMap((it) => it.cells).find((it) => it[2] === key);
  const place = of_task ? of_task.from : cell ? cell[5] : 0;
  pane.scrollLeft = +x(place) - view() / 2;
}

const KEYS = {
  ArrowLeft: () => step_to((at === null ? 1 : at) - 1), ArrowRight: () => step_to((at === null ? -1 : at) + 1), Home: () => step_to(0), End: () => step_to(D.entries - 1),
  "+": () => zoom(width * 1.6), "-": () => zoom(width / 1.6), 0: () => zoom(0), "/": () => $("find").focus(), Escape: () => tell("", 0, 0),
};

function legend() {
  const swatch = (css, words) => `<span><svg width="12" height="11"><rect class="${css}" style="--hue:197" width="12" height="11" rx="2"/>${css === "offered" ? '<rect class="stripes" width="12" height="11"/>' : ""}</svg>${words}</span>`;
  const symbol = ([name, words]) => `<span><svg width="10" height="14"><use class="mark" href="#m-${name}" x="5" y="7"/></svg>${words}</span>`;
  const state = (name) => `<span><svg width="12" height="11"><rect width="12" height="11" rx="2" fill="var(--${name})"/></svg>${name}</span>`;
  const kinds = [["offered", "offered"], ["live", "live (a colour for each framework)"], ["booked", "booked by the master alone"], ["free", "free"], ["unknown", "not known"]];
  $("legend").innerHTML = kinds.map((it) => swatch(...it)).join("") + Object.entries(SYMBOLS).map(symbol).join("") + "<span>last state:</span>" + STATES.map(state).join("");
}

function listen() {
  pane.addEventListener("scroll", soon);
  pane.addEventListener("mousemove", (it) => {
    const of = it.target.closest("[data-key]"), key = of && of.dataset.key;
    const place = (it.clientX - $("chart").getBoundingClientRect().left) * D.length / width;
    if (it.clientX < LEFT || place < 0 || place >= D.length) return tell("", 0, 0);
    at = key && /^e\d/.test(key) ? +key.slice(1) : entry_at(place);
    show_cursor();
    tell([of && of.dataset.words, D.told[key] || D.texts[at]].filter(Boolean).join("\n"), it.clientX, it.clientY);
  });
  pane.addEventListener("mouseleave", () => tell("", 0, 0));
  pane.addEventListener("wheel", (it) => {
    if (!it.ctrlKey) return;
    it.preventDefault();
    zoom(width * (it.deltaY < 0 ? 1.25 : .8), (it.clientX - LEFT) / view());
  }, { passive: false });
  document.addEventListener("keydown", (it) => {
    if (it.target === $("find") || it.ctrlKey || it.metaKey || !KEYS[it.key]) return;
    it.preventDefault();
    KEYS[it.key]();
  });
  addEventListener("resize", () => zoom(width));
  $("find").addEventListener("input", (it) => find(it.target.value));
  $("in").addEventListener("click", KEYS["+"]);
  $("out").addEventListener("click", KEYS["-"]);
  $("all").addEventListener("click", KEYS[0]);
}

lay_out();
for (const [it, wide, tall] of [[$("corner"), LEFT, AXIS], [$("axis"), 1, AXIS], [$("labels"), LEFT, height], [$("chart"), 1, height]]) {
  it.setAttribute("width", wide);
  it.setAttribute("height", tall);
}
$("corner").innerHTML = ["master run", "entry", "seconds", "refused"].map((it, row) => text("", 14, [13, 32, 48, 63][row], it)).join("");
legend();
listen();
zoom(location.hash === "#whole" ? 0 : Math.max(1200, D.length * (D.length > 600 ? 2.2 : 0)));
if (location.hash.length > 1 && location.hash !== "#whole") find($("find").value = decodeURIComponent(location.hash.slice(1)));
