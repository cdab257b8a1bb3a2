// Draws a run: a lane for each process, bars for groups, arrows for datagrams. Only the steps that are seen are drawn.
"use strict";

const SVG = "http://www.w3.org/2000/svg";
// colours that are told apart by people who don't see red from green (Okabe and Ito); the number of a group stands beside its bar
const COLOURS = ["#0072b2", "#e69f00", "#009e73", "#cc79a7", "#56b4e9", "#d55e00", "#8a7a00", "#555555"];
const LANE = 112, TOP = 46, LEFT = 92, GAP = 34, SEEN = 300;

function element(name, attributes, text) {
  const made = document.createElementNS(SVG, name);
  for (const [key, value] of Object.entries(attributes)) made.setAttribute(key, value);
  if (text !== undefined) made.textContent = text;
  return made;
}

class Picture {
  constructor(run, svg, choose) {
    Object.assign(this, { run, svg, choose, from: 1, count: SEEN, byTime: false });
    this.colourOf = new Map();
  }

  colour(group) {
    if (!this.colourOf.has(group)) this.colourOf.set(group, COLOURS[this.colourOf.size % COLOURS.length]);
    return this.colourOf.get(group);
  }

  lane(who) {
    return TOP + who * LANE + 30;
  }

  /** The place of a step along the axis; what lies outside is put to the edge. */
  x(number) {
    const first = this.from, last = this.last;
    if (number < first) return LEFT - 14;
    if (number > last) return this.width - 4;
    if (!this.byTime) return LEFT + (number - first) * GAP;
    return LEFT + ((this.timeOf(number) - this.t0) / Math.max(1, this.t1 - this.t0)) * (this.width - LEFT - 40);
  }

  timeOf(number) {
    const step = this.run.steps[number - 1];
    return step && step.known ? step.t : this.t0;
  }

  draw() {
    const { run, svg } = this;
    this.last = Math.min(run.steps.length, this.from + this.count - 1);
    this.seen = run.steps.slice(this.from - 1, this.last);
    this.width = LEFT + Math.max(6, this.seen.length) * GAP + 30;
    const times = this.seen.filter((s) => s.known).map((s) => s.t);
    this.t0 = times.length ? times[0] : 0;
    this.t1 = times.length ? times[times.length - 1] : 1;
    this.height = TOP + run.n * LANE + 16;
    svg.replaceChildren();
    svg.setAttribute("viewBox", `0 0 ${this.width} ${this.height}`);
    svg.setAttribute("width", this.width);
    svg.setAttribute("height", this.height);
    this.layers = {};
    for (const name of ["lanes", "starts", "bars", "arrows", "boxes", "marks", "dots"]) {
      this.layers[name] = svg.appendChild(element("g", { class: name }));
    }
    for (let who = 0; who < run.n; who++) this.drawLane(who);
    this.drawStarts();
    for (const step of this.seen) this.drawStep(step);
    this.drawArrows();
    if (run.badLine >= 2 && run.badLine - 1 >= this.from && run.badLine - 1 <= this.last) this.drawRefusal();
  }

  add(layer, name, attributes, text) {
    return this.layers[layer].appendChild(element(name, attributes, text));
  }

  drawLane(who) {
    const y = this.lane(who);
    this.add("lanes", "text", { x: 4, y: y + 4, class: "name" }, `process ${who}`);
    let running = false, from = LEFT - 14, reading = false;
    const close = (to) => running && this.add("lanes", "line", { x1: from, x2: to, y1: y, y2: y, class: reading ? "lane" : "lane blind" });
    const before = this.before(who);
    if (before && before.act !== "crash") [running, reading] = [true, before.row.reading !== null];
    for (const step of this.seen) {
      if (step.who !== who || !step.row) continue;
      close(this.x(step.number));
      [running, from, reading] = [step.act !== "crash", this.x(step.number), step.row.reading !== null];
    }
    close(this.x(this.last) + 14);
  }

  /** The last step of a process before those that are seen. */
  before(who) {
    for (let i = this.from - 2; i >= 0; i--) {
      const step = this.run.steps[i];
      if (step.who === who && step.row) return step;
    }
    return null;
  }

  /** A line across all lanes where a group starts: before the first step whose row has a reading from its start on. */
  drawStarts() {
    for (const [group, made] of this.run.groups) {
      const at = this.seen.find((s) => s.row && s.row.reading !== null && s.row.reading >= made.start);
      if (!at || (at.number === this.from && this.from > 1)) continue;
      const x = this.x(at.number) - GAP / 2 + (this.byTime ? GAP / 2 : 0);
      this.add("starts", "line", { x1: x, x2: x, y1: TOP - 20, y2: this.height - 8, class: "start", stroke: this.colour(group) });
      this.add("starts", "text", { x: x + 3, y: TOP - 24, class: "small" }, `${group} starts`);
    }
  }

  drawStep(step) {
    if (!step.row && !step.known) return this.drawUnknown(step);
    const x = this.x(step.number), y = this.lane(step.who ?? 0);
    if (step.row) {
      this.drawBar(step, x, y);
      this.drawMarks(step, x, y);
      this.drawBoxes(step, x, y);
      const dot = this.add("dots", "circle", { cx: x, cy: y, r: 5, class: "dot", "data-step": step.number, tabindex: 0 });
      dot.addEventListener("click", () => this.choose(step.number));
      this.add("dots", "text", { x: x - 9, y: y - 9, class: "number" }, step.number);
    }
  }

  drawUnknown(step) {
    this.add("marks", "text", { x: this.x(step.number), y: this.height - 4, class: "small refused" }, "?");
  }

  /** The group of the last decision, from this step to the next one of its process; thick where the flag is 1. */
  drawBar(step, x, y) {
    const { group, up } = step.row;
    if (!group || step.act === "crash") return;
    const to = step.next ? this.x(step.next) : this.x(this.last) + 14;
    const next = step.next ? this.run.steps[step.next - 1] : null;
    const falls = up && next && !(next.row.up && next.row.group === group);
    const kind = up ? (falls ? "up falls" : "up") : "down";
    this.add("bars", "line", { x1: x, x2: to, y1: y + 12, y2: y + 12, class: `bar ${kind}`, stroke: this.colour(group) });
    const before = this.lastGroup && this.lastGroup.get(step.who);
    if (before !== group || step.number === this.from) this.add("bars", "text", { x: x + 2, y: y + 28, class: "small" }, `${group}`);
    (this.lastGroup ??= new Map()).set(step.who, group);
  }

  drawMarks(step, x, y) {
    const { answer } = step.row;
    if (step.made) {
      this.add("marks", "path", { d: `M${x - 11} ${y}L${x} ${y - 11}L${x + 11} ${y}L${x} ${y + 11}Z`, class: "made", fill: this.colour(step.made.group) });
      this.add("marks", "text", { x: x + 9, y: y - 12, class: "small" }, `${step.made.group}.${step.made.turn}`);
    }
    if (answer.startsWith("dropped ")) {
      this.add("marks", "path", { d: `M${x - 7} ${y - 7}L${x + 7} ${y + 7}M${x - 7} ${y + 7}L${x + 7} ${y - 7}`, class: "cross" });
      this.add("marks", "text", { x: x + 8, y: y + 42, class: "small refused" }, answer.slice(8));
    } else if (/^(sent|refused) /.test(answer)) {
      this.add("marks", "text", { x: x - 4, y: y - 22, class: `small ${answer.startsWith("sent") ? "sent" : "refused"}` }, answer);
    } else if (step.act === "crash" || step.act === "again" || step.act === "first") {
      this.add("marks", "text", { x: x - 4, y: y - 22, class: "small" }, step.act);
    }
  }

  /** Deliveries, in their order, under the lane; what doesn't fit between two steps stands over each other. */
  drawBoxes(step, x, y) {
    const all = [...step.passes.map((p) => [p, `${p.position}`, p.how]), ...step.earlies.map((e) => [e, "e", "early"])];
    all.forEach(([what, label, how], i) => {
      const [bx, by] = [x - 7 + (i % 2) * 15, y + 34 + Math.floor(i / 2) * 14];
      const box = this.add("boxes", "rect", { x: bx, y: by, width: 14, height: 13, class: `box ${how}` });
      box.appendChild(element("title", {}, `${what.id} ${what.order} ${what.atom} ${how}: ${what.bytes}`));
      this.add("boxes", "text", { x: bx + 7, y: by + 10, class: "inbox" }, label);
    });
  }

  drawArrows() {
    const drawn = new Set();
    for (const step of this.seen) {
      for (const send of step.sends) this.drawDatagram(this.run.datagrams.get(send.number), drawn);
      if (step.row && step.act === "recv" && this.run.datagrams.has(+step.args)) this.drawDatagram(this.run.datagrams.get(+step.args), drawn);
    }
  }

  drawDatagram(d, drawn) {
    if (drawn.has(d.number)) return;
    drawn.add(d.number);
    const [x1, y1] = [this.x(d.sentAt), this.lane(d.from)];
    const y2 = this.lane(d.to);
    if (!d.receipts.length) {
      const towards = y2 > y1 ? 1 : -1;
      this.add("arrows", "path", { d: `M${x1} ${y1}l9 ${towards * 16}`, class: `stub ${d.kind}`, "stroke-dasharray": KINDS[d.kind].dash });
      return;
    }
    for (const at of d.receipts) {
      const x2 = this.x(at), bend = y2 > y1 ? -8 : 8;
      const path = this.add("arrows", "path", {
        d: `M${x1} ${y1}C${x1 + 10} ${y1 - bend} ${x2 - 12} ${y2 + bend * 2} ${x2 - 3} ${y2 + bend * 0.7}`,
        class: `arrow ${d.kind}`, "marker-end": "url(#tip)", "stroke-dasharray": KINDS[d.kind].dash,
      });
      path.appendChild(element("title", {}, `${d.number}: ${KINDS[d.kind].label} ${d.more} of ${d.from} to ${d.to}`));
      this.add("arrows", "text", { x: (x1 + x2) / 2, y: (y1 + y2) / 2 + 3, class: "inbox onpath" }, d.number);
    }
  }

  drawRefusal() {
    const x = this.x(this.run.badLine - 1);
    this.add("marks", "line", { x1: x, x2: x, y1: TOP - 20, y2: this.height - 8, class: "refusal" });
    this.add("marks", "text", { x: x + 4, y: TOP - 8, class: "small refused" }, this.run.message);
  }
}

/** What a choice shows: the schedule line, its row and all lines under it, as text. */
function textOf(run, number) {
  const step = run.steps[number - 1];
  return step ? [`schedule line ${number + 1}:  ${step.line}`, ...step.rows].join("\n") : "";
}

function legend() {
  const made = document.getElementById("legend");
  for (const [kind, { label, dash }] of Object.entries(KINDS)) {
    const part = document.createElement("span");
    const svg = element("svg", { width: 34, height: 10 });
    svg.appendChild(element("line", { x1: 2, x2: 32, y1: 5, y2: 5, class: `arrow ${kind}`, "stroke-dasharray": dash }));
    part.append(svg, ` ${label} `);
    made.append(part);
  }
}

function bytesOf(id) {
  const found = document.getElementById(id);
  return new TextDecoder().decode(Uint8Array.from(atob(found ? found.textContent.trim() : ""), (c) => c.charCodeAt(0)));
}

function start() {
  const run = readRun(bytesOf("schedule"), bytesOf("rows"), bytesOf("message").trim());
  const chosen = document.getElementById("chosen"), slider = document.getElementById("slider");
  const picture = new Picture(run, document.getElementById("picture").appendChild(element("svg", { id: "run", role: "img" })), choose);
  let at = 0;
  function choose(number) {
    if (number < 1 || number > run.steps.length) return;
    at = number;
    chosen.textContent = textOf(run, number);
    if (number < picture.from || number > picture.last) seek(Math.max(1, number - 20));
    for (const dot of document.querySelectorAll(".dot")) dot.classList.toggle("chosen", +dot.dataset.step === at);
  }
  function seek(from) {
    picture.from = Math.max(1, Math.min(from, Math.max(1, run.steps.length - picture.count + 1)));
    slider.value = picture.from;
    picture.lastGroup = new Map();
    picture.draw();
    arrowTip(picture.svg);
  }
  if (location.hash === "#all") picture.count = Math.max(1, run.steps.length);
  slider.max = Math.max(1, run.steps.length - picture.count + 1);
  document.getElementById("seek").hidden = run.steps.length <= picture.count;
  slider.addEventListener("input", () => seek(+slider.value));
  document.getElementById("axis").addEventListener("click", (event) => {
    picture.byTime = !picture.byTime;
    event.target.textContent = picture.byTime ? "by steps" : "by team time";
    seek(picture.from);
  });
  document.addEventListener("keydown", (event) => {
    if (event.key === "ArrowRight") choose(at + 1);
    if (event.key === "ArrowLeft") choose(at - 1);
  });
  document.getElementById("team").textContent = run.team;
  document.getElementById("told").textContent = run.message;
  const unknown = document.getElementById("unknown");
  unknown.textContent = run.unknown.map((line) => `not known: ${line}`).join("\n");
  unknown.hidden = !run.unknown.length;
  legend();
  seek(1);
  choose(1);
}

function arrowTip(svg) {
  const defs = element("defs", {});
  const tip = element("marker", { id: "tip", viewBox: "0 0 8 8", refX: 6, refY: 4, markerWidth: 6, markerHeight: 6, orient: "auto" });
  tip.appendChild(element("path", { d: "M0 0L8 4L0 8Z", class: "tip" }));
  defs.appendChild(tip);
  svg.prepend(defs);
  svg.prepend(element("style", {}, document.getElementById("style").textContent));
}

start();
