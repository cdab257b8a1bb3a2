// Reads a schedule and the rows that the program wrote for it, by the grammar of docs/DEFINITIONS.md. It computes no rule of the
// protocol. A line that it doesn't know is kept as text and told.
"use strict";

// What is drawn of each kind of datagram and of each act: later kinds and acts are a line more here.
const KINDS = {
  update: { label: "update", dash: "" },
  decision: { label: "decision", dash: "" },
  nodecision: { label: "no-decision", dash: "8 3" },
  election: { label: "election", dash: "6 3" },
  promise: { label: "promise", dash: "2 2" },
  ask: { label: "question", dash: "1 3" },
  state: { label: "piece of a table", dash: "10 3 2 3" },
  sync: { label: "sign of life", dash: "1 5" },
};
const ACTS = ["first", "again", "crash", "tick", "recv", "send", "ref", "look"];

const ROW = /^(\d+) (\d+) (\d+) (-|\d+) ([01]) (\d+)\.(\d+) (\d+) (\d+) (.+)$/;

/** The lines of a text; an empty text has none. */
function linesOf(text) {
  const lines = text.split("\n");
  if (lines[lines.length - 1] === "") lines.pop();
  return lines;
}

/** A line below a row, or nothing where it is none that is known. */
function lineBelow(text) {
  const words = text.split(" ");
  if (words[0] !== "+") return null;
  const found = /^\+ (\w+)/.exec(text);
  switch (found && found[1]) {
    case "made": {
      const m = /^\+ made (\d+)\.(\d+) start (\d+) low (\d+) len (\d+) members (.*)$/.exec(text);
      return m && { is: "made", group: +m[1], turn: +m[2], start: +m[3], members: m[6].split(" ") };
    }
    case "pass": {
      const m = /^\+ pass (\d+) (\S+) (\w+) (\w+) (\d+) (now|earlier|late) (\S+)$/.exec(text);
      return m && { is: "pass", position: +m[1], id: m[2], order: m[3], atom: m[4], how: m[6], bytes: m[7] };
    }
    case "early": {
      const m = /^\+ early (\S+) (\w+) (\w+) (\d+) (\S+)$/.exec(text);
      return m && { is: "early", id: m[1], order: m[2], atom: m[3], bytes: m[5] };
    }
    case "send": {
      const m = /^\+ send (\d+) to (\d+) (\w+)(.*)$/.exec(text);
      return m && KINDS[m[3]] && { is: "send", number: +m[1], to: +m[2], kind: m[3], more: m[4].trim() };
    }
    case "entry": {
      const m = /^\+ entry (\d+) (\d+)$/.exec(text);
      return m && { is: "entry", key: m[1], value: m[2] };
    }
    default:
      return null;
  }
}

/** A run: its team, its steps with what each row says of them, its datagrams, and the lines that nobody knows. */
function readRun(scheduleText, rowsText, message) {
  const run = { team: "", n: 0, steps: [], datagrams: new Map(), groups: new Map(), unknown: [], message, badLine: 0 };
  const schedule = linesOf(scheduleText);
  const team = /^team (\d+) /.exec(schedule[0] || "");
  run.team = schedule[0] || "";
  if (!team) run.unknown.push(`schedule line 1: ${run.team}`);
  schedule.slice(1).forEach((line, i) => {
    const m = /^(\d+) (\d+) (\d+) (\w+)( .*)?$/.exec(line);
    const step = { number: i + 1, line, rows: [], sends: [], marks: [], passes: [], earlies: [], known: false };
    if (m && ACTS.includes(m[4])) {
      Object.assign(step, { t: +m[1], who: +m[2], h: +m[3], act: m[4], args: (m[5] || "").trim(), known: true });
    } else {
      run.unknown.push(`schedule line ${i + 2}: ${line}`);
    }
    run.steps.push(step);
  });
  readRows(run, linesOf(rowsText));
  const bad = /^line (\d+):/.exec(message || "");
  run.badLine = bad ? +bad[1] : 0;
  run.n = Math.max(team ? Math.min(+team[1], 15) : 0, ...[...new Set(run.steps.map((s) => (s.known ? s.who + 1 : 0)))], 1);
  link(run);
  return run;
}

/** Puts each row, with the lines below it, to its step. */
function readRows(run, lines) {
  let step = null;
  for (const text of lines) {
    const m = ROW.exec(text);
    const below = m ? null : lineBelow(text);
    if (m && run.steps[+m[1] - 1]) {
      step = run.steps[+m[1] - 1];
      step.row = { reading: m[4] === "-" ? null : +m[4], up: m[5] === "1", group: +m[6], turn: +m[7], incarnation: m[3], answer: m[10] };
      if (!step.known) step.who = +m[2];
    } else if (below && step) {
      keep(run, step, below);
    } else {
      run.unknown.push(`row: ${text}`);
    }
    if (step) step.rows.push(text);
  }
}

function keep(run, step, below) {
  if (below.is === "send") {
    step.sends.push(below);
    run.datagrams.set(below.number, { ...below, from: step.who, sentAt: step.number, receipts: [] });
  } else if (below.is === "made") {
    step.made = below;
    if (below.turn === 0 && !run.groups.has(below.group)) run.groups.set(below.group, below);
  } else if (below.is === "pass") {
    step.passes.push(below);
  } else if (below.is === "early") {
    step.earlies.push(below);
  }
}

/** Joins receipts with their datagrams, and each step with the next one of its process. */
function link(run) {
  const last = new Map();
  for (const step of run.steps) {
    if (!step.row) continue;
    if (step.act === "recv") {
      const datagram = run.datagrams.get(+step.args);
      if (datagram) datagram.receipts.push(step.number);
    }
    const before = last.get(step.who);
    if (before) before.next = step.number;
    last.set(step.who, step);
  }
}

if (typeof module !== "undefined") module.exports = { readRun, KINDS };
