"""The page of tools/playground: its form, its look, and the script that runs the guarded C text."""

PAGE = """\
<!DOCTYPE html>
<html lang="en">
<head>
<meta charset="utf-8">
<title>{title}</title>
<style>
{style}
</style>
</head>
<body>
<h1>{title}</h1>
<div id="inputs"></div>
<div id="buttons">
<button id="react">react (Enter)</button>
<button id="back">back</button>
<button id="reset">reset</button>
<button id="clear">start again</button>
<button id="replay">the given trace</button>
<span id="message"></span>
</div>
<div id="waves"><div id="names"></div><div id="lanes"></div></div>
<div id="told"></div>
<div id="panes">
<section><h2>Source</h2><pre id="source"></pre></section>
<section><h2><select id="choice"></select></h2><div id="pane"></div></section>
</div>
<template id="drawing">{drawing}</template>
<script>
const data = {data};
{script}
</script>
</body>
</html>
"""
STYLE = """\
body { font-family: sans-serif; margin: 1em; color: #222; background: #fff; }
h1 { font-size: 1.3em; margin: 0 0 .5em; }
h2 { font-size: 1em; margin: .3em 0; }
#inputs button, #buttons button { font: inherit; margin: 0 .3em .3em 0; padding: .2em .7em; border: 1px solid #888; border-radius: 4px; background: #f3f3f3; }
#inputs button.chosen { background: #cfe3ff; border-color: #245; font-weight: bold; }
#inputs button.held { background: #245; color: #fff; }
#message { color: #b00; }
#waves { display: flex; overflow-x: auto; border: 1px solid #bbb; max-height: 45vh; overflow-y: auto; }
#names { position: sticky; left: 0; z-index: 1; background: #fff; border-right: 1px solid #ddd; }
#names text, #lanes text { font-family: monospace; font-size: 12px; }
#names svg, #lanes svg { display: block; }
.input { fill: #cfe3ff; stroke: #245; }
.output { fill: #ffe0b8; stroke: #742; }
.local { fill: #e8dcf5; stroke: #537; }
.status { fill: #d9ead3; stroke: #363; }
.low { stroke: #999; }
.instant { fill: transparent; cursor: pointer; }
.instant:hover { fill: #0001; }
.instant.chosen { fill: #ff02; stroke: #c80; }
.reset { stroke: #c00; stroke-dasharray: 4 3; stroke-width: 2; }
#told { font-family: monospace; margin: .5em 0; min-height: 1.3em; }
#panes { display: grid; grid-template-columns: 1fr 1fr; gap: 1em; }
section { min-width: 0; }
pre { background: #f7f7f7; border: 1px solid #bbb; padding: .5em; margin: 0; line-height: 1.35; overflow: auto; max-height: 70vh; }
#pane { overflow: auto; max-height: 74vh; }
.number { color: #888; }
.waits { background: #ffd54a; }
.emits { font-weight: bold; text-decoration: underline; }
g.node.present path, g.node.present polygon, g.node.present ellipse { fill: #ffd54a; }
.texts { display: grid; grid-template-columns: 1fr 1fr; gap: .5em; }
.never { margin: .3em 0; }
"""
SCRIPT = r"""
"use strict";
const CELL = 28, ROW = 24, LETTER = 8;
const get = id => document.getElementById(id);

// The guarded C text as a list of lines that run: assignments, and blocks under a test.
function programOf(text) {
  const initial = {}, code = [];
  let block = null, half = code;
  for (const line of text.split("\n")) {
    let it;
    if ((it = /^static int (\w+) = ([01]);$/.exec(line))) initial[it[1]] = Number(it[2]);
    else if ((it = /^if \((\w+)\) \{$/.exec(line))) { block = { test: it[1], yes: [], no: [] }; code.push(block); half = block.yes; }
    else if (line === "} else {") half = block.no;
    else if (line === "}") { half = code; block = null; }
    else if ((it = /^return (\w+);$/.exec(line))) code.result = it[1];
    else if ((it = /^(\w+) = (!?)(\w+)(?: ([&|]) (\w+))?;$/.exec(line))) half.push({ to: it[1], not: it[2] === "!", left: it[3], mark: it[4], right: it[5] });
  }
  return { initial, code };
}
const program = programOf(data.code);

function run(code, values) {
  const value = name => name === "0" ? 0 : name === "1" ? 1 : values[name] || 0;
  for (const it of code) {
    if (it.test) run(value(it.test) ? it.yes : it.no, values);
    else if (it.not) values[it.to] = 1 - value(it.left);
    else if (it.mark === "&") values[it.to] = value(it.left) & value(it.right);
    else if (it.mark === "|") values[it.to] = value(it.left) | value(it.right);
    else values[it.to] = value(it.left);
  }
  return values;
}

// The instants so far. Each has the state after it, which the next one starts with.
let instants = [], chosen = -1, picked = new Set(), held = new Set(), resets = false;
const latchesOf = values => Object.keys(program.initial).map(name => values[name]);

function broken(event) {
  const present = name => event.includes(name);
  const pair = data.pairs.find(([left, right, value]) => present(left) && present(right) === (value === "1"));
  return pair && "the relations forbid " + pair[0] + (pair[2] === "1" ? " with " : " without ") + pair[1];
}

function react(event) {
  const last = instants[instants.length - 1];
  const values = { ...(last && !resets ? last.states : program.initial) };
  const states = Object.keys(program.initial);
  for (const name of data.inputs) values["I_" + name] = event.includes(name) ? 1 : 0;
  run(program.code, values);
  const isWire = number => values["w" + number] === 1;
  const wires = Object.keys(data.emitters).filter(isWire).map(number => data.emitters[number]);
  instants.push({
    event, isFirst: resets, outputs: data.outputs.filter(name => values["O_" + name]), paused: values[program.code.result] === 1,
    locals: data.locals.filter(name => wires.some(it => it.local === name)), emitted: wires.filter(it => it.span),
    states: Object.fromEntries(states.map(name => [name, values[name]])),
    waits: data.leaves.filter((_, number) => values["s" + (number + 1)]),
  });
  resets = false;
  chosen = instants.length - 1;
}

function lineOf(it) {
  return [...it.outputs, "|", it.paused ? "paused" : "ended"].join(" ");
}

// Plays groups of a trace, and compares with the program's own lines.
function play(groups, lines) {
  instants = []; resets = false; chosen = -1;
  for (const group of groups) {
    if (group.length === 1 && group[0] === "!reset") resets = true;
    else react(group);
  }
  const wrong = lines.findIndex((line, at) => !instants[at] || lineOf(instants[at]) !== line);
  say(wrong < 0 ? "" : "instant " + (wrong + 1) + " is not what the program answers: please report this");
  document.body.dataset.agrees = String(wrong < 0 && lines.length === instants.length);
  show();
}

function say(words) { get("message").textContent = words; }

function shape(kind, name, attributes, text) {
  const made = document.createElementNS("http://www.w3.org/2000/svg", name);
  if (kind) made.setAttribute("class", kind);
  for (const [key, value] of Object.entries(attributes)) made.setAttribute(key, value);
  if (text !== undefined) made.textContent = text;
  return made;
}

function showWaves() {
  const rows = [
    ...data.inputs.map(name => ["input", name, it => it.event.includes(name)]),
    ...data.outputs.map(name => ["output", name, it => it.outputs.includes(name)]),
    ...data.locals.map(name => ["local", name, it => it.locals.includes(name)]),
    ["status", "(paused)", it => it.paused],
  ];
  const height = ROW * (rows.length + 1) + 6, width = CELL * instants.length + 20;
  const names = shape("", "svg", { width: LETTER * Math.max(...rows.map(row => row[1].length)) + 20, height });
  const lanes = shape("", "svg", { width, height });
  rows.forEach(([kind, name, has], number) => {
    const low = (number + 1) * ROW + ROW - 6, high = (number + 1) * ROW + 4;
    names.append(shape("", "text", { x: 8, y: low }, name));
    instants.forEach((it, at) => lanes.append(has(it)
      ? shape(kind, "rect", { x: 2 + at * CELL, y: high, width: CELL, height: low - high })
      : shape("low", "line", { x1: 2 + at * CELL, y1: low, x2: 2 + (at + 1) * CELL, y2: low })));
  });
  instants.forEach((it, at) => {
    lanes.append(shape("", "text", { x: 2 + at * CELL + CELL / 2, y: 16, "text-anchor": "middle" }, at + 1));
    if (it.isFirst) lanes.append(shape("reset", "line", { x1: 2 + at * CELL, y1: 0, x2: 2 + at * CELL, y2: height }));
    const place = shape("instant" + (at === chosen ? " chosen" : ""), "rect", { x: 2 + at * CELL, y: 0, width: CELL, height });
    place.addEventListener("click", () => { chosen = at; show(); });
    lanes.append(place);
  });
  get("names").replaceChildren(names);
  get("lanes").replaceChildren(lanes);
  if (chosen === instants.length - 1) get("waves").scrollLeft = width;
}

function showSource() {
  const it = instants[chosen], page = get("source");
  const spans = it ? [...it.waits.map(leaf => [...leaf.span, "waits"]), ...it.emitted.map(wire => [...wire.span, "emits"])] : [];
  page.replaceChildren();
  data.source.forEach((line, row) => {
    const label = document.createElement("span");
    label.className = "number";
    label.textContent = String(row + 1).padStart(4) + "  ";
    page.append(label);
    const here = spans.filter(span => span[0] === row);
    const cuts = [...new Set([0, line.length, ...here.flatMap(span => [span[1], span[2]])])].sort((a, b) => a - b);
    for (let at = 0; at + 1 < cuts.length; at++) {
      const over = here.filter(span => span[1] <= cuts[at] && cuts[at + 1] <= span[2]);
      const mark = document.createElement("span");
      mark.className = [...new Set(over.map(span => span[3]))].join(" ");
      mark.textContent = line.slice(cuts[at], cuts[at + 1]);
      page.append(mark);
    }
    page.append("\n");
  });
  const waits = page.querySelector(".waits");
  if (waits) page.scrollTop = Math.max(0, waits.offsetTop - page.offsetTop - page.clientHeight / 2);
}

function stateNow() {
  const values = chosen < 0 ? program.initial : instants[chosen].states;
  return data.numbers[latchesOf(values).join("")];
}

function textPane(pane) {
  const both = document.createElement("div");
  both.className = "texts";
  const titles = Object.keys(data.texts);
  for (const first of [0, titles.length - 1]) {
    const side = document.createElement("div"), select = document.createElement("select"), page = document.createElement("pre");
    titles.forEach(title => select.append(new Option(title + " (" + data.texts[title].split("\n").length + " lines)", title)));
    select.selectedIndex = first;
    select.addEventListener("change", () => { page.textContent = data.texts[select.value]; });
    page.textContent = data.texts[titles[first]];
    side.append(select, page);
    both.append(side);
  }
  pane.append(both);
}

function propertyPane(pane) {
  if (!data.properties.length) pane.textContent = "No output was asked about; --never NAME asks.";
  data.properties.forEach(it => {
    const row = document.createElement("div");
    row.className = "never";
    row.textContent = it.name + ": " + it.words + " ";
    if (it.events.length) {
      const button = document.createElement("button");
      button.textContent = "play";
      button.addEventListener("click", () => play(it.events, it.lines.map(line => line === "- | paused" || line === "- | ended" ? line.slice(2) : line)));
      row.append(button);
    }
    pane.append(row);
  });
}

function statePane(pane) {
  const drawing = get("drawing").content.firstElementChild;
  if (drawing) {
    pane.append(drawing.cloneNode(true));
    pane.querySelectorAll("g.node").forEach(it => it.classList.toggle("present", it.id === "state" + stateNow()));
  } else {
    const page = document.createElement("pre");
    page.textContent = data.states;
    pane.append(page);
  }
}

const PANES = { "States": statePane, "Texts": textPane, "Properties": propertyPane };

function showPane(isNew) {
  const pane = get("pane"), kind = get("choice").value;
  // The texts keep what is chosen there.
  if (kind === "States" || isNew) { pane.replaceChildren(); PANES[kind](pane); }
}

function show() {
  const it = instants[chosen];
  get("told").textContent = it ? "instant " + (chosen + 1) + ": " + (it.event.join(" ") || "-") + " → " + (it.outputs.join(" ") || "-") +
    (it.locals.length ? " (local: " + it.locals.join(" ") + ")" : "") + " | " + (it.paused ? "paused" : "ended") : "no instant yet";
  if (resets) get("told").textContent += " (a reset comes first)";
  document.querySelectorAll("#inputs button").forEach(button => {
    button.classList.toggle("chosen", picked.has(button.dataset.name));
    button.classList.toggle("held", held.has(button.dataset.name));
  });
  showWaves(); showSource(); showPane(false);
}

function step() {
  const event = data.inputs.filter(name => picked.has(name) || held.has(name)), why = broken(event);
  say(why || "");
  if (why) return;
  react(event);
  picked.clear();
  show();
}

function begin() {
  data.inputs.forEach(name => {
    const button = document.createElement("button");
    button.dataset.name = name;
    button.textContent = name;
    button.title = "click: in the next instant; double click: hold";
    button.addEventListener("click", () => { if (!held.delete(name) && !picked.delete(name)) picked.add(name); show(); });
    button.addEventListener("dblclick", () => { picked.delete(name); held.add(name); show(); });
    get("inputs").append(button);
  });
  if (!data.inputs.length) get("inputs").textContent = "The program has no inputs.";
  get("react").addEventListener("click", step);
  get("back").addEventListener("click", () => {
    if (resets) resets = false; else { const gone = instants.pop(); resets = Boolean(gone && gone.isFirst); }
    chosen = instants.length - 1;
    show();
  });
  get("reset").addEventListener("click", () => { resets = instants.length > 0; show(); });
  get("clear").addEventListener("click", () => play([], []));
  get("replay").addEventListener("click", () => play(data.trace, data.lines.map(line => line.join(" "))));
  get("replay").hidden = !data.trace.length;
  Object.keys(PANES).forEach(name => get("choice").append(new Option(name)));
  get("choice").addEventListener("change", () => showPane(true));
  document.addEventListener("keydown", event => {
    // Also on an input that was clicked: the browser would click it once more.
    if (event.key === "Enter" && event.target.tagName !== "SELECT") { event.preventDefault(); step(); }
    const move = { ArrowLeft: -1, ArrowRight: 1 }[event.key];
    if (move && instants.length) { chosen = Math.max(0, Math.min(instants.length - 1, chosen + move)); show(); }
  });
  showPane(true);
  play(data.trace, data.lines.map(line => line.join(" ")));
}
begin();
"""
