"""The page: it asks for the state each second, and draws the tables and the plots by itself."""

CONTENT_TYPE = "text/html; charset=utf-8"

PAGE = """<!DOCTYPE html>
<html lang="en">
<head>
<meta charset="utf-8">
<meta name="viewport" content="width=device-width">
<title>flowvisor</title>
<style>
:root { color-scheme: light dark; --line: #8888; --sent: #2a6fdb; --got: #2c9a52; --refused: #d23b3b; --bad: #d23b3b; }
body { font: 14px/1.45 system-ui, sans-serif; margin: 1.2rem auto; max-width: 78rem; padding: 0 1rem; }
h1 { font-size: 1.15rem; margin: 0 0 .2rem; }
h2 { font-size: 1rem; margin: 1.4rem 0 .3rem; font-family: ui-monospace, monospace; }
p { margin: .2rem 0; }
table { border-collapse: collapse; width: 100%; table-layout: fixed; }
td { overflow-wrap: anywhere; }
th:first-child { width: 22%; }
th:last-child { width: 34%; }
th, td { text-align: left; vertical-align: top; padding: .3rem .6rem .3rem 0; border-top: 1px solid var(--line); }
th { font-weight: 600; font-size: .85rem; }
.down, .note { color: var(--bad); }
.up { color: var(--got); }
.small { font-size: .85rem; opacity: .85; }
.numbers { font-variant-numeric: tabular-nums; }
svg { display: block; width: 100%; height: auto; }
svg text { font-size: 9px; fill: currentColor; opacity: .8; }
svg .axis { stroke: currentColor; opacity: .35; }
svg polyline { fill: none; stroke-width: 1.2; }
.key span { margin-right: 1em; }
ol { list-style: none; padding: 0; margin: 0; font: .85rem/1.5 ui-monospace, monospace; overflow-wrap: anywhere; }
</style>
</head>
<body>
<h1>flowvisor: <span id="policy"></span></h1>
<p class="small numbers" id="capture"></p>
<p class="note" id="note"></p>
<p class="small key">The plots have messages a second: <span style="color:var(--sent)">from the controller</span><span
style="color:var(--got)">to the controller (dashed)</span><span style="color:var(--refused)">refused</span></p>
<div id="switches"></div>
<div id="strays"></div>
<h2>What happened</h2>
<ol id="happenings"></ol>
<noscript><p class="note">This page draws itself by a script. The same numbers are at /metrics.</p></noscript>
<script>
"use strict";
const SVG = "http://www.w3.org/2000/svg", WIDTH = 384, HEIGHT = 84, LEFT = 34, BOTTOM = 14, TOP = 6;

function element(name, attributes, ...children) {
  const made = document.createElement(name);
  for (const [key, value] of Object.entries(attributes || {})) made.setAttribute(key, value);
  made.append(...children);
  return made;
}
function drawn(name, attributes, text) {
  const made = document.createElementNS(SVG, name);
  for (const [key, value] of Object.entries(attributes)) made.setAttribute(key, value);
  if (text !== undefined) made.textContent = text;
  return made;
}
function plot(rows) {
  const svg = drawn("svg", { viewBox: `0 0 ${WIDTH} ${HEIGHT}`, role: "img" });
  const most = Math.max(1, ...rows.flat()), count = Math.max(2, ...rows.map(row => row.length));
  const x = place => LEFT + (WIDTH - LEFT - 4) * place / (count - 1);
  const y = value => HEIGHT - BOTTOM - (HEIGHT - BOTTOM - TOP) * value / most;
  const line = (x1, y1, x2, y2) => svg.append(drawn("line", { x1, y1, x2, y2, class: "axis" }));
  line(LEFT, HEIGHT - BOTTOM, WIDTH - 4, HEIGHT - BOTTOM);
  line(LEFT, TOP, LEFT, HEIGHT - BOTTOM);
  svg.append(drawn("text", { x: LEFT - 4, y: TOP + 6, "text-anchor": "end" }, most < 10 ? most.toFixed(1) : Math.round(most)));
  svg.append(drawn("text", { x: LEFT - 4, y: HEIGHT - BOTTOM, "text-anchor": "end" }, "0"));
  svg.append(drawn("text", { x: LEFT, y: HEIGHT - 3 }, "-10 min"));
  svg.append(drawn("text", { x: WIDTH - 4, y: HEIGHT - 3, "text-anchor": "end" }, "now"));
  ["--sent", "--got", "--refused"].forEach((color, row) => {
    const values = rows[row], gap = count - values.length;
    if (!values.length || (row === 2 && !values.some(value => value > 0))) return;
    const points = values.map((value, place) => `${x(place + gap).toFixed(1)},${y(value).toFixed(1)}`).join(" ");
    svg.append(drawn("polyline", { points, style: `stroke: var(${color})`, "stroke-dasharray": row === 1 ? "4 3" : "none" }));
  });
  return svg;
}
const number = value => value.toLocaleString("en");
function duration(seconds) {
  const hours = Math.floor(seconds / 3600), minutes = Math.floor(seconds / 60) % 60;
  return hours ? `${hours} h ${minutes} min` : minutes ? `${minutes} min ${seconds % 60} s` : `${seconds} s`;
}
function connection(party) {
  const made = element("span", { class: party.up && !party.silent ? "up" : "down" });
  if (!party.connections) {
    made.append(`down: ${party.reason}`);
  } else {
    const since = (party.late ? "since before " : "since ") + party.since.slice(11, 19);
    made.append(`${party.up ? "up" : "down"} ${since} (${duration(party.seconds)})` + (party.reason ? `: ${party.reason}` : ""));
  }
  return made;
}
function rates(pairs) {
  const total = pairs.reduce((sum, pair) => sum + pair[1], 0);
  return `${number(total)}/s` + (total ? ": " + pairs.map(([name, count]) => `${name} ${number(count)}`).join(", ") : "");
}
function paragraph(text, kind) {
  return element("p", { class: kind || "numbers" }, text);
}
function sliceRow(one) {
  const told = element("td"), told2 = element("td");
  told.append(paragraph(`from it ${rates(one.sent)}`), paragraph(`to it ${rates(one.got)}`));
  const refused = one.refused.map(([code, count]) => `${number(count)} ${code}`).join(", ");
  told.append(paragraph(`flow-mods: ${number(one.flow_mods)}, as ${number(one.pieces)} to the switch`));
  told.append(paragraph(`entries: ${one.entries_at_least ? "at least " : ""}${number(one.entries)} of ${number(one.quota)}; ` +
    `rate: ${number(one.rated)} of ${number(one.rate)}/s`));
  if (refused) told.append(paragraph(`messages refused: ${refused}`, "down"));
  if (one.refusals.length) told.append(paragraph(one.refusals[one.refusals.length - 1][1], "small"));
  told2.append(plot(one.plot));
  const who = element("td");
  who.append(element("strong", {}, one.name), paragraph(one.controller, "small"), connection(one));
  return element("tr", {}, who, told, told2);
}
function switchPart(one) {
  const part = element("section");
  part.append(element("h2", {}, `switch ${one.name}`));
  const first = element("p", {}, one.known ? `${one.address} ` : "its datapath id isn't known ", connection(one));
  part.append(first, paragraph(`from it ${rates(one.sent)}`), paragraph(`to it ${rates(one.got)}`));
  if (one.errors) part.append(paragraph(`errors of it: ${number(one.errors)}`, "down"));
  if (one.nobody) part.append(paragraph(`packets for nobody: ${number(one.nobody)}, the last ${one.last_nobody}`, "small"));
  const table = element("table");
  table.append(element("tr", {}, element("th", {}, "slice"), element("th", {}, "messages"), element("th", {}, "last ten minutes")));
  one.slices.forEach(each => table.append(sliceRow(each)));
  part.append(table);
  return part;
}
function strayPart(one) {
  return element("p", {}, `${one.name} (${one.controller}), for a switch that isn't known yet: `, connection(one));
}
function show(state) {
  const capture = state.capture;
  document.getElementById("policy").textContent = state.policy;
  document.getElementById("capture").textContent = `${state.time}: ${number(capture.packets)} packets` +
    (capture.missing ? `, ${number(capture.missing)} bytes missing` : "") +
    (capture.unread ? `, ${number(capture.unread)} bytes not understood` : "") +
    (capture.unreadable ? `, ${number(capture.unreadable)} packets unreadable` : "") +
    (capture.forgotten ? `, ${number(capture.forgotten)} switches forgotten` : "");
  document.getElementById("note").textContent = "";
  document.getElementById("switches").replaceChildren(...(state.switches.length ? state.switches.map(switchPart)
    : [paragraph("no switch has connected")]));
  document.getElementById("strays").replaceChildren(...state.strays.map(strayPart));
  document.getElementById("happenings").replaceChildren(
    ...state.happenings.slice().reverse().map(([time, text]) => element("li", {}, `${time.slice(11)} ${text}`)));
}
async function renew() {
  try {
    const answer = await fetch("state.json", { cache: "no-store" });
    show(await answer.json());
  } catch (problem) {
    document.getElementById("note").textContent = "flowvisor-tool watch doesn't answer";
  }
  setTimeout(renew, 1000);
}
renew();
</script>
</body>
</html>
"""
