// Two runs over one scale of cycles, one above the other: their interrupts, inputs and words put out, the words of a cell, and where they part.
import { drawn, unit } from './dom.js';
import { decimalOf, group, numberOf, octal } from './words.js';
import { T } from './texts.js';

// Heights, in tenths of a rem: a flag; of a lane, without a curve too, its name, interrupts, inputs and words put out, and the curve; the scale.
const FLAG = 15, LANE = 62, BARE = 38, NAME = 11, RUPT = 20, MARK = 30, CURVE = 37, FOOT = 20;
// What idles at the end of both is left out but for a little, where it is more than a third.
const KEPT = 1.06, LEAST_CUT = 1.5;

// The cycles that are shown, of both.
function spanOf(runs) {
  const from = Math.min(...runs.map((it) => it.from)), to = Math.max(...runs.map((it) => it.to)), idle = from + (Math.max(...runs.map((it) => it.idle)) - from) * KEPT;
  return { from, to: idle * LEAST_CUT < to ? Math.ceil(idle) + 4 : Math.max(to, from + 1), isCut: idle * LEAST_CUT < to };
}
// Runs with names and events, flags where they part, and what a click on a cycle does.
export function drawBoth({ runs, flags, width, cell, go }) {
  const u = unit(), { from, to, isCut } = spanOf(runs), left = 14 * u, right = width - 30 * u, x = (cycles) => left + ((Math.max(from, Math.min(to, cycles)) - from) / (to - from)) * (right - left);
  const words = runs.flatMap((it) => it.curve.map(([, word]) => numberOf(word))), low = Math.min(...words), high = Math.max(...words), lane = words.length ? LANE : BARE, top = flags.length * FLAG + 4, bottom = (top + 2 * lane) * u, height = bottom + FOOT * u;
  const svg = drawn("svg", { width, height, role: "img", "aria-label": [T.bothLines, ...flags.map((it) => it.text)].join(". "), class: "lines" }), put = (tag, props, ...inside) => svg.append(drawn(tag, props, ...inside));
  drawScale({ put, u, x, from, to, bottom, left, right, isCut });
  runs.forEach((run, i) => {
    const y = (top + i * lane) * u;
    put("text", { x: left, y: y + NAME * u, class: "t-soft" }, run.name);
    put("path", { d: `M${left} ${y + lane * u}H${right}`, class: "s-line" });
    for (const [begin, end] of run.interrupts) if (begin <= to) put("rect", { x: x(begin), y: y + (RUPT - 3) * u, width: Math.max(2, x(end) - x(begin)), height: 6 * u, rx: 3 * u, class: "f-rupt" });
    drawMarks({ svg, u, x, to, list: run.inputs, name: "in", y: y + MARK * u, by: 1 });
    drawMarks({ svg, u, x, to, list: run.outputs.map(([cycles, channel, word], k) => [cycles, `CH ${octal(channel, 3)} ${word} = ${decimalOf(word)}`, k === run.first]), name: "out", y: y + MARK * u, by: -1 });
    if (run.curve.length) drawCurve({ put, u, x, y, run, to, height: (value) => y + (lane - 4) * u - (high === low ? 0.5 : (value - low) / (high - low)) * (lane - CURVE - 4) * u, isOther: i === 0 });
  });
  if (words.length) put("text", { x: right, y: (top + NAME) * u, class: "t-chain", "text-anchor": "end" }, `${cell}: ${group(low)} ${T.toWord} ${group(high)}`.replace(/-/g, "\u2212"));
  flags.forEach((it, i) => {
    const at = x(it.cycles), y = (i * FLAG + 11) * u, isLeft = at > (left + right) / 2;
    put("path", { d: `M${at} ${y - 8 * u}V${bottom}`, class: "s-ink", "stroke-width": 1.4 * u, "stroke-dasharray": [null, `${6 * u} ${3 * u}`, `${1.5 * u} ${3 * u}`][it.kind] });
    put("text", { x: at + (isLeft ? -5 : 5) * u, y, class: "t-ink", "text-anchor": isLeft ? "end" : "start" }, it.text);
  });
  svg.addEventListener("click", (event) => { const at = event.clientX - svg.getBoundingClientRect().left; go(Math.max(0, Math.round(from + ((at - left) / (right - left)) * (to - from)))); });
  return svg;
}
// Inputs, which come in from above, or words, which go out; a ring around the first other one. Of many at one place the first is drawn.
function drawMarks({ svg, u, x, to, list, name, y, by }) {
  let last = -9;
  for (const [cycles, text, isFirst] of list) {
    const at = x(cycles);
    if (cycles > to || (at - last < 2 && !isFirst)) continue;
    last = at;
    svg.append(drawn("path", { d: `M${at - 4 * u} ${y - by * 3.5 * u}h${8 * u}l${-4 * u} ${by * 7 * u}z`, class: `f-${name}` }, drawn("title", {}, text)));
    if (isFirst) svg.append(drawn("circle", { cx: at, cy: y, r: 6.5 * u, class: "s-ink", fill: "none", "stroke-width": 1.4 * u }));
  }
}
function drawScale({ put, u, x, from, to, bottom, left, right, isCut }) {
  const span = to - from, room = (right - left) / (80 * u), least = 10 ** Math.floor(Math.log10(span / room || 1)), size = Math.max(1, [1, 2, 5, 10].map((it) => it * least).find((it) => span / it <= room) || least * 10);
  for (let at = Math.ceil(from / size) * size; at <= to; at += size) {
    put("path", { d: `M${x(at)} 0V${bottom}`, class: "s-hair" });
    if (x(at) < right - 50 * u) put("text", { x: Math.max(x(at), left), y: bottom + 14 * u, class: "t-faint", "text-anchor": x(at) < left + 12 * u ? "start" : "middle" }, group(at));
  }
  put("text", { x: right, y: bottom + 14 * u, class: "t-faint", "text-anchor": "end" }, isCut ? T.bothIdle : T.cyclesWord);
}
function drawCurve({ put, x, run, to, height, u, isOther }) {
  let d = "";
  for (const [cycles, word] of run.curve) if (cycles <= to) d += d ? `H${x(cycles)}V${height(numberOf(word))}` : `M${x(cycles)} ${height(numberOf(word))}`;
  put("path", { d: `${d}H${x(Math.min(run.to, to))}`, fill: "none", class: isOther ? "s-lane3" : "s-chain", "stroke-width": 1.6 * u, "stroke-dasharray": isOther ? `${4 * u} ${2.5 * u}` : null, "stroke-linejoin": "round" });
}
