// What is handed out: the chain as a drawing, and a recorded run as a page that needs no program.
import { drawn } from './dom.js';
import { decimalOf, octal } from './words.js';
import { handout } from './handout.js';
import { T } from './texts.js';

const MOST_RECORDED = 1000;
const escaped = (text) => text.replace(/&/g, "&amp;").replace(/</g, "&lt;").replace(/>/g, "&gt;");

// The chain that is shown, as a file by itself.
export function svgOf(chain) {
  const box = chain.root.querySelector(".chain"), lanes = box?.querySelector("svg");
  if (!box) return null;
  const whole = box.getBoundingClientRect(), width = Math.round(whole.width), copy = lanes.cloneNode(true), css = getComputedStyle(document.documentElement), colour = (name) => css.getPropertyValue(`--${name}`).trim();
  // (the colours of the page go with it)
  lanes.querySelectorAll("*").forEach((it, i) => { const made = copy.querySelectorAll("*")[i], style = getComputedStyle(it); made.setAttribute("fill", style.fill); made.setAttribute("stroke", style.stroke); made.removeAttribute("class"); });
  const svg = drawn("svg", { xmlns: "http://www.w3.org/2000/svg", width: width + 40, height: Math.round(whole.height) + 50, "font-family": "monospace", "font-size": 12 });
  svg.append(drawn("rect", { width: "100%", height: "100%", fill: colour("pane") }), drawn("text", { x: 14, y: 22, fill: colour("ink"), "font-family": "sans-serif", "font-size": 15, "font-weight": 600 }, chain.root.querySelector("h2").textContent));
  const group = drawn("g", { transform: "translate(0 34)" }, ...copy.childNodes);
  for (const it of box.querySelectorAll(".link, .within span, .indexed button")) for (const part of it.matches(".link") ? it.querySelectorAll(".s, .w, .v") : [it]) {
    const at = part.getBoundingClientRect(), style = getComputedStyle(part), isRight = part.matches(".v, .s");
    group.append(drawn("text", { x: Math.round((isRight ? at.right : at.left) - whole.left) + (part.matches(".v") ? 24 : part.matches(".s") ? -10 : 0), y: Math.round(at.top - whole.top + at.height / 2 + 4), fill: style.color, "text-anchor": isRight ? "end" : "start" }, [...part.childNodes].map((it) => it.textContent.trim()).filter(Boolean).join("  ")));
  }
  svg.append(group);
  if (chain.ways.length) svg.append(drawn("text", { x: 14, y: Math.round(whole.height) + 44, fill: colour("way") }, `\u25c6 ${T.wayLegend}`));
  return `<?xml version="1.0" encoding="UTF-8"?>\n${new XMLSerializer().serializeToString(svg)}\n`;
}

const STYLE = `:root{color-scheme:light dark;--ink:light-dark(#1f1d1a,#ebe8e1);--pane:light-dark(#fffefb,#1a1c1f);--soft:light-dark(#67625a,#a8a49b);--line:light-dark(#e5e1d7,#2d3035);--now:light-dark(#b24c00,#ffc35c);--wash:light-dark(#fdf0dc,#292319);--chain:light-dark(#123f8f,#b4ccff)}
*{box-sizing:border-box}body{margin:0;font:14px/1.5 system-ui,sans-serif;color:var(--ink);background:var(--pane);display:grid;grid-template:auto auto minmax(0,1fr) auto/minmax(0,1.2fr) minmax(0,1fr);height:100vh}
header,.time{grid-column:1/3;padding:8px 16px;display:flex;gap:14px;align-items:baseline;border-bottom:1px solid var(--line)}h1{font-size:16px;margin:0}h2{font-size:14px;margin:12px 0 4px}#p{font-size:28px;font-weight:600;color:var(--now)}.soft{color:var(--soft)}
.time{align-items:center}input[type=range]{flex:1;accent-color:var(--now)}button{font:inherit;color:inherit;background:none;border:1px solid var(--line);border-radius:6px;padding:2px 12px;cursor:pointer}:focus-visible{outline:2px solid var(--chain)}
#source,code,#cells,#why button,#steps{font-family:ui-monospace,Menlo,Consolas,"DejaVu Sans Mono",monospace;font-size:13px}#source{overflow:auto;padding:8px 0;white-space:pre}#source div{padding-right:16px}#source i{display:inline-block;width:46px;text-align:right;padding-right:10px;color:var(--soft);font-style:normal;font-size:11px}#source .now{background:var(--wash);box-shadow:inset 3px 0 var(--now)}
.side{overflow:auto;padding:8px 16px;border-left:1px solid var(--line)}#cells{display:grid}#cells button,#why button{display:grid;grid-template-columns:110px 1fr auto;width:100%;text-align:left;border:0;border-radius:0;padding:1px 8px}#why button{grid-template-columns:56px 1fr auto}#cells .changed{color:var(--now);background:var(--wash)}[aria-pressed=true]{box-shadow:inset 3px 0 var(--chain)}
table{grid-column:1/3;border-top:1px solid var(--line);border-collapse:collapse;width:100%}td{padding:0 12px;cursor:pointer}.at{background:var(--wash);font-weight:600}.later{color:var(--soft)}
@media(max-width:700px){body{display:block;height:auto}#source{max-height:50vh}.side{border:0}}@media print{body{display:block;height:auto}.time,table{display:none}}`;

export async function handoutOf({ session, names, name, source, cell, why, picture, say }) {
  if (session.n > MOST_RECORDED) say(T.handoutSteps(MOST_RECORDED));
  const recorded = await session.record(MOST_RECORDED), kinds = [], known = new Map(), rope = new Set(), counts = {}, written = new Set();
  const steps = recorded.map((it) => {
    const kind = [it.place, it.word, it.text, it.line], key = kind.join("|");
    if (!known.has(key)) { known.set(key, kinds.length); kinds.push(kind); }
    if (it.line) counts[it.line] = (counts[it.line] || 0) + 1;
    const pairs = it.written.map(([one, word], i) => [names.of(one), word, (it.reads[i] || []).map((read) => { const told = names.of(read); if (names.isRope(read)) rope.add(told); return told; })]);
    for (const [one] of pairs) written.add(one);
    return [known.get(key), it.cycles, pairs, ...(it.output ? [`CH ${octal(it.output.channel, 3)} ${it.output.word} (${decimalOf(it.output.word)})`] : [])];
  });
  const cells = ["A", "L", "Q", ...new Set([...names.erasable.map((it) => it.name).filter((it) => written.has(it)), ...[...written].filter((it) => !["A", "L", "Q", "EB", "FB", "BB", "Z"].includes(it))])].slice(0, 60);
  const run = { lines: source.slice(0, 4000), kinds, steps, cells, counts, rope: [...rope], position: picture.p, why: why && cells.includes(why) ? why : cells.includes(cell) && why ? cell : null };
  const script = `(${handout.toString()})(JSON.parse(document.getElementById("run").textContent));`;
  let allowed = "'unsafe-inline'";
  if (crypto.subtle) allowed = `'sha256-${btoa(String.fromCharCode(...new Uint8Array(await crypto.subtle.digest("SHA-256", new TextEncoder().encode(script)))))}'`;
  return `<!doctype html>
<html lang="en"><head><meta charset="utf-8"><meta name="viewport" content="width=device-width, initial-scale=1">
<meta http-equiv="Content-Security-Policy" content="default-src 'none'; script-src ${allowed}; style-src 'unsafe-inline'">
<title>${escaped(name)}</title><style>${STYLE}</style></head><body>
<header><h1>${escaped(name)}</h1><span class="soft">step</span><span id="p"></span><span class="soft">of <span id="n"></span> · cycle <span id="cycles"></span></span><span class="soft" id="did"></span><span class="soft">next <code id="next"></code></span></header>
<div class="time"><button id="first" aria-label="start">|◀</button><button id="back" aria-label="a step back">◀</button><input id="line" type="range" min="0" aria-label="step"><button id="on" aria-label="a step on">▶</button><button id="last" aria-label="end">▶|</button></div>
<div id="source" tabindex="0" role="region" aria-label="source"></div><div class="side"><div id="cells"></div><div id="why"></div></div><table><tbody id="steps"></tbody></table>
<script type="application/json" id="run">${JSON.stringify(run).replace(/</g, "\\u003c")}</script>
<script>${script}</script></body></html>
`;
}
