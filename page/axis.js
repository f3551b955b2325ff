// The line of time: steps from left to right; interrupts, inputs and words put out above the words of a cell; and where the run stands.
import { unit } from './dom.js';
import { decimalOf, group, numberOf, octal, timeOf } from './words.js';
import { T } from './texts.js';

// Heights, in tenths of a rem: the marks of interrupts, inputs, words put out; where the curve begins.
const RUPT = 7, IN = 17.5, OUT = 28.5, TOP = 40, FOOT = 20;
// The part of the line that a long idling at the end has.
const FOLDED = 0.1;

export class Axis {
  constructor(root, heard) {
    Object.assign(this, { root, heard, canvas: root.querySelector("canvas"), tip: root.querySelector(".tip"), whole: root.parentNode.querySelector(".chip"), n: 0, p: 0, window: null, survey: null, chain: [], notes: [], hover: null, ghost: null });
    new ResizeObserver(() => this.draw()).observe(root);
    root.addEventListener("pointerdown", (event) => { root.setPointerCapture(event.pointerId); root.focus({ preventScroll: true }); this.isDragged = true; this.seek(event); });
    root.addEventListener("pointermove", (event) => { this.point(event); if (this.isDragged) this.seek(event); });
    for (const name of ["pointerup", "pointercancel"]) root.addEventListener(name, () => { this.isDragged = false; });
    root.addEventListener("pointerleave", () => { this.hover = null; this.tip.hidden = true; this.draw(); });
    root.addEventListener("wheel", (event) => this.zoom(event), { passive: false });
    root.addEventListener("dblclick", () => this.show(null));
    root.addEventListener("keydown", (event) => {
      if (event.key === "+" || event.key === "=") this.closer(0.5);
      else if (event.key === "-") this.closer(2);
      else if (event.key === "0") this.show(null);
      else return;
      event.preventDefault(); event.stopPropagation();
    });
    this.whole.addEventListener("click", () => this.show(null));
  }
  get from() { return this.window ? this.window[0] : 0; }
  get to() { return this.window ? Math.min(this.window[1], Math.max(this.n, 1)) : Math.max(this.n, 1); }
  get left() { return 10 * unit(); }
  get right() { return this.root.clientWidth - 48 * unit(); }
  // Where the run idles at its end for most of its steps, these have a tenth of the line: up to which step it is drawn in full, or null.
  get fold() {
    const { survey, n } = this;
    if (this.window || !survey || survey.kind !== "exact" || survey.from !== 0 || survey.to !== n || survey.idle === undefined || n < 30) return null;
    const most = Math.max(12, Math.ceil(survey.idle * 1.06) + 2);
    return most < n * 0.6 ? most : null;
  }
  x(step) {
    const { left, right, fold } = this, bend = right - (right - left) * FOLDED;
    if (fold !== null) return step <= fold ? left + (step / fold) * (bend - left) : bend + ((step - fold) / (this.n - fold)) * (right - bend);
    return left + ((step - this.from) / Math.max(1, this.to - this.from)) * (right - left);
  }
  step(x) {
    const { left, right, fold } = this, bend = right - (right - left) * FOLDED;
    const at = fold === null ? this.from + ((x - left) / (right - left)) * (this.to - this.from) : x <= bend ? ((x - left) / (bend - left)) * fold : fold + ((x - bend) / (right - bend)) * (this.n - fold);
    return Math.max(0, Math.min(this.n, Math.round(at)));
  }
  spot(event) { const box = this.root.getBoundingClientRect(); return { x: event.clientX - box.left, y: event.clientY - box.top }; }
  seek(event) {
    const { x, y } = this.spot(event), mark = event.type === "pointerdown" ? this.near(x, y) : null;
    // (of many steps at once, a mark is looked at closer)
    if (mark?.window) this.show([mark.window[0] - (mark.window[1] - mark.window[0]), mark.window[1] + (mark.window[1] - mark.window[0])]);
    this.heard.seek(mark ? mark.step : this.step(x));
    // (a finger sees no tip)
    if (mark?.isNote || (mark && event.pointerType === "touch")) this.heard.told(`${T.step(group(mark.step))}: ${mark.text}`);
  }
  show(window) {
    if (window) {
      const size = Math.max(12, Math.min(this.n, Math.round(window[1] - window[0]))), first = Math.max(0, Math.min(this.n - size, Math.round(window[0])));
      window = size >= this.n ? null : [first, first + size];
    }
    this.window = window;
    this.whole.hidden = !window;
    this.draw();
    this.heard.windowed();
  }
  closer(factor, at = this.p) { const end = Math.max(this.fold ?? this.to, at); if (this.n > 20) this.show([at - (at - this.from) * factor, at + (end - at) * factor]); }
  zoom(event) {
    if (this.n < 20) return;
    event.preventDefault();
    const span = this.to - this.from;
    if (event.shiftKey || Math.abs(event.deltaX) > Math.abs(event.deltaY)) {
      const by = ((event.deltaX || event.deltaY) / (this.right - this.left)) * span;
      if (this.window) this.show([this.from + by, this.to + by]);
      return;
    }
    this.closer(Math.exp(Math.max(-60, Math.min(60, event.deltaY)) * 0.006), this.step(this.spot(event).x));
  }
  // Follows the position where it leaves the window.
  follow() {
    if (!this.window) return;
    const span = this.to - this.from;
    if (this.p < this.from || this.p > this.to) this.show([this.p - span / 2, this.p + span / 2]);
  }
  stand(p, n) {
    Object.assign(this, { p, n });
    this.root.setAttribute("aria-valuemax", n);
    this.root.setAttribute("aria-valuenow", p);
    this.root.setAttribute("aria-valuetext", T.stepOf(group(p), group(n)));
    this.draw();
  }
  near(x, y) {
    if (!this.survey) return null;
    const u = unit(), base = this.root.clientHeight - FOOT * u;
    const marks = [
      ...this.survey.inputs.map(([step, text, count, window]) => ({ step, y: IN * u, text: text ?? T.inputsIn(group(count)), window })),
      ...this.survey.interrupts.map(([step, , text, count, window]) => ({ step, y: RUPT * u, text: text ?? T.entriesIn(group(count)), window })),
      ...this.survey.outputs.map(([step, channel, word, count, window]) => ({ step, y: OUT * u, text: word === null ? T.wordsIn(group(count)) : `CH ${octal(channel, 3)} ${word} = ${decimalOf(word)}`, window })),
      ...this.chain.map((it) => ({ step: it.t, y: base, text: it.text })),
      ...this.notes.map((it) => ({ step: it.step, y: base - 9 * u, text: `${T.noteKinds[it.kind] || it.kind} ${it.text}`.trim(), isNote: true })),
    ];
    let best = null, least = 7 * u;
    for (const it of marks) {
      const away = Math.abs(this.x(it.step) - x) + Math.abs(it.y - y) * 0.16;
      if (away < least) [best, least] = [it, away];
    }
    return best;
  }
  point(event) {
    const { x, y } = this.spot(event), u = unit();
    this.hover = x;
    const mark = this.near(x, y), step = mark ? mark.step : this.step(x), word = this.wordAt(step), cycles = this.cyclesAt(step);
    this.tip.textContent = [T.step(group(step)), mark?.text, word != null && this.survey?.cell ? `${this.survey.cell} ${word} = ${decimalOf(word)}` : null, cycles != null ? timeOf(cycles) : null].filter(Boolean).join("  ·  ");
    this.tip.hidden = this.n === 0;
    const half = this.tip.offsetWidth / 2 + 4;
    this.tip.style.left = `${Math.max(half, Math.min(this.root.clientWidth - half, x))}px`;
    this.tip.style.top = y < 44 * u ? "4.2rem" : ".4rem";
    this.draw();
  }
  wordAt(step) {
    const curve = this.survey?.curve || [];
    let low = 0, high = curve.length;
    while (low < high) { const middle = (low + high) >> 1; if (curve[middle][0] <= step) low = middle + 1; else high = middle; }
    return low ? curve[low - 1][1] : null;
  }
  cyclesAt(step) {
    const known = this.survey?.cycles || [];
    if (!known.length || step < this.survey.from) return null;
    let low = 0, high = known.length;
    while (low < high) { const middle = (low + high) >> 1; if (known[middle][0] < step) low = middle + 1; else high = middle; }
    if (low === known.length) return null;
    const [s1, c1] = known[low], [s0, c0] = low ? known[low - 1] : [this.survey.from, this.survey.from ? c1 : 0];
    return s1 === s0 ? c1 : Math.round(c0 + ((c1 - c0) * (step - s0)) / (s1 - s0));
  }
  draw() {
    if (this.frame) return;
    this.frame = requestAnimationFrame(() => { this.frame = 0; this.paint(); });
  }
  paint(canvas = this.canvas, ratio = devicePixelRatio || 1) {
    const { root } = this, width = root.clientWidth, height = root.clientHeight;
    if (!width || !height) return;
    const wide = Math.round(width * ratio), high = Math.round(height * ratio);
    if (canvas.width !== wide || canvas.height !== high) { canvas.width = wide; canvas.height = high; }
    const c = canvas.getContext("2d"), css = getComputedStyle(document.documentElement), colour = (name) => css.getPropertyValue(`--${name}`).trim(), u = unit();
    const font = (size, weight = "") => { c.font = `${weight} ${size * u}px ${css.getPropertyValue("--ui")}`; };
    c.setTransform(ratio, 0, 0, ratio, 0, 0);
    c.clearRect(0, 0, width, height);
    const { left, right, survey } = this, bottom = height - FOOT * u, pen = { c, colour, u, font, bottom };
    this.y = null;
    this.paintAxis(pen, height);
    if (survey) this.paintSurvey(pen, survey);
    if (this.n === 0) { c.fillStyle = colour("soft"); c.textAlign = "left"; font(13); c.fillText(T.noSteps, left + 14 * u, height / 2, right - left - 20 * u); }
    c.fillStyle = colour("odd");
    for (const it of this.notes) { const x = this.x(it.step); if (x >= left - 2 && x <= right + 2) { c.beginPath(); c.moveTo(x, bottom - 13 * u); c.lineTo(x + 4 * u, bottom - 9 * u); c.lineTo(x, bottom - 5 * u); c.lineTo(x - 4 * u, bottom - 9 * u); c.closePath(); c.fill(); } }
    for (const it of this.chain) {
      const x = this.x(it.t);
      if (x < left - 2 || x > right + 2) continue;
      c.fillStyle = colour(it.isWay ? "way" : "chain"); c.beginPath();
      if (it.isWay) { c.moveTo(x, bottom - 5 * u); c.lineTo(x + 4.5 * u, bottom); c.lineTo(x, bottom + 5 * u); c.lineTo(x - 4.5 * u, bottom); c.closePath(); } else c.arc(x, bottom, 3.2 * u, 0, 7);
      c.fill();
    }
    if (this.pointed != null) {
      const x = this.x(this.pointed);
      c.strokeStyle = colour("chain"); c.lineWidth = 2; c.beginPath(); c.arc(x, bottom, 6 * u, 0, 7); c.stroke(); c.lineWidth = 1;
      c.globalAlpha = 0.5; c.beginPath(); c.moveTo(x, 2); c.lineTo(x, bottom - 6 * u); c.stroke(); c.globalAlpha = 1;
    }
    this.paintPosition(pen, height);
  }
  paintAxis({ c, colour, u, font, bottom }, height) {
    const { left, right, fold } = this, end = fold ?? this.to, span = Math.max(1, end - this.from), room = (this.x(end) - left) / (92 * u), pin = this.x(this.p);
    let size = 10 ** Math.floor(Math.log10(span / room || 1));
    size = Math.max(1, [1, 2, 5, 10].map((it) => it * size).find((it) => span / it <= room) || size);
    font(11); c.textAlign = "center"; c.textBaseline = "alphabetic";
    if (fold !== null) {
      const bend = this.x(fold);
      c.save(); c.beginPath(); c.rect(bend, 2, right - bend, bottom - 2); c.clip();
      c.strokeStyle = colour("line"); c.beginPath();
      for (let x = bend - bottom; x < right; x += 7 * u) { c.moveTo(x, bottom); c.lineTo(x + bottom, 0); }
      c.stroke(); c.restore();
      c.fillStyle = colour("faint");
      if (Math.abs((bend + right) / 2 - pin) > c.measureText(T.idles).width / 2 + 8 * u) c.fillText(T.idles, (bend + right) / 2, height - 6 * u);
    }
    for (let at = Math.ceil(this.from / size) * size; at <= end; at += size) {
      const x = Math.round(this.x(at)) + 0.5, isBelowPin = Math.abs(x - pin) < (c.measureText(group(at)).width / 2 + 8 * u);
      c.strokeStyle = colour("hair"); c.beginPath(); c.moveTo(x, 2); c.lineTo(x, bottom); c.stroke();
      c.fillStyle = colour("faint");
      if (!isBelowPin && ((x > left + 12 && x < right - 8) || at === 0)) c.fillText(group(at), Math.max(left + 4, x), height - 6 * u);
    }
    c.strokeStyle = colour("line"); c.beginPath(); c.moveTo(left, Math.round(bottom) + 0.5); c.lineTo(right, Math.round(bottom) + 0.5); c.stroke();
  }
  paintPosition({ c, colour, u, font, bottom }, height) {
    // What lies ahead is paler.
    const { left, right, survey } = this, x = this.x(this.p);
    c.globalAlpha = 0.6; c.fillStyle = colour("pane");
    if (x < right && this.n) c.fillRect(Math.max(left, x), 0, right - Math.max(left, x) + 4, bottom + 4 * u);
    c.globalAlpha = 1;
    if (this.hover != null && !this.isDragged && this.n) { const at = Math.max(left, Math.min(right, this.hover)); c.strokeStyle = colour("faint"); c.setLineDash([2, 3]); c.beginPath(); c.moveTo(at + 0.5, 0); c.lineTo(at + 0.5, bottom); c.stroke(); c.setLineDash([]); }
    if (x < left - 1 || x > right + 1) return;
    c.strokeStyle = colour("now"); c.lineWidth = 1.5 * u; c.beginPath(); c.moveTo(x, 2); c.lineTo(x, bottom + 5 * u); c.stroke(); c.lineWidth = 1;
    const word = survey?.cell ? this.heard.wordOf?.(survey.cell) ?? this.wordAt(this.p) : null;
    if (word != null && this.y && this.n) {
      const text = decimalOf(word), at = this.y(numberOf(word)), isLeft = x > right - 60 * u;
      font(12, "600"); c.textAlign = isLeft ? "right" : "left";
      c.lineWidth = 3; c.lineJoin = "round"; c.strokeStyle = colour("pane"); c.strokeText(text, x + (isLeft ? -8 : 8) * u, at - 4 * u); c.fillStyle = colour("chain"); c.fillText(text, x + (isLeft ? -8 : 8) * u, at - 4 * u);
      c.lineWidth = 1.5; c.beginPath(); c.arc(x, at, 3.4 * u, 0, 7); c.fill(); c.stroke(); c.lineWidth = 1;
    }
    c.fillStyle = colour("now"); c.beginPath(); c.moveTo(x - 6 * u, height - 2 * u); c.lineTo(x + 6 * u, height - 2 * u); c.lineTo(x + 6 * u, height - 10 * u); c.lineTo(x, bottom + 3 * u); c.lineTo(x - 6 * u, height - 10 * u); c.closePath(); c.fill();
  }
  paintSurvey({ c, colour, u, font, bottom }, survey) {
    const { left, right } = this, inside = (x) => x >= left - 8 && x <= right + 8;
    c.save(); c.beginPath(); c.rect(left - 6, 0, right - left + 12, bottom + 6 * u); c.clip();
    for (const [from, to] of survey.interrupts) {
      const x = this.x(from - 1), end = Math.max(x + 2, this.x(to));
      if (end < left || x > right) continue;
      c.fillStyle = colour("rupt"); c.beginPath(); c.roundRect(x, (RUPT - 3) * u, end - x, 6 * u, Math.min(3 * u, (end - x) / 2)); c.fill();
      if (end - x > 1.5) { c.globalAlpha = 0.09; c.fillRect(x, (RUPT - 3) * u, end - x, bottom - (RUPT - 3) * u); c.globalAlpha = 1; }
    }
    // (where many stand side by side they are strokes)
    const marks = (list, name, base, tip) => {
      const seen = list.map(([step]) => this.x(step)).filter(inside), isDense = seen.length > (right - left) / (10 * u);
      c.fillStyle = colour(name);
      let before = -9;
      for (const x of seen) {
        if (isDense) { if (x - before >= 2.5) { c.fillRect(Math.round(x), Math.min(base, tip), 1, 7 * u); before = x; } continue; }
        c.beginPath(); c.moveTo(x - 4 * u, base); c.lineTo(x + 4 * u, base); c.lineTo(x, tip); c.closePath(); c.fill();
      }
    };
    marks(survey.inputs, "in", (IN - 3.5) * u, (IN + 3.5) * u);
    marks(survey.outputs, "out", (OUT + 3.5) * u, (OUT - 3.5) * u);
    this.paintCurve({ c, colour, u, font, bottom }, survey);
    c.restore();
    font(9.5); c.textAlign = "left";
    for (const [text, name, y] of [[T.rupt, "rupt", RUPT + 3], [T.in, "in", IN + 3], [T.out, "out", OUT + 3.5]]) { c.fillStyle = colour(name); c.fillText(text, right + 6 * u, y * u); }
    if (!this.range) return;
    font(10.5);
    c.fillStyle = colour("chain");
    const [least, most] = this.range, say = (number) => group(number).replace("-", "\u2212");
    c.fillText(say(most), right + 6 * u, this.y(most) + 4 * u, 40 * u);
    if (least !== most && this.y(least) - this.y(most) > 11 * u) c.fillText(say(least), right + 6 * u, this.y(least) + 3 * u, 40 * u);
  }
  paintCurve({ c, colour, u, font, bottom }, survey) {
    const { left, right } = this, numbers = (list) => list.map(([step, word]) => [step, numberOf(word)]).filter((it) => it[1] != null), points = numbers(survey.curve);
    const bands = (survey.bands || []).map(([from, to, least, most]) => [from, to, numberOf(least), numberOf(most)]);
    this.range = null;
    if (!points.length) return;
    // What it was before the last edit stays to be compared.
    const ghost = this.ghost?.cell === survey.cell && !this.window ? numbers(this.ghost.curve) : [];
    let low = Infinity, high = -Infinity;
    for (const [, value] of [...points, ...ghost]) { low = Math.min(low, value); high = Math.max(high, value); }
    for (const [, , least, most] of bands) { low = Math.min(low, least); high = Math.max(high, most); }
    this.range = [low, high];
    if (low === high) { low -= 1; high += 1; }
    const y = this.y = (value) => bottom - 6 * u - ((value - low) / (high - low)) * (bottom - TOP * u - 14 * u);
    if (low < 0 && high > 0) { c.strokeStyle = colour("line"); c.beginPath(); c.moveTo(left, Math.round(y(0)) + 0.5); c.lineTo(right, Math.round(y(0)) + 0.5); c.stroke(); }
    const trace = (list, until) => {
      c.beginPath();
      list.forEach(([step, value], i) => { const x = this.x(step); if (i) c.lineTo(x, y(list[i - 1][1])); c.lineTo(x, y(value)); });
      c.lineTo(this.x(until), y(list[list.length - 1][1]));
    };
    if (ghost.length) {
      const last = ghost[ghost.length - 1][1], end = this.x(Math.min(this.ghost.to, this.to));
      trace(ghost, Math.min(this.ghost.to, this.to));
      c.strokeStyle = colour("soft"); c.setLineDash([3, 3]); c.lineWidth = 1.2; c.stroke(); c.setLineDash([]); c.lineWidth = 1;
      if (Math.abs(y(last) - y(points[points.length - 1][1])) > 6 * u) { c.fillStyle = colour("soft"); c.textAlign = "right"; font(11); c.fillText(T.beforeEdit(group(last).replace("-", "\u2212")), end - 52 * u, y(last) + (y(last) < bottom - 30 * u ? 13 : -4) * u); }
    }
    const until = Math.min(survey.soFar || survey.to, this.to);
    // (where a word has gone up and down within a part, all that it was)
    c.globalAlpha = 0.28; c.fillStyle = colour("chain");
    for (const [from, to, least, most] of bands) { const x = this.x(from); c.fillRect(x, y(most) - 0.5, Math.max(1, this.x(to) - x), Math.max(1, y(least) - y(most) + 1)); }
    c.globalAlpha = 1;
    trace(points, until);
    c.strokeStyle = colour("chain"); c.lineWidth = 1.5 * u; c.lineJoin = "round"; c.stroke(); c.lineWidth = 1;
    const base = low < 0 && high > 0 ? y(0) : bottom;
    c.lineTo(this.x(until), base); c.lineTo(this.x(points[0][0]), base); c.closePath();
    c.globalAlpha = 0.09; c.fillStyle = colour("chain"); c.fill(); c.globalAlpha = 1;
  }
  // A picture of it, for a page or a paper.
  picture() {
    const canvas = document.createElement("canvas"), { hover } = this;
    this.hover = null;
    this.paint(canvas, 2);
    this.hover = hover;
    const under = document.createElement("canvas"), c = under.getContext("2d");
    under.width = canvas.width; under.height = canvas.height;
    c.fillStyle = getComputedStyle(document.documentElement).getPropertyValue("--pane");
    c.fillRect(0, 0, under.width, under.height);
    c.drawImage(canvas, 0, 0);
    return under;
  }
}
