// A text with numbers, marks and colours: the rows that are seen are drawn, and a text area above them takes what is typed.
// Of a long text the area holds a window of some hundred lines around those that are seen.
import { el, unit } from './dom.js';
import { group, short } from './words.js';
import { T } from './texts.js';

const DIRECTIVES = new Set("SETLOC BANK BLOCK ERASE EQUALS = OCT OCTAL DEC 2OCT 2DEC 2DEC* DEC* CADR FCADR ECADR 2CADR GENADR ADRES EBANK= BNKSUM BBCON REMADR COUNT COUNT* SBANK= EVERY CHAN RUPT MEMORY CHECK= 2BCADR 2FCADR EQUALS SUBRO DNCHAN DNPTR".split(" "));
const TESTS = new Set("test steps in out mem notes none SOURCE FEED STEPS UNTIL IDLE TEST CHANNEL AT END ALWAYS NEVER WITHIN CYCLES THEN NOTHING".split(" "));
const ROW = 20, LONG = 3000, AROUND = 400, MOST_COLOURED = 400;

// The parts of a line, each with its kind.
function partsOf(text, kind) {
  const parts = [], hash = text.indexOf("#"), code = hash < 0 ? text : text.slice(0, hash);
  let field = kind === "source" && /^\S/.test(code) ? 0 : 1;
  for (const [word] of code.matchAll(/\s+|\S+/g)) {
    if (/^\s/.test(word)) { parts.push(["", word]); continue; }
    let name = "";
    // (the name of a test is no word of its form)
    if (kind === "tests" && field > 1 && /^\s*TEST\b/i.test(code)) name = "";
    else if (kind !== "source") name = /^[-+]?\d+D?$/.test(word) ? "num" : DIRECTIVES.has(word) || TESTS.has(word) ? "dir" : "op";
    else if (field === 0) name = "label";
    else if (field === 1) name = DIRECTIVES.has(word) ? "dir" : "op";
    else if (/^[+-]?[\d.]+[DB]?$/.test(word)) name = "num";
    parts.push([name, word]);
    field += 1;
  }
  if (hash >= 0) parts.push(["note", text.slice(hash)]);
  return parts;
}

export class Editor {
  constructor(root, kind, heard) {
    Object.assign(this, { root, kind, heard, lines: [""], base: null, first: 0, size: 1, faults: new Map(), notes: new Map(), breaks: new Set(), counts: new Map(), most: 1, links: new Map(), places: new Map(), now: 0, pointed: 0, rows: new Map() });
    this.inside = el("div", { class: "in" });
    this.drawn = el("div", { "aria-hidden": "true" });
    this.area = el("textarea", { spellcheck: "false", autocapitalize: "off", autocomplete: "off", wrap: "off", "aria-label": T.files[kind], "aria-description": T.leaveEditor, placeholder: T.emptyFiles[kind] || null });
    this.inside.append(this.drawn, this.area);
    root.append(this.inside);
    this.area.addEventListener("input", () => this.typed());
    this.area.addEventListener("keydown", (event) => this.key(event));
    this.area.addEventListener("click", (event) => { if (event.ctrlKey || event.metaKey) heard.word?.(this.wordAt(this.area.selectionStart)); });
    // (beside the text and below it, too)
    root.addEventListener("mousedown", (event) => { if (event.button === 0 && event.target !== this.area && !event.target.closest(".g, .told, button")) { event.preventDefault(); this.area.focus({ preventScroll: true }); } });
    this.area.addEventListener("mousemove", (event) => this.hover(event));
    this.area.addEventListener("mouseleave", () => heard.hover?.(null));
    root.addEventListener("scroll", () => { this.shift(); this.draw(); heard.hover?.(null); }, { passive: true });
    root.addEventListener("click", (event) => {
      const gutter = event.target.closest(".g"), told = event.target.closest(".told");
      if (gutter) heard.line?.(this.builtLine(Number(gutter.parentNode.dataset.line)));
      else if (told) heard.fault?.(this.faults.get(Number(told.parentNode.dataset.line))?.[0], told);
    });
    // (a fault is told of where the pointer rests on it, and a line has a menu beside it)
    root.addEventListener("mouseover", (event) => { const told = event.target.closest(".told:not(.note)"); if (told) heard.about?.(this.faults.get(Number(told.parentNode.dataset.line))?.[0], told); });
    root.addEventListener("mouseout", (event) => { if (event.target.closest(".told")) heard.hover?.(null); });
    root.addEventListener("contextmenu", (event) => { const gutter = event.target.closest(".g"); if (gutter) heard.context?.(event, this.builtLine(Number(gutter.parentNode.dataset.line))); });
    new ResizeObserver(() => this.measure()).observe(root);
  }
  get rowHeight() { return ROW * unit(); }
  get isLong() { return this.lines.length > LONG; }
  get text() { return this.lines.join("\n"); }
  set text(value) {
    this.lines = value.split("\n");
    Object.assign(this, { first: 0, size: 0 });
    this.area.value = "";
    this.fill();
    this.longest = this.lines.reduce((most, it) => Math.max(most, it.length), 20);
    this.compare();
    this.measure();
    this.root.scrollTop = 0;
  }
  // Puts the window's lines into the area; the caret stays where it stood, or goes to a line that is seen.
  fill(seen = 0) {
    const line = this.caretLine() - 1, column = this.area.selectionStart - (this.area.value.lastIndexOf("\n", this.area.selectionStart - 1) + 1);
    this.first = this.isLong ? Math.max(0, Math.min(this.lines.length - 2 * AROUND, seen - AROUND)) : 0;
    this.size = this.isLong ? Math.min(this.lines.length - this.first, 2 * AROUND) : this.lines.length;
    const part = this.lines.slice(this.first, this.first + this.size), at = line >= this.first && line < this.first + this.size ? line : seen, before = part.slice(0, at - this.first).reduce((sum, it) => sum + it.length + 1, 0);
    this.area.value = part.join("\n");
    this.area.setSelectionRange(before + (at === line ? column : 0), before + (at === line ? column : 0));
  }
  // The window follows what is seen.
  shift() {
    if (!this.first && this.size >= this.lines.length) return;
    const top = Math.floor(this.root.scrollTop / this.rowHeight), seen = Math.ceil(this.root.clientHeight / this.rowHeight);
    if ((top >= this.first || !this.first) && (top + seen <= this.first + this.size || this.first + this.size >= this.lines.length)) return;
    this.fill(top);
    this.place();
  }
  typed() {
    const part = this.area.value.split("\n");
    this.lines = [...this.lines.slice(0, this.first), ...part, ...this.lines.slice(this.first + this.size)];
    this.size = part.length;
    for (const it of part) if (it.length > this.longest) this.longest = it.length;
    this.compare();
    this.measure();
    this.heard.edited?.();
  }
  key(event) {
    const { area } = this, at = area.selectionStart, begin = area.value.lastIndexOf("\n", at - 1) + 1, insert = (text) => document.execCommand("insertText", false, text);
    if (event.key === "Tab" && !event.shiftKey && !event.ctrlKey && !event.altKey) { event.preventDefault(); insert(" ".repeat(8 - ((at - begin) % 8))); }
    else if (event.key === "Enter" && !event.ctrlKey && !event.metaKey) {
      event.preventDefault();
      const line = area.value.slice(begin, at), indent = this.kind === "source" && line.trim() && !line.trim().startsWith("#") ? /^\s*/.exec(line)[0] || "        " : "";
      insert(`\n${indent}`);
    } else if (event.key === "Backspace" && at === area.selectionEnd && !event.ctrlKey && !event.altKey && at - begin > 1 && !area.value.slice(begin, at).trim()) {
      event.preventDefault();
      area.setSelectionRange(begin + Math.floor((at - begin - 1) / 8) * 8, at);
      document.execCommand("delete");
    } else if (event.key === "Escape") {
      // (Tab then goes on, and not into the text again)
      event.stopPropagation();
      area.tabIndex = -1;
      this.root.focus();
      this.root.addEventListener("blur", () => { area.tabIndex = 0; }, { once: true });
    }
  }
  wordAt(at) {
    const text = this.area.value, from = text.slice(0, at).search(/\S*$/);
    return text.slice(from, at + /^\S*/.exec(text.slice(at))[0].length);
  }
  // The word below the pointer, with its field.
  hover(event) {
    if (!this.heard.hover) return;
    const box = this.area.getBoundingClientRect(), line = this.first + Math.floor((event.clientY - box.top) / this.rowHeight), text = this.lines[line] ?? "", column = Math.floor((event.clientX - box.left) / this.charWidth);
    let at = 0;
    for (const [kind, word] of partsOf(text.slice(0, MOST_COLOURED), this.kind)) {
      if (column >= at && column < at + word.length && kind !== "note" && word.trim()) return this.heard.hover({ word, kind, line: line + 1, x: box.left + at * this.charWidth, y: box.top + (line - this.first + 1) * this.rowHeight });
      at += word.length;
    }
    return this.heard.hover(null);
  }
  caretLine() { return this.first + this.area.value.slice(0, this.area.selectionStart).split("\n").length; }
  // What stands beside lines is of the source as it was built: lines above and below what was edited since keep it.
  built() { this.base = this.lines.slice(); this.compare(); }
  get isBuilt() { return Boolean(this.base) && this.head === this.lines.length && this.base.length === this.lines.length; }
  compare() {
    const base = this.base || this.lines, { lines } = this, least = Math.min(base.length, lines.length);
    let head = 0, tail = 0;
    while (head < least && base[head] === lines[head]) head += 1;
    while (tail < least - head && base[base.length - 1 - tail] === lines[lines.length - 1 - tail]) tail += 1;
    Object.assign(this, { head, tail, more: lines.length - base.length });
  }
  builtLine(line) { return line <= this.head ? line : line > this.lines.length - this.tail ? line - this.more : 0; }
  shownLine(line) { return line <= this.head ? line : line > this.lines.length - this.more - this.tail ? line + this.more : 0; }
  measure() {
    if (!this.root.clientHeight) return;
    this.charWidth ||= this.charOf();
    const style = getComputedStyle(this.root), gutter = parseFloat(style.getPropertyValue("--gutter-size")) * unit() * 10;
    this.gutter = gutter;
    this.inside.style.height = `${(this.lines.length + 3) * this.rowHeight}px`;
    this.area.style.width = `max(calc(100% - ${gutter + 10}px), ${this.longest + 4}ch)`;
    this.inside.style.width = `max(100%, calc(${gutter + 14}px + ${this.longest + 4}ch))`;
    this.place();
    this.drawAll();
  }
  charOf() {
    const probe = el("span", { class: "t probe" }, "0".repeat(100));
    this.inside.append(probe);
    const width = probe.getBoundingClientRect().width / 100;
    probe.remove();
    return width;
  }
  scaled() { this.charWidth = 0; this.measure(); }
  place() {
    this.area.style.top = `${this.first * this.rowHeight}px`;
    const isLast = this.first + this.size >= this.lines.length;
    this.area.style.height = `${Math.max((this.size + 1) * this.rowHeight, isLast ? this.root.clientHeight - this.first * this.rowHeight : 0)}px`;
  }
  drawAll() { this.rows.clear(); this.drawn.replaceChildren(); this.draw(); }
  draw() {
    const high = this.rowHeight, first = Math.max(0, Math.floor(this.root.scrollTop / high) - 4), last = Math.min(this.lines.length, Math.ceil((this.root.scrollTop + this.root.clientHeight) / high) + 4), fresh = [];
    for (const [i, row] of this.rows) if (i < first || i >= last) { row.remove(); this.rows.delete(i); }
    for (let i = first; i < last; i += 1) if (!this.rows.has(i)) { const row = this.row(i); this.rows.set(i, row); fresh.push(row); }
    this.drawn.append(...fresh);
  }
  row(i) {
    const line = i + 1, built = this.builtLine(line) || -1, faults = this.faults.get(line) || [], notes = (!faults.length && this.notes.get(built)) || [];
    const row = el("div", { class: ["r", built === this.now && "is-now", built === this.pointed && "is-pointed", this.breaks.has(built) && "break", this.links.has(built) && "in-chain"].filter(Boolean).join(" "), "data-line": line });
    row.style.top = `${i * this.rowHeight}px`;
    row.append(this.gutterOf(line, built), this.code(i, faults));
    const ghost = built === this.now && !faults.length && this.heard.ghost?.(this.lines[i]);
    if (ghost) row.append(el("span", { class: "ghost" }, ghost));
    if (faults.length) row.append(el("span", { class: `told ${faults[0].kind}`, title: this.heard.about ? null : faults[0].text }, `${faults[0].number} ${faults[0].text}`, faults[0].cure ? el("i", {}, faults[0].cure) : ""));
    for (const note of notes.slice(0, 2)) row.append(el("button", { class: "told warning note", tabindex: -1, title: T.noteTitle, onclick: (event) => { event.stopPropagation(); this.heard.note?.(note); } }, T.noteKinds[note.kind] || note.kind, note.times > 1 ? el("i", {}, `${group(note.times)}×`) : ""));
    return row;
  }
  gutterOf(line, built) {
    const gutter = el("div", { class: "g" });
    if (this.kind !== "source") { gutter.append(el("span", { class: "n" }, String(line))); return gutter; }
    const count = this.counts.get(built), place = this.places.get(built), counted = el("span", { class: "c", title: count ? T.executed(group(count[0]), group(count[1])) : null }, el("s", {}, count ? short(count[0]) : ""));
    counted.style.setProperty("--heat", `${count ? Math.round((100 * Math.log1p(count[0])) / Math.log1p(this.most)) : 0}%`);
    gutter.append(el("span", { class: "b" }), el("span", { class: "n" }, String(line)), counted, el("span", { class: "a" }, place ? `${place.place.slice(3)} ${place.word}` : ""));
    return gutter;
  }
  code(i, faults) {
    const text = this.lines[i], code = el("span", { class: "t" }), marks = faults.map((it) => [it.column - 1, it.column - 1 + it.length, it.kind === "error" ? "err" : "warn"]);
    let at = 0;
    for (const [name, word] of text.length > MOST_COLOURED ? [["", text.slice(0, MOST_COLOURED * 4)]] : partsOf(text, this.kind)) {
      const end = at + word.length, cuts = [at, ...marks.flatMap((it) => it.slice(0, 2)).filter((it) => it > at && it < end).sort((a, b) => a - b), end];
      for (let k = 0; k + 1 < cuts.length; k += 1) {
        const mark = marks.find((it) => it[0] <= cuts[k] && it[1] >= cuts[k + 1]), piece = text.slice(cuts[k], cuts[k + 1]), kinds = [name, mark?.[2]].filter(Boolean).join(" ");
        code.append(kinds ? el("span", { class: kinds }, piece) : piece);
      }
      at = end;
    }
    const past = marks.find((it) => it[0] >= text.length);
    if (past) code.append(el("span", { class: past[2] }, "  "));
    return code;
  }
  // The keyboard goes into the text, at first to the line of the next instruction.
  enter() {
    if (!this.area.selectionStart && this.now && !this.first) { const at = this.lines.slice(0, this.shownLine(this.now) - 1).reduce((sum, it) => sum + it.length + 1, 0); this.area.setSelectionRange(at, at); }
    this.area.focus({ preventScroll: true });
    this.showLine(this.caretLine());
  }
  // The line of the next instruction: it is brought into view.
  stand(line, isShown = true) {
    const isSame = line === this.now;
    this.now = line;
    this.drawAll();
    if (line && isShown && !isSame) this.show(line);
  }
  show(built) { this.showLine(this.shownLine(built)); }
  showLine(line) {
    if (!line) return;
    const high = this.rowHeight, top = (line - 1) * high, { scrollTop, clientHeight } = this.root;
    if (top < scrollTop + high || top > scrollTop + clientHeight - 3 * high) this.root.scrollTop = Math.max(0, Math.round((top - clientHeight / 2.6) / high) * high);
  }
  // Shows a line, and marks it for a while.
  pointAt(line) {
    this.showLine(line);
    this.mark({ pointed: this.builtLine(line) });
    clearTimeout(this.pointing);
    this.pointing = setTimeout(() => this.mark({ pointed: 0 }), 4000);
  }
  // Takes another text in place of this one, which undoing brings back.
  replace(text) {
    if (this.isLong || text.length > 300_000) { this.text = text; return; }
    this.area.focus({ preventScroll: true }); this.area.select();
    if (!document.execCommand("insertText", false, text)) this.text = text;
  }
  mark(props) { Object.assign(this, props); this.drawAll(); }
}
