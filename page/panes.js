// What stands below: the steps around the position, what was put out, erasable memory, and the console.
import { el, reachable, roving } from './dom.js';
import { channelName, decimalOf, formsOf, group, octal, placeOf, timeOf } from './words.js';
import { wayOf } from './machine.js';
import { T } from './texts.js';

const MOST_PUT = 200;

function table(kind, heads, label) {
  const body = el("tbody");
  return [el("table", { class: kind, "aria-label": label }, el("thead", {}, el("tr", {}, ...heads.map((it) => el("th", { scope: "col" }, it)))), body), body];
}
// Brings a row to the middle.
function centre(root, row) {
  if (!row) return;
  // (no row is cut off below the heads)
  const box = row.getBoundingClientRect(), pane = root.getBoundingClientRect(), high = box.height || 1, rest = (root.scrollHeight - root.clientHeight) % high;
  if (rest > 0.5) row.closest("table").style.marginBottom = `${high - rest}px`;
  root.scrollTop = Math.max(0, Math.round((root.scrollTop + (box.top + high / 2) - (pane.top + pane.height / 2)) / high) * high);
}

export class Steps {
  constructor(root, heard) {
    Object.assign(this, { root, heard });
    roving(root, "tbody tr");
    root.addEventListener("click", (event) => {
      const row = event.target.closest("tr[data-t]"), cell = event.target.closest("[data-cell]");
      if (row) heard.seek(Number(row.dataset.t)).then(() => cell && heard.why(cell.dataset.cell));
    });
  }
  show({ steps, p, n }, names, commentOf) {
    const { root } = this;
    if (!steps.length) { root.replaceChildren(el("p", { class: "empty-tab" }, n ? T.noStepsHere : T.noStepsYet)); return; }
    const [made, body] = table("steps-table", T.stepHeads, T.tabs.steps);
    let isInside = false;
    for (const [i, it] of steps.entries()) {
      const way = wayOf(steps, i);
      if (it.word === "ENTRY") isInside = true;
      const kinds = [it.t === p && "at", it.t > p && "later", it.word === "ENTRY" && "entry", it.word === "INPUT" && "input", isInside && "rupt"].filter(Boolean).join(" ");
      const written = it.written.flatMap(([name, word]) => [el("span", { "data-cell": name, title: `${formsOf(word, T.forms)}\n${T.whyThen(it.t)}` }, `${names.of(name)}=${word}`), " "]);
      body.append(el("tr", { class: kinds, "data-t": it.t, tabindex: -1, "aria-current": it.t === p ? "step" : null }, el("td", {}, group(it.t)), el("td", {}, group(it.cycles)), el("td", {}, it.place), el("td", {}, it.word), el("td", {}, it.text, way ? el("em", { class: "way" }, way) : ""), el("td", {}, ...written), el("td", { class: "out" }, it.output ? `CH ${octal(it.output.channel, 3)} ${it.output.word}` : ""), el("td", { class: "said" }, commentOf(it.line))));
      if (/^RESUME/.test(it.text)) isInside = false;
    }
    const wasFocused = root.contains(document.activeElement) && document.activeElement.matches("tr");
    root.replaceChildren(made);
    reachable(root, "tbody tr", ".at");
    if (wasFocused) body.querySelector(".at")?.focus({ preventScroll: true });
    centre(root, body.querySelector(".at") || body.firstChild);
  }
}

export class Put {
  constructor(root, heard) {
    Object.assign(this, { root, heard });
    roving(root, "tbody tr");
    root.addEventListener("click", (event) => { const row = event.target.closest("tr[data-cycles]"); if (row) heard.until(Number(row.dataset.cycles)).then(() => heard.why(row.dataset.channel)); });
  }
  show(outputs, cycles) {
    const { root } = this;
    if (!outputs.count) { root.replaceChildren(el("p", { class: "empty-tab" }, T.nothingPut)); return; }
    const [made, body] = table("outputs", T.putHeads, T.tabs.output), some = outputs.near(cycles, MOST_PUT);
    for (const it of some) {
      const name = channelName(it.channel), word = octal(it.word);
      body.append(el("tr", { "data-cycles": it.cycles, "data-channel": name, tabindex: -1, class: it.cycles > cycles ? "later" : "", title: `${formsOf(word, T.forms)}\n${T.clickWhy}` }, el("td", {}, group(it.cycles)), el("td", {}, timeOf(it.cycles)), el("td", {}, name), el("td", { class: "out" }, word), el("td", {}, decimalOf(word))));
    }
    root.replaceChildren(made);
    if (outputs.count > some.length) root.append(el("p", { class: "empty-tab" }, (outputs.first && cycles < outputs.cycles[0] ? T.putKept : T.putShown)(some.length, group(outputs.count))));
    const past = [...body.querySelectorAll("tr:not(.later)")].pop();
    past?.classList.add("at");
    reachable(root, "tbody tr", ".at");
    if (some.length > 8) centre(root, past);
  }
}

export class Memory {
  constructor(root, heard) {
    Object.assign(this, { root, heard, bank: 0 });
    roving(root, ".memory [data-i]");
    root.addEventListener("click", (event) => {
      const bank = event.target.closest("[data-bank]"), cell = event.target.closest("[data-i]");
      if (bank) { this.bank = Number(bank.dataset.bank); this.show(...this.shown); this.root.querySelector(`[data-bank="${this.bank}"]`).focus(); }
      else if (cell) heard.why(heard.nameAt(Number(cell.dataset.i)) || placeOf(Number(cell.dataset.i)));
    });
  }
  show(picture, old, names) {
    this.shown = [picture, old, names];
    const { root, bank } = this, scroll = root.scrollTop, grid = el("div", { class: "memory", role: "group", "aria-label": T.memoryOf(bank) });
    const banks = el("div", { class: "banks", role: "group", "aria-label": T.banks }, ...Array.from({ length: 8 }, (_, i) => el("button", { "data-bank": i, "aria-pressed": String(i === bank), "aria-label": T.bank(i) }, `E${i}`)));
    grid.append(el("span", { class: "h" }), ...Array.from({ length: 8 }, (_, i) => el("span", { class: "h" }, String(i))));
    for (let i = bank << 8; i < (bank + 1) << 8; i += 1) {
      if (i % 8 === 0) grid.append(el("span", { class: "a" }, placeOf(i)));
      const word = picture.words[i] ?? "00000", name = names.byPlace.get(i), kinds = [word === "00000" && "z", name && "named", old && old.words[i] !== word && "changed"].filter(Boolean).join(" ");
      grid.append(el("button", { class: kinds, "data-i": i, tabindex: -1, title: `${name ? `${name}, ` : ""}${placeOf(i)}\n${formsOf(word, T.forms)}` }, word));
    }
    root.replaceChildren(banks, grid);
    reachable(root, ".memory [data-i]", ".changed");
    root.scrollTop = scroll;
  }
}

export class Console {
  constructor(root, heard) {
    this.log = root.querySelector(".log"); this.line = root.querySelector("input");
    const past = [];
    let at = 0;
    root.querySelector("form").addEventListener("submit", (event) => {
      event.preventDefault();
      const text = this.line.value.trim();
      this.line.value = "";
      if (!text) return;
      past.push(text); at = past.length;
      heard.command(text);
    });
    this.line.addEventListener("keydown", (event) => {
      if (event.key !== "ArrowUp" && event.key !== "ArrowDown") return;
      event.preventDefault();
      at = Math.max(0, Math.min(past.length, at + (event.key === "ArrowUp" ? -1 : 1)));
      this.line.value = past[at] || "";
    });
    root.addEventListener("click", () => { if (!String(getSelection())) this.line.focus(); });
  }
  // Another program stands here from now on.
  begin(name) { if (this.log.children.length) this.log.append(el("div", { class: "of" }, name)); }
  asked(text) { this.log.append(el("div", { class: "q" }, `> ${text}`)); }
  told(lines) {
    for (const it of lines) this.log.append(el("div", { class: /^E\d\d/.test(it) ? "e" : "" }, it));
    while (this.log.children.length > 2000) this.log.firstChild.remove();
    this.log.scrollTop = this.log.scrollHeight;
  }
}
