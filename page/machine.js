// The machine at the position: what comes next and in a sentence what it does, the registers, the named words, the channels; and what of it has changed.
import { $, el, reachable, roving } from './dom.js';
import { COUNTERS, channelName, decimalOf, erasableOf, formsOf, group, INTERRUPTS, isFixedPlace, isWord, placeOf } from './words.js';
import { T } from './texts.js';

// An erasable place as the table of symbols tells it, as a number: 0101 or E3,1400.
const numberOfPlace = (value) => (/^[0-7]+$/.test(value) ? parseInt(value, 8) : erasableOf(value));
const REGISTERS = ["A", "L", "Q", "Z", "EB", "FB", "BB"], MOST_ROWS = 300;

// The names of the program: which place each has, and what a place is called.
export class Names {
  constructor(rows = [], symbols = []) {
    this.kinds = new Map(symbols.map((it) => [it.name, it]));
    this.erasable = symbols.filter((it) => it.kind === "ERASABLE" || (it.kind === "NUM" && COUNTERS.has(parseInt(it.value, 8)))).map((it) => ({ name: it.name, at: numberOfPlace(it.value) })).filter((it) => it.at !== null);
    this.byPlace = new Map();
    for (const { name, at } of this.erasable) if (!this.byPlace.has(at)) this.byPlace.set(at, name);
    this.fixed = symbols.filter((it) => it.kind === "FIXED").map((it) => { const [bank, offset] = it.value.split(","); return { name: it.name, bank, offset: parseInt(offset, 8) }; });
    this.rows = new Map();
    for (const it of rows) if (it.word && !this.rows.has(it.line)) this.rows.set(it.line, it);
    this.lineOf = new Map();
    for (const it of rows) if (it.word && !this.lineOf.has(it.place)) this.lineOf.set(it.place, it.line);
  }
  // Where a symbol stands, as the listing has places.
  placeOf({ kind, value }) {
    if (kind !== "FIXED") return value;
    const [bank, offset] = value.split(",");
    return `${bank},${((parseInt(offset, 8) & 0o1777) + ({ "02": 0o4000, "03": 0o6000 }[bank] ?? 0o2000)).toString(8)}`;
  }
  isRope(cell) { return isFixedPlace(cell) || this.kinds.get(cell)?.kind === "FIXED"; }
  // A cell as the program's names tell it.
  of(cell) {
    const found = /^(\d\d),([0-7]{4})$/.exec(cell), at = erasableOf(cell);
    if (at !== null) return this.byPlace.get(at) || COUNTERS.get(at) || this.near(at) || cell;
    if (!found) return cell;
    const offset = parseInt(found[2], 8) & 0o1777, best = this.fixed.filter((it) => it.bank === found[1] && it.offset <= offset).reduce((a, b) => (!a || b.offset > a.offset ? b : a), null);
    return best && offset - best.offset < 64 ? (offset === best.offset ? best.name : `${best.name} +${(offset - best.offset).toString(8)}`) : cell;
  }
  near(at) { for (let by = 1; by < 16; by += 1) if (this.byPlace.has(at - by)) return `${this.byPlace.get(at - by)} +${by.toString(8)}`; return ""; }
  // The number of an erasable word by its name, or null.
  erasableNumber(name) {
    const [symbol, by] = name.split(" +"), kind = this.kinds.get(symbol);
    const at = kind && (kind.kind === "ERASABLE" || kind.kind === "NUM") ? numberOfPlace(kind.value) : erasableOf(symbol) ?? [...COUNTERS].find(([, it]) => it === symbol)?.[0] ?? null;
    return at === null || at > 0o3777 ? null : at + (by ? parseInt(by, 8) : 0);
  }
}

// The parts of an instruction's line: its label is left out.
export function codeOf(text) {
  const [code] = text.split("#"), parts = code.trim().split(/\s+/).filter(Boolean);
  return /^\S/.test(code) && parts.length > 1 ? parts.slice(1) : parts;
}
// What an instruction does, in a sentence, with the word of its operand where that is known.
export function sentenceOf(parts, wordOf) {
  const [code, operand = "", offset] = parts, say = T.say[code];
  if (!say) return "";
  const name = offset && /^[+-]?\d+$/.test(offset) ? `${operand} ${/^[+-]/.test(offset) ? offset : `+${offset}`}` : operand, word = name ? wordOf?.(name) : null;
  return say(name || T.itsPlace, word == null ? "" : `, ${decimalOf(word)}`);
}

// Which way a choice of the program took: told by where the next step stands, and "" where that is none, or is not known.
export function wayOf(steps, i) {
  const it = steps[i], code = it.text.split(" ")[0], next = steps.slice(i + 1).find((one) => one.word !== "INPUT");
  if (!["BZF", "BZMF", "CCS", "TS"].includes(code) || !next || next.word === "ENTRY") return "";
  const [bank, at] = it.place.split(","), [other, to] = next.place.split(","), by = bank === other ? parseInt(to, 8) - parseInt(at, 8) : 0;
  if (code === "TS") return by === 2 ? T.ways.skips : "";
  return code === "CCS" ? T.ways.signs[by - 1] || "" : by === 1 ? T.ways.not : T.ways.taken;
}
// The last choice up to a step, of those that are known.
function choiceAt({ steps, p }) {
  for (let i = steps.length - 1; i >= 0; i -= 1) { if (steps[i].t > p) continue; const way = wayOf(steps, i); if (way) return { ...steps[i], way }; }
  return null;
}

export class Machine {
  constructor(root, heard) {
    Object.assign(this, { root, heard, chosen: null });
    for (const id of ["regs", "words", "chans"]) $(id).addEventListener("click", (event) => { const it = event.target.closest("[data-cell]"); if (it) heard.why(it.dataset.cell); });
    roving(root, "button.cell");
    root.addEventListener("contextmenu", (event) => { const it = event.target.closest("button.cell"); if (it) heard.context(event, it.dataset.cell); });
    root.addEventListener("dblclick", (event) => { const it = event.target.closest("button.cell"); if (it) heard.curve(it.dataset.cell); });
  }
  // The word of a cell at the position.
  wordOf(name, picture = this.picture) {
    if (!picture) return null;
    const channel = /^CH([0-7]{3})$/.exec(name);
    if (channel) return picture.chans.get(parseInt(channel[1], 8)) ?? "00000";
    if (REGISTERS.includes(name) && !["ERASABLE", "FIXED"].includes(this.names.kinds.get(name)?.kind)) return picture.regs[name];
    const at = this.names.erasableNumber(name);
    return at === null ? null : picture.words[at] ?? null;
  }
  show(picture, old, names) {
    Object.assign(this, { picture, old, names });
    this.root.classList.remove("bare");
    const focused = document.activeElement?.closest?.("button.cell")?.dataset.cell;
    this.showNext();
    const { regs } = picture, was = old?.regs || {};
    $("flags").replaceChildren(...Object.entries(T.flags).map(([name, title]) => el("span", { class: regs[name] === "1" ? "on" : "", title }, name)), ...(regs.ASKED && regs.ASKED !== "NONE" ? [el("span", { class: "on", title: T.askedFor }, T.asked(regs.ASKED))] : []));
    $("regs").replaceChildren(...REGISTERS.slice(0, 3).map((it) => this.row(it, regs[it], was[it])), el("div", { class: "few" }, ...REGISTERS.slice(3).filter((it) => regs[it] !== undefined).map((it) => this.row(it, regs[it], was[it], "", true))));
    const words = names.erasable.slice(0, MOST_ROWS).map(({ name, at }) => this.row(name, picture.words[at], old?.words[at], placeOf(at)));
    $("words").replaceChildren(...(words.length ? words : [el("p", { class: "none" }, T.noNames)]));
    this.used ||= new Set();
    if (this.number !== picture.number) { this.number = picture.number; this.used.clear(); }
    // (a word that was put out may be zero, and is asked for too)
    for (const channel of picture.put) this.used.add(channel);
    for (const [channel, word] of picture.chans) if (word !== "00000") this.used.add(channel);
    const chans = [...this.used].sort((a, b) => a - b).slice(0, 64).map((it) => this.row(channelName(it), picture.chans.get(it) ?? "00000", old?.chans.get(it)));
    $("chans").replaceChildren(...(chans.length ? chans : [el("p", { class: "none" }, T.noChannels)]));
    reachable(this.root, "button.cell", ".chosen");
    if (focused) this.root.querySelector(`button.cell[data-cell="${CSS.escape(focused)}"]`)?.focus({ preventScroll: true });
  }
  row(name, word, was, title, isShort) {
    const isChanged = was !== undefined && was !== word, isNumber = isWord(word);
    const made = el("button", { class: ["cell", isChanged && "changed", this.chosen === name && "chosen"].filter(Boolean).join(" "), "data-cell": name, tabindex: -1, title: [title, formsOf(word, T.forms), isChanged ? T.before(was) : "", T.clickWhy].filter(Boolean).join("\n"), "aria-label": T.cellLabel(name, word, isNumber ? decimalOf(word) : "", isChanged ? was : "") });
    made.append(el("span", {}, name), el("span", {}, word), isShort ? "" : el("span", {}, isChanged && isNumber && isWord(was) ? el("s", {}, decimalOf(was)) : "", isNumber ? decimalOf(word) : ""));
    return made;
  }
  showNext() {
    const { picture, names, heard } = this, { where } = picture, isAstray = /^E\d,/.test(where.place) && !where.waits, text = where.text || picture.steps.find((it) => it.t === picture.p + 1)?.text || "", parts = text ? codeOf(where.line ? this.heard.lineText(where.line) || text : ` ${text}`) : [];
    const code = where.waits ? where.symbol.split(" ").slice(1).join(" ") : parts.join(" ");
    const next = el("div", { class: "what" }, el("span", {}, code || (isAstray ? T.erasableWord : T.nothingThere)), el("small", { title: `${where.place} ${where.word}` }, where.waits ? T.waits : where.symbol ? `${T.at} ${where.symbol}` : `${where.place} ${where.word}`));
    const lines = [next];
    if (where.interrupt) lines.push(el("button", { class: "badge", title: T.toEntry, onclick: () => heard.seek(where.interrupt.step) }, T.inSince(INTERRUPTS[where.interrupt.number] || where.interrupt.number, group(where.interrupt.step))));
    if (isAstray) { const since = heard.astray(); lines.push(since === null ? el("div", { class: "line" }, T.astray) : el("button", { class: "badge odd", title: T.toAstray, onclick: () => heard.toAstray() }, T.astraySince(group(since)))); }
    if (where.waits) lines.push(el("div", { class: "line" }, T.nextWaits));
    const says = sentenceOf(where.waits ? code.split(" ") : parts, (name) => this.wordOf(name) ?? null);
    lines.push(el("p", { class: "says" }, says));
    const did = picture.steps.find((it) => it.t === picture.p);
    if (picture.p === 0) lines.push(el("div", { class: "line" }, T.nothingDone));
    else if (did) {
      const line = el("button", { class: "line did", title: T.whyDid, onclick: () => heard.why(did.written.length ? names.of(did.written[0][0]) : "") }, `${did.word === "INPUT" ? T.cameInput : did.word === "ENTRY" ? T.cameEntry : T.came} `, el("code", {}, did.text));
      for (const [name, word] of did.written.slice(0, 4)) line.append("  ", el("b", {}, `${names.of(name)}=${word}`));
      lines.push(line);
    }
    const choice = did && choiceAt(picture);
    if (choice) lines.push(el("button", { class: "line did choice", title: T.toChoice, onclick: () => heard.seek(choice.t - 1) }, `${T.choice(group(choice.t))} `, el("code", {}, choice.text), el("em", {}, choice.way)));
    $("now").replaceChildren(...lines);
  }
}
