// What is looked for by name, by place or by text: symbols, rows, lines of the source.
import { $, el } from './dom.js';
import { decimalOf, isWord } from './words.js';
import { T } from './texts.js';

const MOST = 60, MOST_PLACES = 16, MOST_LINE = 90;
const isPlace = (text) => /^(?:E[0-7],)?[0-7]{1,5}$|^\d\d,[0-7]{1,4}$/i.test(text);

// The symbols whose names begin with a text, then those that have it within; then the lines that have it.
export function foundIn(text, names, lines) {
  const wanted = text.trim().toUpperCase(), found = [];
  if (!wanted) return found;
  const all = [...names.kinds.values()], begins = all.filter((it) => it.name.startsWith(wanted)), within = all.filter((it) => !it.name.startsWith(wanted) && it.name.includes(wanted));
  for (const it of [...begins, ...within]) found.push({ kind: "symbol", name: it.name, symbol: it, line: definition(it.name, lines) });
  const told = new Set(found.map((it) => it.line));
  for (let i = 0; i < lines.length && found.length < MOST; i += 1) if (!told.has(i + 1) && lines[i].toUpperCase().includes(wanted)) found.push({ kind: "line", line: i + 1, text: lines[i].trim().replace(/\s+/g, " ").slice(0, MOST_LINE) });
  return found.slice(0, MOST);
}
const definition = (name, lines) => lines.findIndex((it) => it.startsWith(name) && /^\s|^$/.test(it.slice(name.length, name.length + 1))) + 1;

// heard: names, lines, wordOf, listed (rows of places), line (to a line of the source), word (why a word is so).
export function showFinder(box, heard) {
  const field = el("input", { class: "finder", role: "combobox", "aria-expanded": "true", "aria-controls": "found", "aria-autocomplete": "list", "aria-label": T.findWhat, placeholder: T.findWhat, spellcheck: "false", autocomplete: "off", maxlength: 60 }), list = el("div", { id: "found", role: "listbox", "aria-label": T.found });
  let rows = [], at = 0, turn = 0;
  const choose = (it) => { box.close(); if (it.kind === "symbol" && it.symbol.kind === "ERASABLE") heard.word(it.name); if (it.line) heard.line(it.line); };
  const point = (to) => { at = Math.max(0, Math.min(rows.length - 1, to)); [...list.children].forEach((it, i) => it.setAttribute("aria-selected", String(i === at))); field.setAttribute("aria-activedescendant", rows.length ? `found${at}` : ""); list.children[at]?.scrollIntoView({ block: "nearest" }); };
  const told = (it) => {
    if (it.kind === "line") return [el("span", {}, T.lineOf(it.line)), el("code", {}, it.text), el("em", {}, "")];
    if (it.kind === "place") return [el("span", {}, it.line ? T.lineOf(it.line) : it.place), el("code", {}, it.text), el("em", {}, "")];
    const word = it.symbol.kind === "FIXED" ? null : heard.wordOf(it.name);
    return [el("span", {}, it.line ? T.lineOf(it.line) : ""), el("code", {}, el("b", {}, it.name), ` ${heard.names.placeOf(it.symbol)}`), el("em", {}, isWord(word) ? `${word} ${decimalOf(word)}` : T.kinds[it.symbol.kind] || it.symbol.kind)];
  };
  const draw = () => {
    list.replaceChildren(...rows.map((it, i) => { const row = el("div", { id: `found${i}`, role: "option", class: "found", onclick: () => choose(it), onmousemove: () => { if (at !== i) point(i); } }, ...told(it)); return row; }));
    if (!rows.length) list.append(el("p", { class: "quiet" }, field.value.trim() ? T.notFound : T.findHow));
    point(0);
  };
  async function look() {
    const mine = ++turn, text = field.value.trim();
    rows = foundIn(text, heard.names, heard.lines);
    draw();
    if (!isPlace(text)) return;
    const listed = await heard.listed(text.toUpperCase(), MOST_PLACES);
    if (mine !== turn || !Array.isArray(listed)) return;
    rows = [...listed.filter((it) => !/^E\d\d /.test(it)).map((it) => { const line = Number(it.slice(0, 5)) || 0; return { kind: "place", line, place: it.trim().split(" ")[0], text: (line ? it.slice(6) : it.trim()).replace(/\s+/g, " ") }; }), ...rows].slice(0, MOST);
    draw();
  }
  field.addEventListener("input", look);
  field.addEventListener("keydown", (event) => {
    const by = { ArrowDown: 1, ArrowUp: -1, PageDown: 8, PageUp: -8 }[event.key];
    if (by) { event.preventDefault(); point(at + by); } else if (event.key === "Enter" && rows[at]) { event.preventDefault(); choose(rows[at]); }
  });
  box.setAttribute("aria-label", T.findTitle);
  box.replaceChildren(el("div", { class: "dialog-head" }, field, el("button", { class: "plain", "aria-label": T.close, onclick: () => box.close() }, "\u00d7")), list);
  draw();
  if (!box.open) box.showModal();
  field.focus();
}
export const finder = (heard) => showFinder($("dialog"), heard);
