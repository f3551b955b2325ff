// The display and keyboard. Keys are inputs; what the display shows was put out.
import { drawn, el } from './dom.js';
import { T } from './texts.js';

const LAMPS = [["UPLINK ACTY", ""], ["TEMP", "amber"], ["NO ATT", ""], ["GIMBAL LOCK", "amber"], ["ISS", ""], ["PROG", "amber"], ["KEY REL", ""], ["", ""], ["OPR ERR", ""], ["TRACKER", "amber"], ["PRIO DISP", ""], ["ALT", "amber"], ["NO DAP", ""], ["VEL", "amber"]];
// Each key with the word of channel 015, its column and row, and what it is on a keyboard.
const KEYS = [
  ["VERB", "21", 1, 2, "v"], ["NOUN", "37", 1, 4, "n"], ["+", "32", 2, 1, "+"], ["\u2212", "33", 2, 3, "-"], ["0", "20", 2, 5, "0"],
  ["7", "07", 3, 1, "7"], ["4", "04", 3, 3, "4"], ["1", "01", 3, 5, "1"], ["8", "10", 4, 1, "8"], ["5", "05", 4, 3, "5"], ["2", "02", 4, 5, "2"],
  ["9", "11", 5, 1, "9"], ["6", "06", 5, 3, "6"], ["3", "03", 5, 5, "3"], ["CLR", "36", 6, 1, "c"], ["PRO", null, 6, 3, "p"], ["KEY REL", "31", 6, 5, "k"], ["ENTR", "34", 7, 2, "Enter"], ["RSET", "22", 7, 4, "r"],
];
const PULSES = ["TIME1 PINC", "TIME3 PINC", "TIME4 PINC", "TIME5 PINC", "TIME6 DINC", "CDUX PCDU", "CDUX MCDU", "PIPAX PINC", "PIPAX MINC", "INLINK SHINC", "INLINK SHANC", "RUPT 3", "RUPT 4", "RUPT 5", "RUPT 7", "CHAN 15 21", "CHAN 30 77777", "CHAN 33 77777"];
const STROKES = { a: "M2 1h9l-1.6 2.2H4z", b: "M12 1.8v8.4l-2.2-1.6V4z", c: "M11.4 11.8v8.4L9.2 18v-4.6z", d: "M1 21h9l-2.4-2.2H2.4z", e: "M.2 20.2v-8.4l2.2 1.6V18z", f: "M1 10.2V1.8L3.2 4v4.6z", g: "M1.8 11l1.4-1.2h6.4L11 11l-1.4 1.2H3.2z" };
const LIT = { 0: "abcdef", 1: "bc", 2: "abged", 3: "abgcd", 4: "fgbc", 5: "afgcd", 6: "afgedc", 7: "abc", 8: "abcdefg", 9: "abcdfg", "?": "agd" };

function digits(text, isSigned) {
  const width = text.length * 17, svg = drawn("svg", { viewBox: `0 0 ${width} 22`, class: `digits of${text.length}`, role: "img", "aria-label": text.trim() || T.blank });
  [...text].forEach((sign, i) => {
    const place = drawn("g", { transform: `translate(${i * 17 + 2} 0) skewX(-4)` }), isSign = isSigned && i === 0;
    for (const [name, d] of Object.entries(isSign ? { h: "M2 10h8v2H2z", v: "M5 5.5h2v11H5z" } : STROKES)) {
      const isOn = isSign ? sign === "+" || (sign === "-" && name === "h") : (LIT[sign] || "").includes(name);
      place.append(drawn("path", { d, class: isOn ? "on" : null }));
    }
    svg.append(place);
  });
  return svg;
}
export const keyOf = (text) => { const word = /^CHAN +0?15 +0?(\d+)/.exec(text)?.[1]; return KEYS.find((it) => it[1] && parseInt(it[1], 8) === parseInt(word, 8))?.[0] || null; };

export class Dsky {
  constructor(root, heard) {
    Object.assign(this, { root, heard, told: "" });
    this.pad = el("div", { class: "keypad", role: "group", "aria-label": T.keypad });
    for (const [name, word, column, row] of KEYS) {
      const key = el("button", { class: name.length > 1 ? "word" : "", "data-key": name }, name);
      key.style.gridArea = `${row} / ${column} / span 2`;
      if (word) key.addEventListener("click", () => this.press(name));
      else {
        const down = () => { if (!this.isHeld) { this.isHeld = true; heard.press("PRO DOWN", "PRO"); } }, up = () => { if (this.isHeld) { this.isHeld = false; heard.press("PRO UP", "PRO"); } };
        key.addEventListener("pointerdown", down); key.addEventListener("pointerup", up); key.addEventListener("pointerleave", up);
        key.addEventListener("keydown", (event) => { if (event.key === " " || event.key === "Enter") { event.preventDefault(); down(); up(); } });
      }
      this.pad.append(key);
    }
    this.list = el("div");
    // Any other input, as a line of a feed has it after its cycle.
    const other = el("input", { list: "inputs", "aria-label": T.otherInput, placeholder: "TIME3 PINC", maxlength: 30, spellcheck: "false", autocomplete: "off" });
    const form = el("form", {}, other, el("datalist", { id: "inputs" }, ...PULSES.map((it) => el("option", { value: it }))), el("button", { class: "small" }, T.putIn));
    form.addEventListener("submit", (event) => { event.preventDefault(); const text = other.value.trim().toUpperCase().replace(/\s+/g, " "); if (text) heard.press(text, text); });
    this.quick = el("div", { class: "quick", role: "group", "aria-label": T.otherInput });
    this.side = el("div", { class: "presses" }, this.list, this.quick, form);
    this.face = el("div", { class: "dsky" });
    root.append(this.face, this.side);
    this.show(null);
    this.tell([]);
  }
  // Inputs that a program takes, each with a button.
  offer(texts) { this.quick.replaceChildren(...texts.map((text) => el("button", { class: "small", title: T.putInNow, onclick: () => this.heard.press(text, text) }, text))); }
  press(name) { const word = KEYS.find((it) => it[0] === name)?.[1]; if (word) this.heard.press(`CHAN 15 ${word}`, name); }
  // A key of the keyboard. True where it is one of these.
  key(event) {
    const found = KEYS.find((it) => it[1] && it[4] === (event.key.length === 1 ? event.key.toLowerCase() : event.key));
    if (!found || event.ctrlKey || event.metaKey || event.altKey) return false;
    const button = this.pad.querySelector(`[data-key="${CSS.escape(found[0])}"]`);
    button.classList.add("down");
    setTimeout(() => button.classList.remove("down"), 120);
    this.press(found[0]);
    return true;
  }
  // The inputs that were made here, each with its way back.
  tell(presses) {
    this.list.replaceChildren(el("h3", {}, presses.length ? T.keysMade : T.keysHead));
    if (!presses.length) this.list.append(el("p", {}, T.keysText));
    for (const it of presses.slice(-7)) this.list.append(el("div", { class: "press" }, el("code", {}, `${it.cycle} ${it.text}`), el("span", {}, it.name), el("button", { class: "undo", "aria-label": T.undoKey(it.name, it.cycle), title: T.undoKey(it.name, it.cycle), onclick: () => this.heard.undo(it) }, "\u00d7")));
    if (presses.length > 7) this.list.append(el("p", {}, T.andMore(presses.length - 7)));
  }
  show(display) {
    const text = JSON.stringify(display);
    if (text === this.told) return;
    this.told = text;
    const lamps = new Set(display?.lamps || []), get = (name, size) => (display?.[name] ?? "").padEnd(size, " "), flash = lamps.has("FLASH") ? " flash" : "";
    const left = el("div", { class: "lamps", role: "group", "aria-label": T.lamps([...lamps].join(", ")) }, ...LAMPS.map(([name, kind]) => el("span", { class: `${kind}${name && lamps.has(name) ? " on" : ""}` }, name)));
    const pair = (name, more = "") => el("div", { class: "stack" }, el("small", {}, name), el("div", { class: `pair${more}` }, digits(get(name, 2))));
    const panel = el("div", { class: "panel" }, el("div", { class: `acty${lamps.has("COMP ACTY") ? " on" : ""}` }, "COMP", el("br"), "ACTY"), pair("PROG"), pair("VERB", flash), pair("NOUN", flash));
    for (const name of ["R1", "R2", "R3"]) panel.append(el("div", { class: "reg" }, digits(get(name, 6), true)));
    this.face.replaceChildren(left, panel, this.pad);
  }
}
