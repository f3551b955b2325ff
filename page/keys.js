// The keyboard: each thing that can be clicked has a key.
import { $, el } from './dom.js';
import { T } from './texts.js';

export function showSheet() {
  const box = $("dialog");
  if (box.open) { box.close(); return; }
  const list = el("dl", { class: "keys" });
  for (const [keys, text] of T.keys) list.append(el("dt", {}, ...keys.split(" ").map((it) => (it === "or" || it === "\u2013" ? ` ${it} ` : el("kbd", {}, it)))), el("dd", {}, text));
  box.setAttribute("aria-label", T.keysTitle);
  box.replaceChildren(el("div", { class: "dialog-head" }, el("h2", {}, T.keysTitle), el("button", { class: "plain", "aria-label": T.close, onclick: () => box.close() }, "\u00d7")), list, el("p", { class: "quiet" }, T.keysMore));
  box.showModal();
}

// A finger that rests asks for the menu of what is below it; and one beside a menu that is open closes it, and no more.
export function bindTouch({ isMenuOpen, closeMenus }) {
  let timer = 0, from = null, taken = "";
  document.addEventListener("pointerdown", (event) => {
    clearTimeout(timer);
    taken = "";
    if (event.pointerType !== "touch") return;
    if (isMenuOpen() && !event.target.closest(".menu, .file, #counts")) { taken = "menu"; return; }
    const at = event.target.closest("button.cell, .editor .g");
    if (!at) return;
    from = event;
    timer = setTimeout(() => { taken = "rest"; at.dispatchEvent(new MouseEvent("contextmenu", { bubbles: true, cancelable: true, clientX: from.clientX, clientY: from.clientY })); }, 550);
  }, true);
  document.addEventListener("pointermove", (event) => { if (from && Math.hypot(event.clientX - from.clientX, event.clientY - from.clientY) > 9) clearTimeout(timer); }, true);
  for (const name of ["pointerup", "pointercancel"]) document.addEventListener(name, () => clearTimeout(timer), true);
  // (the browser makes a mouse's click of what a finger did)
  document.addEventListener("mousedown", (event) => { if (taken) event.preventDefault(); }, true);
  document.addEventListener("click", (event) => { if (!taken || !event.isTrusted) return; event.preventDefault(); event.stopPropagation(); if (taken === "menu") closeMenus(); taken = ""; }, true);
}

export function bindKeys(on) {
  document.addEventListener("keydown", (event) => {
    const field = event.target.closest?.("input, textarea, select, dialog"), take = (work) => { event.preventDefault(); work(); };
    if (event.key === "F8") return take(on.run);
    if (event.key === "F9") return take(on.toggleBreak);
    if (event.key === "F10") return take(event.shiftKey ? on.go.back : on.go.step);
    if ((event.ctrlKey || event.metaKey) && event.key === "s") return take(on.save);
    if ((event.ctrlKey || event.metaKey) && event.key === "Enter") return take(on.run);
    if ((event.ctrlKey || event.metaKey) && event.key.toLowerCase() === "k") return take(on.find);
    if (event.key === "Escape") { on.closeMenus(); if (on.isBusy()) on.stop(); else if (field && !event.target.closest("dialog")) document.activeElement.blur(); return null; }
    if (field || event.ctrlKey || event.metaKey || event.altKey) return null;
    if (on.dsky(event)) return event.preventDefault();
    if (event.target.closest?.('[role="tab"], [role="menu"], [role="separator"]') && /^Arrow|Home|End/.test(event.key)) return null;
    const name = event.key.length === 1 ? event.key.toLowerCase() : event.key;
    const by = { ArrowLeft: event.shiftKey ? on.go.back10 : on.go.back, ArrowRight: event.shiftKey ? on.go.step10 : on.go.step, Home: on.go.first, End: on.go.last, p: on.go.prev, n: on.go.next, o: on.go.over, u: on.go.out, r: on.run, t: on.pace, w: on.why, c: on.choice, b: on.toggleBreak, m: on.menu, ...(document.documentElement.classList.contains("lecture") && { PageUp: on.go.back, PageDown: on.go.step }) }, always = { "/": on.find, g: () => $("position").focus(), e: on.edit, d: on.theme, l: on.lecture, "?": showSheet };
    if (/^[1-7]$/.test(name)) return take(() => on.showTab(on.tabs[Number(name) - 1]));
    if (always[name]) return take(always[name]);
    if (by[name] && on.isBuilt()) return take(by[name]);
    return null;
  });
}
