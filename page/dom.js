// Elements of the page, made in one expression.
export function el(tag, props = {}, ...inside) {
  const made = document.createElement(tag);
  for (const [name, value] of Object.entries(props)) {
    if (name === "class") made.className = value;
    else if (name === "style") made.style.cssText = value; // (an attribute of this name would be refused by the page's own policy)
    else if (name.startsWith("on")) made.addEventListener(name.slice(2), value);
    else if (value === true) made.setAttribute(name, "");
    else if (value !== false && value != null) made.setAttribute(name, value);
  }
  made.append(...inside.filter((it) => it != null && it !== false && it !== ""));
  return made;
}
const NS = "http://www.w3.org/2000/svg";
export function drawn(tag, props = {}, ...inside) {
  const made = document.createElementNS(NS, tag);
  for (const [name, value] of Object.entries(props)) if (value != null) made.setAttribute(name, value);
  made.append(...inside);
  return made;
}
export const icon = (name) => { const made = drawn("svg", { "aria-hidden": "true" }); made.append(drawn("use", { href: `#i-${name}` })); return made; };
export const $ = (id) => document.getElementById(id);

// All sizes are in rem, of 10 pixels where nothing is enlarged.
export const unit = () => parseFloat(getComputedStyle(document.documentElement).fontSize) / 10;

// Work that is asked for often, and done once after a while of rest.
const waiting = new Map();
export function soon(name, wait, work) {
  clearTimeout(waiting.get(name));
  waiting.set(name, setTimeout(work, wait));
}

// The place of the keyboard within a list of rows: one of them is reached by Tab, the others by the arrows.
export function roving(root, rows, heard = {}) {
  root.addEventListener("keydown", (event) => {
    const by = { ArrowDown: 1, ArrowUp: -1, PageDown: 8, PageUp: -8, Home: -1e9, End: 1e9 }[event.key], at = event.target.closest(rows);
    if (!at || !root.contains(at)) return;
    if (by && !event.ctrlKey && !event.altKey && !event.metaKey) {
      const all = [...root.querySelectorAll(rows)], next = all[Math.max(0, Math.min(all.length - 1, all.indexOf(at) + by))];
      at.tabIndex = -1; next.tabIndex = 0; next.focus();
      event.preventDefault(); event.stopPropagation();
    } else if ((event.key === "Enter" || event.key === " ") && at.tagName !== "BUTTON") {
      event.preventDefault(); event.stopPropagation();
      (heard.enter || ((it) => it.click()))(at);
    }
  });
}
export function reachable(root, rows, chosen) {
  const all = [...root.querySelectorAll(rows)];
  const first = all.find((it) => it.matches(chosen || ".none-of-them")) || all[0];
  for (const it of all) it.tabIndex = it === first ? 0 : -1;
}
