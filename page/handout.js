// The script of a handout: a recorded run, which needs no program. It stands by itself: its text is put into the page that is handed out.
export function handout(run) {
  const { lines, kinds, steps, cells, counts } = run, $ = (id) => document.getElementById(id);
  const el = (tag, props, ...inside) => { const made = document.createElement(tag); for (const [name, value] of Object.entries(props || {})) if (name.startsWith("on")) made.addEventListener(name.slice(2), value); else if (value != null) made.setAttribute(name, value); made.append(...inside); return made; };
  const signed = (word) => { const bits = word.length === 6 ? 16 : 15, value = parseInt(word, 8); return String(value >= 1 << (bits - 1) ? value - ((1 << bits) - 1) : value).replace("-", "\u2212"); };
  // A step is: its kind, cycles, what it wrote as name, word, what was read, and what it put out.
  const kindOf = (t) => kinds[steps[t - 1][0]], n = steps.length;
  let p = Math.min(run.position, n), asked = null;
  const before = (name, t) => { for (; t > 0; t -= 1) { const at = steps[t - 1][2].findIndex((it) => it[0] === name); if (at >= 0) return [t, steps[t - 1][2][at]]; } return null; };
  function chainOf(name) {
    const links = [], wanted = new Map([[name, true]]), starts = [];
    for (let t = p; t > 0 && wanted.size && links.length < 60; t -= 1) {
      const mine = steps[t - 1][2].filter((it) => wanted.has(it[0]));
      if (!mine.length) continue;
      for (const it of mine) wanted.delete(it[0]);
      for (const it of mine) for (const read of it[2]) if (!run.rope.includes(read)) wanted.set(read, true);
      links.push([t, mine]);
    }
    for (const it of wanted.keys()) starts.push(it);
    return [links, starts];
  }
  function show() {
    $("p").textContent = p; $("n").textContent = n; $("cycles").textContent = p ? steps[p - 1][1] : 0;
    const next = p < n ? kindOf(p + 1) : null, did = p ? kindOf(p) : null;
    for (const it of document.querySelectorAll("#source .now")) it.classList.remove("now");
    const row = next && next[3] ? $(`l${next[3]}`) : null;
    if (row) row.classList.add("now");
    $("did").replaceChildren(...(did ? ["came from ", el("code", {}, did[2])] : ["the start"]));
    $("next").textContent = next ? next[2] : "the end of what was recorded";
    const changed = new Map(p ? steps[p - 1][2].map((it) => [it[0], it[1]]) : []);
    $("cells").replaceChildren(...cells.map((name) => { const found = before(name, p), word = found ? found[1][1] : name === "A" || name === "Q" ? "000000" : "00000"; return el("button", { class: changed.has(name) ? "changed" : null, "aria-pressed": String(asked === name), onclick: () => { asked = name; show(); } }, el("span", {}, name), el("span", {}, word), el("b", {}, signed(word))); }));
    $("why").replaceChildren();
    if (asked) {
      const [links, starts] = chainOf(asked);
      $("why").append(el("h2", {}, `Why is ${asked} so?`), ...links.map(([t, mine]) => el("button", { onclick: () => { p = t; show(); }, class: t === p ? "at" : null }, el("span", {}, String(t)), el("span", {}, kindOf(t)[2]), el("b", {}, `${mine[0][0]} ${signed(mine[0][1])}`))), el("p", {}, starts.length ? `At the start: ${starts.join(", ")}` : links.length ? "Nothing else went into it." : "Nothing has written it."));
    }
    const from = Math.max(0, Math.min(p - 6, n - 12));
    $("steps").replaceChildren(...steps.slice(from, from + 12).map((it, i) => { const t = from + i + 1, kind = kindOf(t); return el("tr", { class: t === p ? "at" : t > p ? "later" : null, onclick: () => { p = t; show(); } }, el("td", {}, String(t)), el("td", {}, kind[0]), el("td", {}, kind[2]), el("td", {}, it[2].map(([name, word]) => `${name}=${word}`).join(" ")), el("td", {}, it[3] || "")); }));
    $("line").value = p;
    if (!row) return;
    const box = row.getBoundingClientRect(), pane = $("source").getBoundingClientRect();
    if (box.top < pane.top + 20 || box.bottom > pane.bottom - 40) $("source").scrollTop += box.top - pane.top - pane.height / 3;
  }
  const to = (step) => { p = Math.max(0, Math.min(n, step)); show(); };
  $("line").max = n;
  $("line").addEventListener("input", () => to(Number($("line").value)));
  for (const [id, work] of [["first", () => to(0)], ["back", () => to(p - 1)], ["on", () => to(p + 1)], ["last", () => to(n)]]) $(id).addEventListener("click", work);
  addEventListener("keydown", (event) => { const by = { ArrowLeft: -1, ArrowRight: 1, Home: -n, End: n }[event.key]; if (by && event.target !== $("line")) { event.preventDefault(); to(p + by * (event.shiftKey ? 10 : 1)); } });
  $("source").append(...lines.map((text, i) => el("div", { id: `l${i + 1}` }, el("i", {}, String(i + 1)), el("i", {}, counts[i + 1] || ""), el("span", {}, text || " "))));
  asked = run.why || null;
  show();
}
