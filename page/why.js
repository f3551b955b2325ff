// How a word came about: the lines of the answer as a drawing, whose lanes are the cells that are followed; and the choices by which its steps were reached.
import { drawn, el, unit } from './dom.js';
import { decimalOf, group, isFixedPlace } from './words.js';
import { chainOf, foldedRows, united } from './links.js';
import { T } from './texts.js';

const LANE = 15, ROW = 25, END = 23, WITHIN = 22, INDEX = 21;
const COLOURS = ["chain", "lane2", "lane3", "lane4", "lane5", "lane6"];

// The lanes of a drawing: which cells are followed at a height, and what has been drawn above.
class Lanes {
  constructor(u) { Object.assign(this, { u, lanes: [], paths: [], dots: [], widest: 0 }); }
  x(i) { return (18 + i * LANE) * this.u; }
  of(cell) { return this.lanes.findIndex((it) => it?.cell === cell); }
  free() { const i = this.lanes.findIndex((it) => !it); return i < 0 ? this.lanes.length : i; }
  begin(cell, i, x, y, of = {}) { this.lanes[i] = { cell, colour: COLOURS[i % COLOURS.length], x, y, ...of }; this.widest = Math.max(this.widest, this.lanes.length - 1); }
  // The lane of a cell leads to a point.
  end(i, x, y) { const { x: x0, y: y0, colour, isWay } = this.lanes[i]; if (y > y0) this.paths.push({ colour, x0, y0, x1: x, y1: y, column: this.x(i), isWay }); this.lanes[i] = null; }
  // The lanes of some cells end at a height, in one point: its lane, its colour.
  meet(cells, y) {
    const mine = cells.map((it) => this.of(it)).filter((i) => i >= 0), at = mine.length ? Math.min(...mine) : this.free(), colour = this.lanes[at]?.colour || COLOURS[at % COLOURS.length];
    for (const i of mine) this.end(i, this.x(at), y);
    return [at, colour];
  }
  // Cells that were read at a point are followed from there on.
  follow(cells, at, y, of) {
    for (const cell of cells) {
      const known = this.of(cell);
      if (known >= 0) this.paths.push({ colour: this.lanes[known].colour, x0: this.x(at), y0: y, x1: this.x(known), y1: y + ROW * this.u, isSide: true, isWay: of?.isWay });
      else this.begin(cell, this.lanes[at] ? this.free() : at, this.x(at), y, of);
    }
  }
  open(y) { this.lanes.forEach((it, i) => { if (it) this.paths.push({ colour: it.colour, x0: it.x, y0: it.y, x1: this.x(i), y1: y + 10 * this.u, column: this.x(i), isOpen: true }); }); }
}

export class Why {
  constructor(root, heard) { Object.assign(this, { root, heard, asked: null, links: [], ways: [] }); this.empty(); }
  empty() {
    Object.assign(this, { asked: null, links: [], ways: [] });
    const starts = this.heard.starts?.() || [];
    this.root.replaceChildren(el("div", { class: "empty" }, el("b", {}, T.whyHead), el("p", {}, T.whyText), ...starts.map(([text, name, work], i) => el("p", { class: "start" }, text, " ", el("button", { class: "small", id: `start${i}`, onclick: work }, name)))));
  }
  // An answer in words, or in lines as the program tells it.
  answer(title, ...inside) {
    Object.assign(this, { asked: null, links: [], ways: [] });
    this.root.replaceChildren(el("div", { class: "empty told-why" }, el("b", {}, title), ...inside));
    this.root.scrollTop = 0;
  }
  isRope(cell) { return isFixedPlace(cell) || this.heard.isRope(cell); }
  // Shows an answer; where it is one that stands there with a choice more or less, nothing moves.
  show(asked) {
    const { links, start, more, refused, way } = chainOf(asked.lines), isAgain = this.asked === asked, top = this.root.scrollTop, focused = isAgain && this.root.contains(document.activeElement) ? document.activeElement.dataset.row : null;
    asked.ways ||= new Map(); asked.opened ||= new Set();
    Object.assign(this, { asked, links });
    if (refused || (!links.length && !start.length && !way)) { this.root.replaceChildren(el("div", { class: "empty" }, refused || (asked.isWay ? T.noChoice : T.whyNothing))); return; }
    // (the choices that were asked for, with what they were made by)
    const told = [...asked.ways.values()].map((lines) => chainOf(lines)), ways = [...new Map([way, ...told.map((it) => it.way)].filter(Boolean).map((it) => [it.t, it])).values()], own = new Set(links.map((it) => it.t));
    const all = united(links, ...told.map((it) => it.links)), led = new Map([...asked.ways].map(([t, lines]) => [t, chainOf(lines).way?.t]));
    this.ways = ways;
    const rows = [...all.map((link) => ({ kind: "link", t: link.t, link, led: led.get(link.t), isAlone: led.get(link.t) !== undefined, isOfWay: !own.has(link.t) && !way })), ...ways.map((it) => ({ kind: "way", t: it.t, way: it }))].sort((a, b) => b.t - a.t || (a.kind === "way" ? 1 : -1));
    const starts = [...new Map([...start, ...told.flatMap((it) => it.start)].map((it) => [it[0], it])).values()];
    this.root.replaceChildren(this.head(links, start, more), this.draw(foldedRows(rows), starts), ways.length ? this.legend() : "");
    if (more && asked.place) this.root.append(el("button", { class: "more", onclick: () => this.heard.more() }, T.whyMore(more)));
    this.root.scrollTop = isAgain ? top : 0;
    if (focused) this.root.querySelector(`[data-row="${focused}"]`)?.focus({ preventScroll: true });
  }
  // What it is made of, in one line.
  head(links, start, more) {
    const { asked } = this, made = new Map(), add = (cell, word, kind) => made.set(`${cell} ${word} ${kind}`, [cell, word, kind]);
    for (const it of links) {
      for (const [cell, word] of it.read) if (this.isRope(cell)) add(cell, word, "rope");
      if (asked.steps[it.t]?.word === "INPUT") add(it.text, it.written[0]?.[1], "input");
    }
    for (const [cell, word] of start) add(cell, word, "start");
    const title = asked.place ? el("h2", {}, T.whyIs, el("code", {}, asked.place), asked.word ? ` ${decimalOf(asked.word)}` : "", "?") : el("h2", {}, asked.isWay ? T.whyCame(group(asked.p)) : T.whyStep);
    const parts = el("p", {}, el("span", { class: "count" }, `${T.whySteps(links.length, group(asked.p))} `));
    if (made.size) parts.append(`${T.madeOf} `);
    for (const [name, word, kind] of [...made.values()].slice(0, 10)) parts.append(el("span", { class: `made ${kind}`, title: T.ends[kind] }, el("code", {}, kind === "input" ? name : `${this.heard.nameOf(name)} ${decimalOf(word)}`), kind === "start" ? ` ${T.atStart}` : ""), " ");
    if (made.size > 10) parts.append(T.andMore(made.size - 10));
    if (more && made.size) parts.append(T.soFar);
    const ruptSteps = links.filter((it) => it.within);
    if (ruptSteps.length && ruptSteps.length < links.length) parts.append(" ", el("button", { class: "badge", onclick: () => this.heard.seek(ruptSteps[0].t) }, T.inInterrupts(ruptSteps.length)));
    return el("div", { class: "ask" }, title, parts);
  }
  // What the signs of choices mean.
  legend() {
    const u = unit(), svg = drawn("svg", { width: 34 * u, height: 14 * u, "aria-hidden": "true" });
    svg.append(drawn("path", { d: `M${2 * u} ${7 * u}H${32 * u}`, class: "s-way", "stroke-width": 2 * u, "stroke-dasharray": `${5 * u} ${3 * u}` }), this.sign("way", 17 * u, 7 * u, "way", u));
    return el("p", { class: "legend" }, svg, T.wayLegend);
  }
  // Whether rounds stand there one by one.
  isOpen(fold) { return this.asked.opened.has(fold.rows[0].t); }
  draw(rows, starts) {
    const u = unit(), lanes = new Lanes(u), items = [];
    let y = 0, within = 0, widest = 0;
    const add = (row) => {
      if (row.kind === "link" && row.link.within && row.link.within !== within) { items.push({ kind: "within", step: row.link.within }); y += WITHIN * u; }
      if (row.kind === "link") within = row.link.within;
      items.push(row);
      const middle = y + (ROW * u) / 2;
      if (row.kind === "rounds") this.drawRounds(lanes, row, middle);
      else if (row.kind === "way") this.drawWay(lanes, row.way, middle);
      else widest = Math.max(widest, this.drawLink(lanes, row, middle));
      y += ROW * u;
      if (row.link?.index) { items.push({ kind: "index", link: row.link }); y += INDEX * u; }
      if (row.kind === "rounds" && this.isOpen(row)) row.rows.forEach(add);
    };
    rows.forEach(add);
    for (const [cell, word] of starts) {
      const i = lanes.of(cell), at = i >= 0 ? i : 0, middle = y + (END * u) / 2;
      if (i >= 0) lanes.end(i, lanes.x(i), middle);
      lanes.dots.push(["start", lanes.x(at), middle, "soft"]);
      items.push({ kind: "end", cell, word });
      y += END * u;
    }
    lanes.open(y);
    const room = lanes.x(Math.max(widest, lanes.widest)) + 12 * u, box = el("div", { class: room > 100 * u ? "chain tight" : "chain", role: "list", "aria-label": T.whyPane });
    box.style.setProperty("--lanes", `${room}px`);
    box.style.setProperty("--steps", `${(String(Math.max(...rows.map((it) => it.t || 0), 0)).length * 0.72 + 1.4).toFixed(2)}rem`);
    box.append(...items.map((it) => this.item(it)), this.picture(lanes, room, y + 12 * u, u));
    return box;
  }
  // A step: the lanes of what it wrote end here. Returns how far to the right it is drawn.
  drawLink(lanes, { link, led, isOfWay }, y) {
    const { u } = lanes, [at, colour] = lanes.meet(link.written.map(([cell]) => cell), y), told = this.asked.steps[link.t]?.word, kind = told === "INPUT" ? "input" : told === "ENTRY" ? "entry" : "step";
    lanes.dots.push([kind, lanes.x(at), y, kind === "input" ? "in" : kind === "entry" ? "rupt" : isOfWay ? "way" : colour]);
    let widest = at;
    // (a word of the rope is a square beside the step)
    if (link.read.some(([cell]) => this.isRope(cell))) {
      widest = Math.max(at + 1, lanes.lanes.length);
      lanes.paths.push({ colour: "faint", x0: lanes.x(at), y0: y, x1: lanes.x(widest), y1: y, isFlat: true });
      lanes.dots.push(["rope", lanes.x(widest), y, "soft"]);
    }
    lanes.follow(link.read.map(([cell]) => cell).filter((cell) => !this.isRope(cell)), at, y, isOfWay ? { isWay: true } : {});
    // (and so is the choice by which it was reached)
    if (led) lanes.follow([`way ${led}`], at, y, { colour: "way", isWay: true });
    return widest;
  }
  drawWay(lanes, way, y) {
    const [at] = lanes.meet([`way ${way.t}`], y);
    lanes.dots.push(["way", lanes.x(at), y, "way"]);
    lanes.follow(way.read.map(([cell]) => cell).filter((cell) => !this.isRope(cell)), at, y, { isWay: true });
  }
  // Rounds that are one row: their lanes go on, each as the last of them leaves it.
  drawRounds(lanes, fold, y) {
    const touched = [];
    for (const { link, isOfWay } of this.isOpen(fold) ? [] : fold.rows) {
      const [at] = lanes.meet(link.written.map(([cell]) => cell), y);
      touched.push(at);
      lanes.follow(link.read.map(([cell]) => cell).filter((cell) => !this.isRope(cell)), at, y, isOfWay ? { isWay: true } : {});
    }
    if (touched.length) lanes.dots.push(["rounds", lanes.x(Math.min(...touched)), y, lanes.lanes[Math.min(...touched)]?.colour || "chain"]);
  }
  item(it) {
    const { heard } = this, name = (cell) => heard.nameOf(cell), lit = (t) => ({ onmouseenter: () => heard.point(t), onmouseleave: () => heard.point(null), onfocus: () => heard.point(t), onblur: () => heard.point(null) });
    if (it.kind === "within") return el("div", { class: "within", role: "listitem" }, el("span", {}, T.within(this.asked.steps[it.step]?.text || ""), " ", el("button", { onclick: () => heard.seek(it.step) }, group(it.step))));
    if (it.kind === "index") return el("div", { class: "indexed", role: "listitem" }, el("button", { title: T.indexTitle(it.link.index.t), onclick: () => heard.seek(it.link.index.t - 1) }, `${it.link.index.text.split(" : ")[0]}  ${it.link.index.sum}`));
    if (it.kind === "end") return el("div", { class: "link end", role: "listitem" }, el("span"), el("span", { class: "s" }), el("span", { class: "w" }, name(it.cell), el("em", {}, T.atStart)), el("span", { class: "v" }, `${it.word}  `, el("b", {}, decimalOf(it.word))));
    if (it.kind === "rounds") return this.rounds(it);
    if (it.kind === "way") {
      const { way } = it, by = way.read.map(([cell, word]) => `${name(cell)} ${decimalOf(word)}`).join(", "), to = way.to.split(" ").slice(1).join(" ") || way.to;
      return el("div", { role: "listitem" }, el("button", { class: "link fork", "data-t": way.t, "data-row": `way${way.t}`, title: T.wayTitle(way.t, way.text, way.to, by), onclick: () => heard.seek(way.t), ...lit(way.t) }, el("span"), el("span", { class: "s" }, group(way.t)), el("span", { class: "w" }, way.text, el("em", {}, T.ledTo(to))), el("span", { class: "v" }, el("b", {}, by))));
    }
    const { link } = it, [cell, word] = link.written[0] || ["", null], say = (pairs) => pairs.map((pair) => pair.join(" ")).join(", ") || T.nothing, isAsked = this.asked.ways.has(link.t);
    const button = el("button", { class: `link${link.within ? " rupt" : ""}`, "data-t": link.t, "data-row": `link${link.t}`, title: T.linkTitle(link.t, link.text, say(link.written), say(link.read)), onclick: () => heard.seek(link.t), ...lit(link.t) });
    button.append(el("span"), el("span", { class: "s" }, group(link.t)), el("span", { class: "w" }, link.text, ...link.read.filter(([one]) => this.isRope(one)).map(([one, value]) => el("em", { title: T.ropeWord(name(one)) }, decimalOf(value)))), el("span", { class: "v" }, `${name(cell)} `, el("i", {}, word || ""), "  ", el("b", {}, word ? decimalOf(word) : "")));
    const ask = heard.hasWays() ? el("button", { class: "ask-way", "data-row": `ask${link.t}`, "aria-pressed": String(isAsked), "aria-label": T.askWay(group(link.t)), title: T.askWay(group(link.t)), onclick: () => heard.way(link.t) }, "\u25c7") : "";
    return el("div", { role: "listitem", class: "step-of" }, button, ask);
  }
  // Rounds of a loop as one row, which a click opens.
  rounds(fold) {
    const { rows, count, size } = fold, isOpen = this.isOpen(fold), { opened } = this.asked, first = rows[0].t, last = rows[rows.length - 1].t;
    const work = () => { if (!opened.delete(first)) opened.add(first); this.show(this.asked); this.heard.folded(); };
    return el("div", { role: "listitem" }, el("button", { class: "link rounds", "aria-expanded": String(isOpen), "data-first": first, "data-last": last, "data-row": `rounds${first}`, title: T.roundsTitle(isOpen), onclick: work }, el("span"), el("span", { class: "s" }, isOpen ? "\u25be" : "\u25b8"), el("span", { class: "w" }, T.rounds(group(count), size)), el("span", { class: "v" }, T.roundsSteps(group(first), group(last)))));
  }
  picture({ paths, dots }, width, height, u) {
    const svg = drawn("svg", { width, height, "aria-hidden": "true" });
    for (const { colour, x0, y0, x1, y1, column, isSide, isOpen, isFlat, isWay } of paths) {
      // Down a column of its own, with round corners where it leaves and where it comes.
      let d = `M${x0} ${y0}`;
      if (isFlat) d += `H${x1}`;
      else if (isSide) d += `C${x0} ${y0 + 12 * u} ${x1 - 6 * u} ${y1} ${x1} ${y1}`;
      else {
        if (column !== x0) d += `C${x0} ${y0 + 13 * u} ${column} ${y0 + 8 * u} ${column} ${Math.min(y1 - 10 * u, y0 + 24 * u)}`;
        d += column === x1 ? `V${y1}` : `V${Math.max(y0 + 22 * u, y1 - 20 * u)}C${column} ${y1 - 8 * u} ${x1} ${y1 - 12 * u} ${x1} ${y1}`;
      }
      svg.append(drawn("path", { d, fill: "none", class: `s-${isWay ? "way" : colour}`, "stroke-width": (colour === "faint" ? 1.2 : 2) * u, "stroke-linecap": isWay ? "butt" : "round", "stroke-dasharray": isWay ? `${5 * u} ${3 * u}` : isOpen ? "2 4" : null }));
    }
    for (const it of dots) svg.append(this.sign(...it, u));
    return svg;
  }
  // What stands at a step: where what is drawn there begins or ends.
  sign(kind, cx, cy, colour, u) {
    const fill = { class: `f-${colour}` };
    if (kind === "rope") return drawn("rect", { x: cx - 3.5 * u, y: cy - 3.5 * u, width: 7 * u, height: 7 * u, rx: 1.5 * u, ...fill });
    if (kind === "start") return drawn("circle", { cx, cy, r: 4 * u, class: `f-pane s-${colour}`, "stroke-width": 1.6 * u });
    if (kind === "input") return drawn("path", { d: `M${cx - 5 * u} ${cy - 4 * u}h${10 * u}l${-5 * u} ${8.5 * u}z`, ...fill });
    if (kind === "entry") return drawn("rect", { x: cx - 6 * u, y: cy - 3 * u, width: 12 * u, height: 6 * u, rx: 3 * u, ...fill });
    if (kind === "way") return drawn("path", { d: `M${cx - 6 * u} ${cy}l${6 * u} ${-6 * u}l${6 * u} ${6 * u}l${-6 * u} ${6 * u}z`, class: `f-${colour} s-pane`, "stroke-width": 1.5 * u });
    if (kind === "rounds") { const made = drawn("g", {}); for (const by of [-6, 0, 6]) made.append(drawn("circle", { cx, cy: cy + by * u, r: 2.4 * u, class: `f-${colour} s-pane`, "stroke-width": u })); return made; }
    return drawn("circle", { cx, cy, r: 4.6 * u, class: `f-${colour} s-pane`, "stroke-width": 2 * u });
  }
  // The step that led to the position.
  stand(p) {
    for (const it of this.root.querySelectorAll(".link[data-t], .rounds")) {
      const isAt = it.dataset.t ? Number(it.dataset.t) === p : it.getAttribute("aria-expanded") === "false" && Number(it.dataset.last) <= p && p <= Number(it.dataset.first) && this.links.some((one) => one.t === p);
      if (isAt && !it.classList.contains("at")) {
        const box = it.getBoundingClientRect(), pane = this.root.getBoundingClientRect(), head = this.root.querySelector(".ask")?.offsetHeight || 0;
        if (box.top < pane.top + head || box.bottom > pane.bottom) this.root.scrollTop += box.top - pane.top - head - 60;
      }
      it.classList.toggle("at", isAt);
      it.setAttribute("aria-current", isAt ? "step" : "false");
    }
  }
}
