// Two runs side by side: the one before an edit, or one that was kept, beside the one that stands here. What of them differs first.
import { el } from './dom.js';
import { channelName, decimalOf, group, octal } from './words.js';
import { Ended } from './session.js';
import { drawBoth } from './both.js';
import { T } from './texts.js';

// The most steps that are read of two runs; how many stand before and after the one at which they part; the most words that are told.
const MOST_READ = 500_000, BEFORE = 4, AFTER = 14, MOST_WORDS = 40;
// The most steps whose lines of time are drawn: of longer runs those around where they part, or the last.
const MOST_DRAWN = 60_000;
const bits15 = (word) => word.slice(-5);

// Which places of one program are those of another: of lines that stand in both.
function movedOf(old, now) {
  const places = new Map(), words = new Set(), least = Math.min(old.lines.length, now.lines.length);
  let head = 0, tail = 0;
  while (head < least && old.lines[head] === now.lines[head]) head += 1;
  while (tail < least - head && old.lines[old.lines.length - 1 - tail] === now.lines[now.lines.length - 1 - tail]) tail += 1;
  for (const [line, { place, word }] of old.names.rows) {
    const other = line <= head ? line : line > old.lines.length - tail ? line + now.lines.length - old.lines.length : 0, row = now.names.rows.get(other), found = row?.place;
    if (!found) continue;
    // (the instruction itself, of which a place is a part)
    words.add(`${word} ${row.word}`);
    if (found === place) continue;
    places.set(place, found);
    // (as an address, and with its bank)
    const of = (text) => { const [bank, at] = text.split(",").map((it) => parseInt(it, 8)); return [at, (bank << 10) | (at & 0o1777)]; };
    of(place).forEach((it, i) => words.add(`${octal(it & 0o77777)} ${octal(of(found)[i] & 0o77777)}`));
  }
  return { places, words };
}
// Whether a step of one run is that of the other: the same instruction, which has written and put out the same.
function samenessOf(old, now) {
  const { places, words } = movedOf(old, now), word = (a, b) => bits15(a) === bits15(b) || words.has(`${bits15(a)} ${bits15(b)}`);
  const number = (text) => (/^[+-]?[0-7]{4,6}$/.test(text) ? text.replace(/^[+-]/, "").padStart(5, "0") : null), part = (a, b) => a === b || places.get(a) === b || (number(a) !== null && number(b) !== null && word(number(a), number(b)));
  const did = (a, b) => { if (a.text === b.text) return true; const [one, other] = [a, b].map((it) => it.text.split(" ")); return one.length === other.length && one.every((it, i) => part(it, other[i])); };
  return {
    word, did, isMoved: places.size > 0,
    is: (a, b) => did(a, b) && a.written.length === b.written.length && a.written.every(([cell, one], i) => old.names.of(cell) === now.names.of(b.written[i][0]) && word(one, b.written[i][1])) && a.output?.channel === b.output?.channel && a.output?.word === b.output?.word,
  };
}
// The first word put out that differs: its number, and what each run has there; null where none does.
export function firstWord(old, now) {
  const from = Math.max(old.outputs.first, now.outputs.first), to = Math.max(old.outputs.count, now.outputs.count), of = ({ outputs }, i) => (i < outputs.count ? { cycles: outputs.cycles[i - outputs.first], channel: outputs.channels[i - outputs.first], word: octal(outputs.words[i - outputs.first]) } : null);
  for (let i = from; i < to; i += 1) {
    const a = of(old, i), b = of(now, i);
    // (what a run that is shorter has not come to yet is no difference)
    if ((!a && old.n < now.n) || (!b && now.n < old.n)) return null;
    if (!a || !b || a.channel !== b.channel || a.word !== b.word) return { number: i + 1, a, b };
  }
  return null;
}
// Rows of both, of which those of one instruction stand beside one another.
function paired(a, b, did) {
  const best = Array.from({ length: a.length + 1 }, () => new Array(b.length + 1).fill(0)), rows = [];
  for (let i = a.length - 1; i >= 0; i -= 1) for (let k = b.length - 1; k >= 0; k -= 1) best[i][k] = did(a[i], b[k]) ? best[i + 1][k + 1] + 1 : Math.max(best[i + 1][k], best[i][k + 1]);
  for (let i = 0, k = 0; i < a.length || k < b.length;) {
    if (i < a.length && k < b.length && did(a[i], b[k])) rows.push([a[i++], b[k++]]);
    else if (k >= b.length || (i < a.length && best[i + 1][k] >= best[i][k + 1])) rows.push([a[i++], null]);
    else rows.push([null, b[k++]]);
  }
  return rows;
}

export class Compare {
  constructor(root, heard) { Object.assign(this, { root, heard, old: null, told: null, turn: 0 }); this.show(); }
  // A run to which those that follow are compared. One that a person has kept stays.
  take(run, isKept = false) {
    if (!isKept && this.old?.isKept) return;
    // (a run that goes on puts out more)
    const { first, count, cycles, channels, words } = run?.outputs || {};
    this.old = run && { ...run, isKept, outputs: { first, count, cycles: cycles.slice(), channels: channels.slice(), words: words.slice() } };
    this.forget();
  }
  forget() { this.turn += 1; this.told = null; this.tell(); }
  // The run that stands here has changed, or the pane is looked at.
  async show(isSeen = false) {
    const { old } = this, now = this.heard.now();
    if (!old || !now) { this.tell(); this.draw(null); return; }
    const key = `${now.number} ${now.n} ${now.feed.length} ${now.outputs.count}`;
    if (this.told?.key !== key) this.told = { key, word: firstWord(old, now) };
    this.tell();
    if (!isSeen) return;
    this.draw(now);
    const { told } = this;
    // (what was forgotten meanwhile is read anew, though it has the same key)
    if (!told.steps && !this.isReading) { await this.read(old, now); if (this.told !== told || this.old !== old) return this.show(isSeen); this.draw(now); }
    return undefined;
  }
  // What the tab says.
  tell() { const is = this.told && this.old; this.heard.counted(is ? (this.told.word ? "\u2260" : "=") : "", Boolean(is && this.told.word)); }
  // The first step at which they part, with those around it, and the words in which they end apart.
  async read(old, now) {
    const mine = ++this.turn, { told } = this, same = samenessOf(old, now), sides = [old, now].map((it) => this.heard.reader(it)), kept = [[], []];
    this.isReading = true;
    try {
      const most = Math.min(MOST_READ, Math.max(old.n, now.n)), least = Math.min(most, old.n, now.n);
      let at = 0, apart = 0;
      while (!apart && at < least) {
        const [a, b] = await Promise.all(sides.map((it) => it.next(least)));
        if (mine !== this.turn) return;
        for (let i = 0; i < a.length && !apart; i += 1) if (!same.is(a[i], b[i])) apart = a[i].t;
        kept[0].push(...a); kept[1].push(...b);
        at = sides[0].at;
        if (!apart) for (const it of kept) it.splice(0, Math.max(0, it.length - BEFORE));
        this.heard.progress(at, least);
      }
      // (their next steps too)
      if (apart) await Promise.all(sides.map(async (it, i) => { while (it.at < apart + AFTER) { const more = await it.next([old, now][i].n); if (!more.length) break; kept[i].push(...more); } }));
      const near = kept.map((list) => list.filter((it) => it.t >= apart - BEFORE && it.t <= apart + AFTER)), ends = [old, now].map((it) => Math.min(it.n, Math.max(MOST_READ, apart + AFTER)));
      const words = await Promise.all(sides.map((it, i) => it.words(ends[i])));
      if (mine !== this.turn) return;
      const names = old.names.erasable.filter((it) => now.names.erasableNumber(it.name) !== null).map(({ name, at: place }) => [name, words[0][place], words[1][now.names.erasableNumber(name)]]).filter(([, a, b]) => a !== undefined && b !== undefined && !same.word(a, b));
      Object.assign(told, { steps: true, apart, near, least, isWhole: ends[0] === old.n && ends[1] === now.n, rows: apart ? paired(near[0], near[1], same.did) : [], same, names });
      const all = Math.max(old.n, now.n), from = all <= MOST_DRAWN ? 0 : Math.max(0, Math.min(apart ? apart - MOST_DRAWN / 2 : all, least - MOST_DRAWN)), to = from + MOST_DRAWN;
      // (words and places are compared by the program, so nothing may have moved)
      const [lines, outside] = await Promise.all([Promise.all([old, now].map((it) => this.heard.timeline(it, from, to))), same.isMoved || !apart ? null : this.heard.parting(old, now, least)]);
      if (mine === this.turn) Object.assign(told, { lines, outside });
    } catch (failed) { if (!(failed instanceof Ended)) throw failed; } finally { this.isReading = false; this.heard.progress(null); for (const it of sides) it.end(); }
  }
  draw(now) {
    const { root, heard, old, told } = this, small = (text, work) => el("button", { class: "small", onclick: work }, text);
    const keep = now ? small(old?.isKept ? T.keepInstead : T.keepRun, () => heard.keep()) : "";
    if (!old || !now) { root.replaceChildren(el("div", { class: "empty-tab" }, el("p", {}, T.noOther), keep || (heard.now() ? small(T.keepRun, () => heard.keep()) : ""))); return; }
    const head = el("div", { class: "tests-head" }, el("span", { class: "other" }, el("b", {}, old.isKept ? T.keptRun : old.label), ` ${old.name}, ${T.someSteps(old.n, group(old.n))}`), keep, small(T.openOther, () => heard.restore(old)), small(T.dropOther, () => { this.old = null; this.forget(); this.draw(now); }));
    const facts = el("div", { class: "facts" }, el("div", { class: "tests" }, this.wordRow(told.word), ...(told.steps ? [this.stepRow(told)] : [el("p", { class: "quiet" }, T.reading)])));
    const beside = el("div", { class: "beside" }, told.rows?.length ? this.pairs(told) : "");
    root.replaceChildren(head, el("div", { class: "both" }, facts, beside));
    // (where one stands below the other they come after what is told)
    const isBelow = beside.offsetTop > facts.offsetTop, room = isBelow ? facts.clientWidth : beside.clientWidth;
    if (told.lines?.every(Boolean) && room) (isBelow ? facts : beside).insertBefore(this.lines(told, room), isBelow ? facts.children[1] || null : beside.firstChild);
    if (told.names?.length) facts.append(this.ends(told, now));
  }
  // Both lines of time, and where they part: the first step, the first outside of interrupts, the first other word.
  lines({ lines, apart, near, outside, word }, width) {
    const { old, heard } = this, names = [old.isKept ? T.keptRun : old.label, T.nowRun], at = near.map((list) => list.find((it) => it.t === apart)), put = word && (word.b || word.a), of = (one, i) => (one ? lines[i].outputs.findIndex(([cycles]) => cycles === one.cycles) : -1);
    const flags = [apart && { kind: 0, cycles: (at[1] || at[0]).cycles, text: T.partFlag(group(apart)) }, outside && { kind: 1, cycles: (outside[1] || outside[0]).cycles, text: T.outsideFlag(group((outside[1] || outside[0]).t)) }, put && { kind: 2, cycles: put.cycles, text: T.putFlag(group(word.number)) }].filter(Boolean);
    return drawBoth({ runs: lines.map((it, i) => ({ ...it, name: names[i], first: of(word?.[i ? "b" : "a"], i) })), flags, width, cell: heard.cell(), go: (cycles) => heard.until(cycles) });
  }
  row(isSame, head, text, work) {
    const inside = [el("b", { "aria-hidden": "true" }, isSame ? "=" : "\u2260"), el("span", {}, head), el("em", {}, text)];
    return work ? el("button", { class: `test ${isSame ? "good" : "bad"}`, onclick: work }, ...inside) : el("div", { class: `test ${isSame ? "good" : "bad"}` }, ...inside);
  }
  wordRow(word) {
    if (!word) return this.row(true, T.wordsHead, T.sameWords);
    const say = (it) => (it ? `${it.word} (${decimalOf(it.word)}) ${T.onChannel(octal(it.channel, 3))}, ${T.cycle(group(it.cycles))}` : T.noWordHere);
    return this.row(false, T.wordsHead, T.otherWords(group(word.number), say(word.a), say(word.b)), word.b && (() => this.heard.until(word.b.cycles).then(() => this.heard.why(channelName(word.b.channel)))));
  }
  stepRow({ apart, near, least }) {
    if (!apart) return this.row(true, T.stepsHead, T.sameSteps(group(least)));
    const [a, b] = near.map((list) => list.find((it) => it.t === apart));
    return this.row(false, T.stepsHead, a.text === b.text ? T.partWord(group(apart), b.text) : T.partStep(group(apart), a.text, b.text), () => this.heard.seek(apart));
  }
  pairs({ rows, apart, same }) {
    const body = el("tbody"), { old } = this, now = this.heard.now();
    for (const [a, b] of rows) {
      const isSame = a && b && same.is(a, b), say = (it, names) => it.written.map(([cell, word]) => `${names.of(cell)}=${word}`).join(" ");
      body.append(el("tr", { class: [isSame ? "" : "apart", b?.t === apart && "at"].filter(Boolean).join(" "), "data-t": b?.t, tabindex: b ? 0 : null, onclick: b ? () => this.heard.seek(b.t) : null, onkeydown: (event) => { if (event.key === "Enter" && b) this.heard.seek(b.t); } },
        ...[[a, old.names], [b, now.names]].flatMap(([it, names]) => (it ? [el("td", {}, group(it.t)), el("td", {}, it.text), el("td", {}, say(it, names), it.output ? el("span", { class: "out" }, ` CH ${octal(it.output.channel, 3)} ${it.output.word}`) : "")] : [el("td", {}, ""), el("td", { class: "gap" }, ""), el("td", { class: "gap" }, "")]))));
    }
    return el("table", { class: "pairs", "aria-label": T.stepsHead }, el("thead", {}, el("tr", {}, ...[old.isKept ? T.keptRun : old.label, T.nowRun].flatMap((it) => [el("th", { scope: "col" }, T.stepWord), el("th", { scope: "col" }, it), el("th", { scope: "col" }, T.writtenWord)]))), body);
  }
  ends({ names, isWhole }, now) {
    const body = el("tbody"), head = isWhole ? T.endsHead : T.wordsAfter(group(MOST_READ));
    for (const [name, a, b] of names.slice(0, MOST_WORDS)) body.append(el("tr", { tabindex: 0, title: T.clickWhy, onclick: () => this.heard.seek(now.n).then(() => this.heard.why(name)), onkeydown: (event) => { if (event.key === "Enter") event.target.click(); } }, el("td", {}, name), el("td", {}, `${a} ${decimalOf(a)}`), el("td", {}, `${b} ${decimalOf(b)}`)));
    return el("table", { class: "pairs ends", "aria-label": head }, el("thead", {}, el("tr", {}, ...[head, this.old.isKept ? T.keptRun : this.old.label, T.nowRun].map((it) => el("th", { scope: "col" }, it)))), body, names.length > MOST_WORDS ? el("caption", {}, T.andMore(names.length - MOST_WORDS)) : "");
  }
}
