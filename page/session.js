// A program, its feed and its run, as the debugger knows them. No other file of the page writes a command or reads a reply.
//
// A session tells of a step far before its last one by executing steps again, once for each command.
// So a picture of the machine is asked of a session that ends shortly beyond the position: the run's own, or one of a few others over the same run ("views").
import { Outputs } from './outputs.js';
import { COUNTERS, erasableOf, INTERRUPTS, placeOf } from './words.js';

export const SOURCE = "source.agc";
export const FEED = "inputs.feed";
const EXPECT = "my.expect", MARK = "--";
// The length of a part of a long move, by the clock and by what it writes; the steps of a part at first.
const PART_MS = 90, PART_BYTES = 300_000, FIRST_PART = 1 << 18, LEAST_PART = 1 << 20, MOST_PART = 1 << 24;
// What a step back costs in steps, and the start of a session; how far a view ends beyond the position.
const BACK = 10, START = 300_000, BEYOND = 64, MOST_VIEWS = 3;
export const AROUND = 24, MOST_STEPS = 1_099_511_627_774;
// The line of time is exact for so many steps, and has so many samples beyond.
const MOST_EXACT = 60_000, SAMPLES = 400, MOST_BUCKETS = 2000, PART_SUMMED = 1 << 21, MOST_COVER = 60_000_000, MOST_NOTED = 30_000_000;
const MOST_FAULTS = 300;
// Cells with a use of their own, as a trace names them where no symbol does.
const SPECIAL = new Map([...COUNTERS, [0o20, "CYR"], [0o21, "SR"], [0o22, "CYL"], [0o23, "EDOP"]]);
// How many steps of another run are read at once, at first and at most.
const FIRST_READ = 500, MOST_READ = 4_000;
// The channels that are looked at: those of the machine, and those that the feed or the program has used.
const CHANNELS = [0o3, 0o4, 0o5, 0o6, 0o7, 0o10, 0o11, 0o12, 0o13, 0o14, 0o15, 0o16, 0o30, 0o31, 0o32, 0o33, 0o34, 0o35, 0o163];
const VECTORS = [0o4004, 0o4010, 0o4014, 0o4020, 0o4024, 0o4030, 0o4034, 0o4040, 0o4044, 0o4050];

export class Ended extends Error {}

// One session of the debugger. Of all but the run's own nobody reads the words that new steps put out, so they are counted there.
class Line {
  constructor(engine, words, files, isRun = false) {
    this.session = engine.session(["debug", "--extended", ...words], files, { most: 1 << 30 });
    Object.assign(this, { n: 0, at: 0, cycles: 0, since: 0, isOver: false });
    this.session.over.then(() => { this.isOver = true; });
    if (!isRun) this.session.send("quiet on");
  }
  // The replies to some commands, a text for each.
  async ask(...commands) {
    if (this.isOver) throw new Ended();
    this.since = performance.now();
    const { output, errors, over } = await this.session.send(commands.length ? commands.map((it) => `${it}\necho ${MARK}`).join("\n") : `echo ${MARK}`);
    this.since = 0;
    if (over) throw new Ended(errors);
    const replies = output.split(new RegExp(`^${MARK}\n`, "m"));
    replies.pop();
    return replies;
  }
  end() { this.isOver = true; this.session.stop(); }
}

const linesOf = (text) => text.split("\n").slice(0, text.endsWith("\n") || !text ? -1 : undefined);
// What the program tells as JSON: an object a line, beside lines that are none.
const objectsOf = (text) => linesOf(text).filter((it) => it.startsWith("{")).map((it) => JSON.parse(it));
export const octalPlace = (number) => number.toString(8);

function atOf(text) {
  const found = /^AT (\d+) (\d+) (.*)$/m.exec(text);
  return found ? { p: Number(found[1]), cycles: Number(found[2]), place: found[3] } : null;
}
// A line of a trace.
function stepOf(line) {
  const [t, cycles, place, word, text, written, output] = line.split(/ {2,}/);
  const pairs = !written || written === "-" ? [] : written.split(" ").map((it) => { const at = it.lastIndexOf("="); return [it.slice(0, at), it.slice(at + 1)]; });
  const told = /CH ([0-7]{3}) ([0-7]{5})/.exec(output || "");
  return { t: Number(t), cycles: Number(cycles), place, word, text: text.trim(), written: pairs, output: told ? { channel: parseInt(told[1], 8), word: told[2] } : null };
}
// After how many of these lines of a trace nothing but one and the same instruction is executed.
function idleIn(lines) {
  const of = (line) => line?.replace(/^\S+ +\S+ +/, ""), last = of(lines[lines.length - 1]);
  let idle = lines.length;
  if (/ TCF? .* -$/.test(last)) while (idle > 0 && of(lines[idle - 1]) === last) idle -= 1;
  return idle;
}
// What `check` tells, fault by fault.
function faultsOf(text) {
  const found = [];
  for (const line of linesOf(text)) {
    const told = /^(source\.agc|inputs\.feed):(\d+):(\d+): (error|warning) (\w+): (.*)$/.exec(line);
    if (told) found.push({ file: told[1] === SOURCE ? "source" : "feed", line: Number(told[2]), column: Number(told[3]), length: 1, kind: told[4], number: told[5], text: told[6], cure: "" });
    else if (found.length) {
      const last = found[found.length - 1], marks = /^ +\| *(\^+)/.exec(line), cure = /^ +[=-]>? (.*)/.exec(line);
      if (marks) last.length = marks[1].length;
      else if (cure) last.cure += (last.cure ? "; " : "") + cure[1];
    }
  }
  return found.slice(0, MOST_FAULTS);
}
// The listing: its rows with a place, and the symbols.
function listingOf(text) {
  const [rows, symbols = ""] = text.split(/^SYMBOLS \d+\n/m);
  return {
    rows: linesOf(rows).map((it) => ({ line: Number(it.slice(0, 5)), place: it.slice(6, 13).trim(), word: it.slice(14, 19).trim() })).filter((it) => it.place),
    symbols: linesOf(symbols).map((it) => { const [name, kind, value] = it.trim().split(/ +/); return { name, kind, value }; }),
  };
}
// A feed with one line more, after those of its cycle. Where a series stands below, whose inputs may have any cycle, it is a series of one at the end.
export function withInput(feed, cycle, text) {
  const lines = feed.replace(/\n$/, "").split("\n");
  if (lines.length === 1 && !lines[0]) lines.pop();
  const firsts = lines.map((it) => it.trim().split(/\s+/)[0]);
  let at = firsts.findIndex((it) => /^\d+$/.test(it) && Number(it) > cycle);
  if (at < 0) at = lines.length;
  if (firsts.slice(at).includes("EVERY")) return [...lines, `EVERY ${cycle} 1 1 1 ${text}`, ""].join("\n");
  return [...lines.slice(0, at), `${cycle} ${text}`, ...lines.slice(at), ""].join("\n");
}
// The inputs of a feed, single ones and series, without their comments.
function inputsOf(feed) {
  const single = [], series = [];
  for (const line of feed.split("\n")) {
    const words = line.split("#")[0].trim().split(/\s+/);
    if (words[0] === "EVERY" && words.length > 5) series.push({ first: Number(words[1]), num: Number(words[2]), den: Number(words[3]), count: Number(words[4]), text: words.slice(5).join(" ") });
    else if (/^\d+$/.test(words[0])) single.push({ cycle: Number(words[0]), text: words.slice(1).join(" ") });
  }
  return { single: single.sort((a, b) => a.cycle - b.cycle), series };
}

// The steps of a run, one after the other.
class Reader {
  constructor(line) { Object.assign(this, { line, at: 0, size: FIRST_READ }); }
  // Some more steps, up to one.
  async next(to) {
    const size = Math.min(this.size, to - this.at);
    if (size <= 0) return [];
    const told = (await this.line.ask(`step ${size}`, `trace ${size}`))[1];
    this.at += size;
    this.size = Math.min(2 * this.size, MOST_READ);
    return linesOf(told).map(stepOf);
  }
  // Erasable memory after a step, no earlier than those that were read.
  async words(step) {
    if (step > this.at) { await this.line.ask(`step ${step - this.at}`); this.at = step; }
    return (await this.line.ask("mem 0 999", "mem 1747 999", "mem 3716 50")).flatMap((reply) => linesOf(reply).map((it) => it.slice(it.lastIndexOf(" ") + 1)));
  }
  end() { this.line.end(); }
}

export class Session {
  constructor(engine, heard = {}) {
    Object.assign(this, { engine, heard, turn: 0, last: Promise.resolve(), main: null, views: [], jobs: new Map(), number: 0, asked: 0 });
    this.clear();
  }
  clear() {
    Object.assign(this, { p: 0, n: 0, cycles: 0, end: 0, breaks: [], outputs: new Outputs(), part: FIRST_PART, around: null, isStopped: false, pressed: new Map(), known: null });
  }
  get files() { return { [SOURCE]: this.source, [FEED]: this.feed }; }
  get words() { return [...(this.flight ? ["--flight"] : []), SOURCE, FEED]; }
  // One thing after another: the run has one session, which answers one question at a time.
  async alone(work) {
    const before = this.last;
    let done;
    this.last = new Promise((it) => { done = it; });
    this.asked += 1;
    await before;
    try { return await work(); } finally { this.asked -= 1; done(); }
  }
  // What is made beside leaves the processor to what a person waits for.
  async leisure(isOver) { while (this.asked && !isOver()) await new Promise((done) => { setTimeout(done, 40); }); }
  // A call beside the session. A newer one of its kind ends it; then it comes to null.
  async beside(kind, words, files = this.files, options) {
    this.jobs.get(kind)?.stop();
    const job = this.engine.call(words, files, "", options);
    this.jobs.set(kind, job);
    const told = await job;
    if (this.jobs.get(kind) === job) this.jobs.delete(kind);
    else if (told.stopped) return null;
    return told.stopped ? null : told;
  }

  // A source and a feed.

  async check(source, feed, flight) {
    const told = await this.beside("check", ["check", ...(flight ? ["--flight"] : []), SOURCE, FEED], { [SOURCE]: source, [FEED]: feed });
    return told && (told.status === 3 || told.failed ? [{ file: "source", line: 1, column: 1, length: 1, kind: "error", number: /E\d+/.exec(told.errors)?.[0] || "", text: told.failed || told.errors.trim(), cure: "" }] : this.tooLong(told) || faultsOf(told.output));
  }
  tooLong(told) {
    const found = /E34.*/.exec(told.errors);
    return found && [...faultsOf(told.output), { file: "source", line: 1, column: 1, length: 1, kind: "error", number: "E34", text: found[0], cure: "" }];
  }
  async explain(number) {
    const told = await this.engine.call(["explain", number], {}, "");
    return (told.output || told.errors).trim();
  }
  // Takes a source: its faults, and, where there is no error, its listing and a run of no steps.
  async open({ source, feed, flight = false }) {
    this.turn += 1;
    const faults = await this.check(source, feed, flight) || [];
    if (faults.some((it) => it.kind === "error")) return { faults };
    const told = await this.engine.call(["asm", ...(flight ? ["--flight"] : []), SOURCE, "out.rope"], { [SOURCE]: source }, "");
    if (told.status) return { faults: [...faults, { file: "source", line: Number(/LINE (\d+)/.exec(told.errors)?.[1] || 1), column: 1, length: 1, kind: "error", number: /E\d+/.exec(told.errors)?.[0] || "", text: told.errors.trim() || told.failed, cure: "" }] };
    this.isClosing = true;
    this.main?.end();
    return this.alone(async () => {
      this.close();
      Object.assign(this, { isClosing: false, source, feed, flight, image: told.files["out.rope"], ...listingOf(told.output) });
      this.clear();
      this.number += 1;
      this.at = new Map();
      for (const it of this.rows) if (it.word && !this.at.has(it.place)) this.at.set(it.place, it);
      this.vectors = VECTORS.filter((it) => this.at.has(`02,${octalPlace(it)}`));
      this.main = new Line(this.engine, this.words, this.files, true);
      const [help] = await this.main.ask("help");
      this.forms = linesOf(help).map((it) => it.replace("HELP ", ""));
      this.has = new Set(this.forms.map((it) => it.split(" ")[0]));
      return { faults, rows: this.rows, symbols: this.symbols };
    });
  }
  close() {
    this.drop();
    this.main?.end();
    for (const it of this.jobs.values()) it.stop();
    this.main = null;
    this.jobs.clear();
  }

  // Moves. A newer one ends the one before.

  go(kind, count = 1) {
    const mine = ++this.turn;
    this.isStopped = false;
    return this.alone(() => this.guarded(() => this.make(kind, count, mine)));
  }
  async guarded(work) {
    try { return await work(); } catch (failed) {
      if (!(failed instanceof Ended) || !this.main) throw failed;
      if (!this.isClosing) await this.remake();
      return "stopped";
    }
  }
  stop() {
    this.turn += 1;
    this.isStopped = true;
    for (const it of [this.main, this.seeker, ...this.views]) if (it?.since && performance.now() - it.since > 600) it.end();
    return this.alone(() => null);
  }
  // Another session makes the same run.
  async remake(feed = this.feed, goal = this.n) {
    const { p, breaks } = this;
    this.feed = feed;
    this.main?.end();
    this.drop();
    this.outputs = new Outputs();
    const line = this.main = new Line(this.engine, this.words, this.files, true);
    this.n = 0; this.p = 0;
    await line.ask(...breaks.map((it) => `break ${it}`));
    const mine = this.turn;
    await this.parts("step", goal, mine);
    this.p = Math.min(p, this.n);
  }
  async atPosition() {
    if (this.main.at !== this.p) this.hear(...await this.main.ask(`goto ${this.p}`));
    return this.main;
  }
  // Keeps what replies tell; returns their other lines.
  hear(...replies) {
    const rest = [];
    for (const reply of replies) {
      for (const line of linesOf(this.outputs.take(reply))) {
        const at = atOf(line);
        if (!at) { rest.push(line); continue; }
        Object.assign(this, { p: at.p, cycles: at.cycles });
        this.main.at = at.p;
        if (at.p >= this.n) { this.n = at.p; this.end = at.cycles; this.main.n = at.p; }
      }
    }
    return rest;
  }
  async make(kind, count, mine) {
    if (!this.main || mine !== this.turn) return "";
    count = Math.max(0, Math.min(count, MOST_STEPS));
    if (kind === "back") [kind, count] = ["goto", Math.max(0, this.p - count)];
    if (kind === "step" && this.p + count <= this.n) [kind, count] = ["goto", this.p + count];
    if (kind === "goto") { this.p = Math.min(count, this.n); return ""; }
    if (kind === "step") { count -= this.n - this.p; this.p = this.n; }
    if (["run", "step", "on", "until"].includes(kind)) return this.parts(kind, count, mine);
    await this.atPosition();
    const rest = this.hear(...await this.main.ask(kind === "seek" ? "seek" : `${kind} ${count}`));
    return rest.find((it) => /^(HIT|NONE|TOOK|E\d)/.test(it)) || "";
  }
  async parts(kind, count, mine) {
    const line = await this.atPosition(), goal = kind === "until" ? 0 : (kind === "run" ? this.n : this.p) + count;
    let left = count, told = performance.now();
    while (kind === "until" ? this.cycles !== count : left > 0) {
      const size = Math.min(this.part, kind === "until" ? Math.max(0, count - this.cycles) : left), began = performance.now();
      const [reply] = await line.ask(kind === "until" ? `until ${size ? this.cycles + size : count}` : `${kind} ${size}`);
      const rest = this.hear(reply), took = performance.now() - began;
      // (on a busy machine a question takes long, however few steps are asked for: so a part is never small for that)
      this.part = took < PART_MS ? Math.min(this.part * 2, MOST_PART) : took > PART_MS * 3 ? Math.max(this.part >> 1, LEAST_PART) : this.part;
      this.part = Math.min(this.part, Math.max(256, Math.round((PART_BYTES * size) / (reply.length + 1))));
      left -= size;
      if (rest.length) return rest[0];
      if (kind === "until" && (!size || this.cycles >= count)) return "";
      if (mine !== this.turn) return "stopped";
      if (performance.now() - told > 110) { told = performance.now(); this.heard.progress?.({ p: this.p, n: this.n, cycles: this.cycles, goal, count: this.outputs.count }); }
    }
    return "";
  }
  // The run in time with the clock, from its last step on.
  pace() {
    const mine = ++this.turn;
    this.isStopped = false;
    return this.alone(() => this.guarded(() => this.paced(mine)));
  }
  async paced(mine) {
    this.p = this.n;
    const line = await this.atPosition();
    let began = performance.now(), told = 0;
    const start = this.cycles, perMs = 1024 / 12;
    while (mine === this.turn) {
      const now = performance.now(), due = start + Math.floor((now - began) * perMs);
      await this.takeKeys();
      if (line.at !== this.n) this.hear(...await line.ask(`goto ${this.n}`));
      const goal = Math.min(due, this.cycles + 60_000);
      if (goal > this.cycles) {
        // (with breakpoints by steps, of which each takes a cycle at least)
        const [reply] = await line.ask(this.breaks.length ? `run ${Math.max(1, (goal - this.cycles) >> 1)}` : `until ${goal}`);
        const rest = this.hear(reply);
        if (rest.length) return rest[0];
        if (goal < due) began += (due - goal) / perMs; // (a program that is slower than the clock, which then waits)
      }
      if (now - told > 120) { told = now; this.heard.paced?.(await this.picture({ hasSteps: false })); }
      else this.heard.display?.(this.outputs.display(this.cycles), this.cycles, this.n);
      await new Promise((done) => { this.wake = done; setTimeout(done, 16); });
    }
    return "stopped";
  }
  async takeKeys() {
    for (const { text, done } of this.keys?.splice(0) || []) done(await this.add(text));
  }

  // Inputs.

  // Whether a line of a feed is one, without its cycle.
  async isInput(text) { return /^[A-Z0-9]{1,8}( [A-Z0-9]{1,8}){1,2}$/.test(text) && (/^PRO /.test(text) || !(await this.check(this.source, `1 ${text}\n`, this.flight))?.some((it) => it.file === "feed")); }
  // An input in the cycle after the position. At the end of the run it comes in at once; before it, the run is made anew with it.
  input(text) {
    if (this.isPaced) return new Promise((done) => { (this.keys ||= []).push({ text, done }); this.wake?.(); });
    this.turn += 1;
    return this.alone(() => this.guarded(async () => {
      if (this.p === this.n) { await this.atPosition(); return this.add(text); }
      const cycle = this.cycles + 1;
      text = await this.keyed(text, this.cycles);
      const feed = withInput(this.feed, cycle, text);
      await this.remake(feed);
      return { cycle, text, feed };
    }));
  }
  async add(text) {
    text = await this.keyed(text, this.end);
    const cycle = this.end + 1, [reply] = await this.main.ask(`add ${cycle} ${text}`);
    if (!reply.startsWith("ADDED")) return { error: reply.trim() };
    this.feed = withInput(this.feed, cycle, text);
    this.drop();
    return { cycle, text, feed: this.feed };
  }
  // PRO is no key of channel 015 but a bit of channel 032, which is zero while it is held.
  async keyed(text) {
    if (!text.startsWith("PRO ")) return text;
    const line = await this.view(), word = this.pressed.get(0o32) ?? parseInt((await line.ask("chan 32"))[0].split(" ")[1], 8);
    const now = text === "PRO DOWN" ? word & ~0o20000 : word | 0o20000;
    this.pressed.set(0o32, now);
    return `CHAN 032 ${now.toString(8).padStart(5, "0")}`;
  }
  // The same run under another feed, up to the same step.
  refeed(feed) { this.turn += 1; return this.alone(() => this.guarded(async () => { await this.remake(feed); return ""; })); }
  // The run is another one from here on: the other sessions over it end.
  drop() {
    for (const it of [...this.views, this.surveyor, this.seeker]) it?.end();
    Object.assign(this, { views: [], surveyor: null, seeker: null, around: null, known: null });
  }

  // Looks.

  // A session that tells of the position at once.
  async view() {
    const goal = Math.min(this.n, this.p + BEYOND), enough = Math.min(this.n, this.p + AROUND);
    const cost = (it) => (it.n >= enough ? Math.max(0, it.n - this.p) * BACK : goal - it.n);
    this.views = this.views.filter((it) => !it.isOver);
    let best = this.views.reduce((a, b) => (!a || cost(b) < cost(a) ? b : a), null);
    const least = Math.min(best ? cost(best) : Infinity, goal + START);
    if ((this.n - this.p) * BACK <= least) return this.atPosition();
    if (!best || goal + START < cost(best)) {
      if (this.views.length >= MOST_VIEWS) this.views.shift().end();
      best = new Line(this.engine, this.words, this.files);
      this.views.push(best);
    }
    for (const mine = this.turn; best.n < enough;) {
      const size = Math.min(goal - best.n, 1 << 23);
      await best.ask(...(best.at === best.n ? [] : [`goto ${best.n}`]), `step ${size}`);
      best.n += size; best.at = best.n;
      if (this.isStopped && mine !== this.turn) throw new Ended();
    }
    this.views = [...this.views.filter((it) => it !== best), best];
    if (best.at !== this.p) {
      const at = atOf((await best.ask(`goto ${this.p}`))[0]);
      best.at = at.p; best.cycles = at.cycles;
    }
    this.cycles = best.cycles || this.cycles;
    return best;
  }
  channels() {
    this.known ||= new Set([...CHANNELS, ...[...this.feed.matchAll(/\bCHAN +([0-7]{1,3})\b/g)].map((it) => parseInt(it[1], 8))]);
    for (const it of this.outputs.used) this.known.add(it);
    return [...this.known].sort((a, b) => a - b);
  }
  look(options) { return this.alone(() => this.guarded(() => this.picture(options))); }
  async picture({ hasSteps = true } = {}) {
    const began = performance.now(), line = await this.view(), channels = this.channels(), all = this.has.has("chans");
    const asks = ["regs all", "where", "mem 0 999", "mem 1747 999", "mem 3716 50", ...(all ? ["chans"] : channels.map((it) => `chan ${octalPlace(it)}`))];
    if (line.at !== this.p) asks.unshift(`goto ${this.p}`);
    const steps = hasSteps ? this.needed() : null;
    if (steps) asks.push(...(steps.to === this.p ? [] : [`goto ${steps.to}`]), `trace ${steps.to - steps.from}`, ...(steps.to === this.p ? [] : [`goto ${this.p}`]));
    const replies = await line.ask(...asks);
    line.at = this.p;
    if (steps) this.around = { ...steps, steps: linesOf(replies[asks.findIndex((it) => it.startsWith("trace "))]).map((it) => this.placed(stepOf(it))) };
    const regs = {}, where = {}, words = [], chans = new Map();
    for (const [i, ask] of asks.entries()) {
      if (ask === "regs all") for (const it of linesOf(replies[i])) { const [name, ...rest] = it.split(" "); regs[name] = rest.join(" "); }
      else if (ask === "where") Object.assign(where, this.standing(replies[i]));
      else if (ask.startsWith("mem ")) for (const it of linesOf(replies[i])) words.push(it.slice(it.lastIndexOf(" ") + 1));
      else if (ask === "chans") for (const it of linesOf(replies[i])) { const told = /^CHAN ([0-7]+) ([0-7]{5})$/.exec(it); if (told) chans.set(parseInt(told[1], 8), told[2]); }
      else if (ask.startsWith("chan ")) chans.set(parseInt(ask.slice(5), 8), /^CHAN ([0-7]{5})/.exec(replies[i])?.[1] ?? "00000");
    }
    this.cycles = Number(regs.CYCLES) || 0;
    const { p, n, cycles, end, breaks, outputs, number } = this;
    return { p, n, cycles, end, breaks: [...breaks], regs, where, words, chans, steps: this.around?.steps || [], display: outputs.display(cycles), count: outputs.count, put: outputs.used, number, took: performance.now() - began };
  }
  // The steps around the position that the page does not have yet.
  needed() {
    const { p, n, around } = this, near = AROUND / 3;
    if (around && around.from <= Math.max(0, p - near) && Math.min(n, p + near) <= around.to) return null;
    const from = Math.max(0, p - AROUND), to = Math.min(n, p + AROUND);
    return to > from ? { from, to } : null;
  }
  placed(step) { const row = this.at.get(step.place); return { ...step, written: step.written.map(([cell, word]) => [this.untraced(cell), word]), line: row && step.word !== "ENTRY" && step.word !== "INPUT" ? row.line : 0 }; }
  standing(reply) {
    const where = { place: "", symbol: "", line: 0, text: "", word: "", interrupt: null };
    for (const line of linesOf(reply)) {
      const [head, ...rest] = line.split(" ");
      if (head === "WHERE") { [where.place] = rest; where.symbol = rest.slice(1).join(" "); where.waits = rest[0] === "BRUPT"; }
      else if (head === "LIST") {
        const listed = line.slice(5), number = Number(listed.slice(0, 5));
        if (number) { where.line = number; where.text = listed.slice(21); where.word = listed.slice(14, 19).trim(); }
        else { const told = listed.trim().split(" "); where.word = told[1] || ""; where.text = told.slice(2).join(" "); }
      } else if (head === "IN") { const told = /(\d+) BY (\d+)/.exec(line); where.interrupt = { number: Number(told[1]), step: Number(told[2]) }; }
    }
    return where;
  }
  // How a word came about: what wrote it, what that read, and so on; with the place of each step, as far as these are found soon.
  why(place, count, isIndexed) { return this.asking(place ? `why ${place} ${Math.min(count, 999)}${isIndexed ? " index" : ""}` : `why${isIndexed ? " index" : ""}`, { place, count }); }
  // What decided that a step was come to: the last choice before it, and how what that was made by came about.
  way(t) { return this.asking("why step", { count: 16, isWay: true }, t - 1); }
  asking(text, more, at = this.p) {
    return this.alone(() => this.guarded(async () => {
      const line = await this.view(), { p } = this;
      const lines = linesOf((await line.ask(...(at === p ? [] : [`goto ${at}`]), text)).pop()), steps = await this.stepsOf(line, lines);
      await line.ask(`goto ${p}`);
      return { lines, steps, p, at, ...more };
    }));
  }
  // The steps that the lines of a chain name, as far as they are found soon.
  async stepsOf(line, lines) {
    const wanted = new Set(), steps = {};
    for (const it of lines) for (const [, t, within] of it.matchAll(/^BY (\d+)| IN STEP (\d+)$/g)) wanted.add(Number(t ?? within));
    const order = [...wanted].sort((a, b) => b - a), until = performance.now() + 1500;
    for (let i = 0; i < order.length && performance.now() < until; i += 8) {
      const some = order.slice(i, i + 8), replies = await line.ask(...some.flatMap((t) => [`goto ${t}`, "trace 1"]));
      some.forEach((t, k) => { const told = replies[2 * k + 1]; if (/^\d/.test(told)) steps[t] = this.placed(stepOf(told.trimEnd())); });
    }
    return steps;
  }
  // What the program tells of a command, as lines of its own.
  lines(text) { return this.alone(() => this.guarded(async () => linesOf((await (await this.view()).ask(text))[0]))); }
  // The first steps of the run, each with what it read for each cell that it wrote.
  record(most) {
    return this.alone(() => this.guarded(async () => {
      const n = Math.min(this.n, most), told = await this.engine.call(["trace", ...this.words, String(n)], this.files, ""), steps = linesOf(told.output).map((it) => this.placed(stepOf(it))), line = await this.view();
      for (let i = 0; i < steps.length; i += 50) {
        const some = steps.slice(i, i + 50), asks = some.flatMap((it) => [`goto ${it.t}`, ...it.written.map(([name]) => `why ${name} 1`)]), replies = await line.ask(...asks);
        let at = 0;
        for (const it of some) {
          at += 1;
          it.reads = it.written.map(() => { const from = / FROM (.*?)(?: IN STEP \d+)?$/m.exec(replies[at]); at += 1; return from && from[1] !== "NOTHING" ? from[1].match(/\S+(?: \+[0-7]+)? [0-7]{5,6}(?= |$)/g)?.map((pair) => pair.replace(/ [0-7]+$/, "")) || [] : []; });
        }
      }
      await line.ask(`goto ${this.p}`);
      return steps;
    }));
  }
  async breakpoint(text) {
    return this.alone(() => this.guarded(async () => {
      const [reply] = await this.main.ask(`break ${text}`);
      return this.told(reply);
    }));
  }
  clearBreak(number) { return this.alone(() => this.guarded(async () => this.told((await this.main.ask(number ? `clear ${number}` : "clear"))[0]))); }
  // Whether a command takes some word, as why takes step.
  can(command, word) { return Boolean(this.forms?.some((it) => it.startsWith(`${command} takes `) && it.split(": ")[0].match(/[a-z]+/g).slice(2).includes(word))); }
  async told(reply) {
    this.breaks = linesOf((await this.main.ask("breaks"))[0]).filter((it) => it.startsWith("BREAK ")).map((it) => it.replace(/^BREAK \d+ /, ""));
    return /^E\d/.test(reply) ? reply.trim() : "";
  }
  // The nearest step before or after the position at which a breakpoint would hold, or null. No breakpoint is set for it.
  nearest(text, isBack) {
    const mine = ++this.turn;
    return this.alone(async () => {
      try {
        const line = await this.lineAt("seeker", this.p, () => mine !== this.turn), [refused, told] = await line.ask(`break ${text}`, isBack ? "seek" : `on ${this.n - this.p}`), at = atOf(told);
        line.n = Math.max(line.n, at?.p || 0);
        return /^E\d/.test(refused) || !/^HIT/m.test(told) ? null : at.p;
      } catch (failed) { if (failed instanceof Ended) return "stopped"; throw failed; }
    });
  }
  // The rows of some places.
  listed(place, count) {
    return this.alone(() => this.guarded(async () => linesOf((await (await this.view()).ask(`list ${place} ${count}`))[0]).map((it) => it.replace(/^LIST /, ""))));
  }
  // What may come in, as lines of a feed: what the feed has, and what the program has a handler for.
  offers() {
    const { single, series } = inputsOf(this.feed), pulses = { 1: "TIME6 DINC", 2: "TIME5 PINC", 3: "TIME3 PINC", 4: "TIME4 PINC" }, handled = this.vectors.map((it) => (it - 0o4000) / 4);
    const all = [...series, ...single].map((it) => it.text).filter((it) => !/^CHAN 0*1[56] /.test(it));
    return [...new Set([...all.map((it) => it.replace(/\s+/g, " ")), ...handled.map((it) => pulses[it]).filter(Boolean), ...handled.map((it) => `RUPT ${it}`)])].slice(0, 8);
  }
  // A line that a person has typed.
  console(text) {
    this.turn += 1;
    return this.alone(() => this.guarded(async () => {
      const refused = /^\s*(quit|quiet)\b/.exec(text);
      if (refused) return { lines: [], refused: refused[1] };
      await this.atPosition();
      const [reply] = await this.main.ask(text);
      const shown = linesOf(reply);
      this.hear(reply);
      if (/^\s*add\b/.test(text) && shown[0] === "ADDED") {
        const [, cycle, ...rest] = text.split("#")[0].trim().split(/\s+/);
        this.feed = withInput(this.feed, Number(cycle), rest.join(" "));
        this.drop();
      }
      await this.told("");
      return { lines: shown.length > 400 ? [...shown.slice(0, 200), `.. ${shown.length - 400} lines more ..`, ...shown.slice(-200)] : shown, feed: this.feed };
    }));
  }

  // What is worked out beside the session, by a call of its own.

  async cover(p = this.p, asked = "cover") {
    const { number } = this, told = await this.beside(asked, ["cover", "--json", ...this.words, String(Math.min(p, MOST_COVER))]);
    if (!told || told.status || number !== this.number) return null;
    const counts = new Map();
    for (const row of objectsOf(told.output)) {
      if (row.kind !== "line" || !row.count) continue;
      const [times, cycles] = counts.get(row.line) || [0, 0];
      counts.set(row.line, [times + row.count, cycles + row.cycles]);
    }
    return counts;
  }
  // What has happened in the run that is seldom meant.
  async notes() {
    const { number } = this;
    if (this.n > MOST_NOTED) return [];
    const told = await this.beside("notes", ["run", "--notes", "--json", ...this.words, String(this.n)], this.files, { unheard: "output" });
    if (!told || told.status || number !== this.number) return null;
    return objectsOf(told.errors).map((it) => ({ kind: it.kind, step: it.step ?? this.n, times: it.count || 1, line: this.at.get(it.place)?.line || 0, text: it.text || it.interrupt || (it.channel ? `CH${it.channel}` : "") }));
  }
  // The name by which a trace tells a cell: its first symbol, the manual's name of one with a use of its own, the symbol before it, or its place. A number that
  // EQUALS has named is told as its place is.
  traced(cell) {
    const found = this.symbols.find((it) => it.name === cell), [base, by] = cell.split(" +");
    if (found && found.kind !== "NUM") return cell;
    const at = found ? (/^[0-7]+$/.test(found.value) ? parseInt(found.value, 8) : null) : by ? this.erasableAt(base, by) : erasableOf(cell);
    return at === null ? cell : this.tracedAt(at);
  }
  tracedAt(at) {
    const named = (number) => this.symbols.find((it) => it.kind === "ERASABLE" && parseInt(it.value, 8) === number)?.name, exact = ["A", "L", "Q", "EB", "FB", "Z", "BB"][at] || named(at) || SPECIAL.get(at);
    if (exact) return exact;
    for (let by = 1; by <= 0o77 && at - by >= 0o61; by += 1) { const name = named(at - by); if (name) return `${name}+${by.toString(8)}`; }
    return placeOf(at);
  }
  erasableAt(base, by) {
    const found = this.symbols.find((it) => it.name === base && it.kind === "ERASABLE");
    return found ? parseInt(found.value, 8) + parseInt(by, 8) : null;
  }
  // A cell of a trace that no symbol is, as a listing has its place.
  untraced(cell) {
    if (this.symbols.some((it) => it.name === cell)) return cell;
    const [base, by] = cell.split("+"), at = by ? this.erasableAt(base, by) : [...SPECIAL].find(([, name]) => name === cell)?.[0] ?? null;
    return at === null ? cell : placeOf(at);
  }
  // What happens in a window of steps: interrupts, inputs, words put out, and the words of a cell.
  async survey({ from, to, cell, buckets }, told) {
    const { number } = this, mine = this.surveyed = (this.surveyed || 0) + 1, isOver = () => mine !== this.surveyed || number !== this.number;
    to = Math.min(this.n, to);
    try {
      const found = to - from <= MOST_EXACT ? await this.exact(from, to, cell, isOver) : (this.has.has("survey") && await this.summed(from, to, cell, Math.min(buckets, MOST_BUCKETS), isOver, told)) || await this.sampled(from, to, cell, Math.min(buckets, SAMPLES), isOver, told);
      return isOver() || !found ? null : { ...found, from, to, cell };
    } catch (failed) { if (failed instanceof Ended) return null; throw failed; }
  }
  surveyorAt(step, isOver) { return this.lineAt("surveyor", step, isOver); }
  async lineAt(which, step, isOver) {
    if (!this[which] || this[which].isOver) this[which] = new Line(this.engine, this.words, this.files);
    const line = this[which];
    await line.ask("clear", "quiet on");
    while (line.n < step) {
      if (which === "surveyor") await this.leisure(isOver);
      const size = Math.min(step - line.n, 1 << 22);
      await line.ask(`goto ${line.n}`, `step ${size}`);
      line.n += size;
      if (isOver()) throw new Ended();
    }
    await line.ask(`goto ${step}`);
    return line;
  }
  async exact(from, to, cell, isOver) {
    const interrupts = [], inputs = [], outputs = [], curve = [], cycles = [], name = this.traced(cell);
    let word = null, open = null;
    if (cell) {
      const line = await this.surveyorAt(from, isOver), [reply] = await line.ask(`mem ${cell}`);
      word = /([0-7]{5,6})\s*$/.exec(reply)?.[1] ?? null;
      curve.push([from, word]);
    }
    if (to <= from) return { kind: "exact", interrupts, inputs, outputs, curve, cycles };
    // (far from the start a session is there already)
    const isFar = to > 40 * MOST_EXACT, all = isFar ? null : await this.beside("survey", ["trace", ...this.words, String(to), "--from", String(from + 1)]);
    if (!isFar && (!all || all.status)) return null;
    const lines = linesOf(isFar ? (await (await this.surveyorAt(to, isOver)).ask(`trace ${to - from}`))[0] : all.output), wanted = cell ? ` ${name}=` : null, every = Math.max(1, Math.floor(lines.length / 1500));
    for (let i = 0; i < lines.length; i += 1) {
      const line = lines[i], step = from + 1 + i;
      // (a page draws between two parts of it)
      if (i % 8000 === 7999) { await new Promise((done) => { setTimeout(done); }); if (isOver()) return null; }
      if (i % every === 0 || i === lines.length - 1) cycles.push([step, Number(line.slice(10, 24).trim().split(" ")[0]) || Number(line.split(/ {2,}/)[1])]);
      if (line.includes("  INPUT  ")) inputs.push([step, line.split(/ {2,}/)[4]]);
      else if (line.includes("  ENTRY  ")) { open = [step, to, line.split(/ {2,}/)[4]]; interrupts.push(open); }
      else if (open && line.includes("  RESUME ")) { open[1] = step; open = null; }
      const put = / CH ([0-7]{3}) ([0-7]{5})$/.exec(line);
      if (put) outputs.push([step, parseInt(put[1], 8), put[2]]);
      if (wanted) {
        const at = line.indexOf(wanted);
        if (at >= 0) { const now = /^[0-7]+/.exec(line.slice(at + wanted.length))[0]; if (now !== word) { word = now; curve.push([step, word]); } }
      }
    }
    return { kind: "exact", interrupts, inputs, outputs, curve, cycles, idle: from + idleIn(lines) };
  }
  // Of as many steps each: how many interrupts, inputs and words put out, and the least, the greatest and the last word. Nothing is passed over.
  async summed(from, to, cell, buckets, isOver, told) {
    const line = await this.surveyorAt(from, isOver), size = Math.ceil((to - from) / buckets), part = size * Math.max(1, Math.floor(PART_SUMMED / size)), interrupts = [], inputs = [], outputs = [], curve = [], bands = [], cycles = [];
    let at = from, shown = performance.now();
    curve.push([from, /([0-7]{5,6})\s*$/.exec((await line.ask(`mem ${cell || "0"}`))[0])?.[1] ?? null]);
    const state = () => ({ kind: "summed", from, to, soFar: at, cell, curve, bands, cycles, interrupts, inputs, outputs, every: size });
    while (at < to) {
      await this.leisure(isOver);
      const end = Math.min(to, at + part), asks = [`survey ${at + 1} ${end} ${Math.ceil((end - at) / size)} ${cell}`];
      if (line.n < end) { asks.unshift(`goto ${line.n}`, `step ${end - line.n}`); line.n = end; }
      const reply = (await line.ask(...asks)).pop();
      if (isOver()) return null;
      if (!/^BUCKET /.test(reply)) return null;
      for (const it of linesOf(reply)) {
        const found = /^BUCKET (\d+) (\d+) ENTRIES (\d+) INPUTS (\d+) OUTPUTS (\d+)(?: : ([0-7]+) ([0-7]+) ([0-7]+))?/.exec(it);
        if (!found) continue;
        const [last, after, entered, taken, put] = found.slice(1, 6).map(Number), [least, most, now] = found.slice(6), window = [at, last];
        if (entered) interrupts.push([at + 1, last, null, entered, window]);
        if (taken) inputs.push([at + 1, null, taken, window]);
        if (put) outputs.push([at + 1, null, null, put, window]);
        if (least !== most) bands.push([at, last, least, most]);
        if (now !== undefined && now !== curve[curve.length - 1][1]) curve.push([last, now]);
        cycles.push([last, after]);
        at = last;
      }
      if (performance.now() - shown > 250) { shown = performance.now(); told?.(state()); }
    }
    return state();
  }
  async sampled(from, to, cell, buckets, isOver, told) {
    const line = await this.surveyorAt(from, isOver), interrupts = [], outputs = [], curve = [], cycles = [], ask = `mem ${cell || "0"}`;
    if (isOver()) return null;
    await line.ask(...this.vectors.map((it) => `break at ${octalPlace(it)}`), "quiet off");
    curve.push([from, /([0-7]{5,6})\s*$/.exec((await line.ask(ask))[0])?.[1] ?? null]);
    let at = from, shown = performance.now(), least = 0;
    const state = () => ({ kind: "sampled", from, to, soFar: at, cell, curve, cycles, interrupts, outputs, inputs: this.inputsNear(cycles), every: Math.round((to - from) / buckets) });
    for (let i = 1; i <= buckets; i += 1) {
      await this.leisure(isOver);
      const goal = from + Math.floor(((to - from) * i) / buckets);
      if (this.vectors.length) {
        const [reply] = await line.ask(`on ${goal - at}`), hit = atOf(reply);
        if (/^HIT/m.test(reply)) interrupts.push([hit.p, hit.p, INTERRUPTS[(parseInt(hit.place.slice(3), 8) - 0o4000) / 4] || hit.place]);
        at = hit.p;
        least = this.firstOutput(reply, at, outputs, least);
      }
      const [moved, word] = await line.ask(`step ${goal - at}`, ask), now = atOf(moved);
      this.firstOutput(moved, now.p, outputs, least);
      at = now.p;
      line.n = Math.max(line.n, at);
      cycles.push([at, now.cycles]);
      curve.push([at, /([0-7]{5,6})\s*$/.exec(word)?.[1] ?? null]);
      if (isOver()) return null;
      if (performance.now() - shown > 250) { shown = performance.now(); told?.(state()); }
    }
    return state();
  }
  firstOutput(reply, step, outputs) {
    const put = /^\d+ CH ([0-7]{3}) ([0-7]{5})$/m.exec(reply.slice(0, 200));
    if (put && outputs[outputs.length - 1]?.[0] !== step) outputs.push([step, parseInt(put[1], 8), put[2]]);
    return step;
  }
  // An input of the feed for each of the samples that has one.
  inputsNear(cycles) {
    const { single, series } = inputsOf(this.feed), found = [];
    let before = 0, at = 0;
    for (const [step, end] of cycles) {
      while (at < single.length && single[at].cycle < before) at += 1;
      if (at < single.length && single[at].cycle < end) found.push([step, single[at].text]);
      else {
        const it = series.find((one) => { const i = Math.max(0, Math.ceil(((before - one.first) * one.den) / one.num)); return i < one.count && one.first + Math.floor((i * one.num) / one.den) < end; });
        if (it) found.push([step, it.text]);
      }
      before = end;
    }
    return found;
  }

  // What the program says of a text of tests.
  async expected(stated, { source, feed }) {
    const files = { [EXPECT]: stated.asked, [SOURCE]: source, [FEED]: feed };
    return this.engine.call(["expect", EXPECT], files, "");
  }
  // One run from its first step to its last, for a test: what it puts out, what is told of it, and some words at its end.
  async once({ source, feed, flight, steps, places }) {
    const files = { [SOURCE]: source, [FEED]: feed }, words = [...(flight ? ["--flight"] : []), SOURCE, FEED];
    const ran = await this.engine.call(["run", "--notes", "--json", ...words, String(steps)], files, "");
    const told = { status: ran.status, errors: ran.errors || ran.failed, outputs: [], notes: objectsOf(ran.errors), cells: new Map() };
    for (const [, cycles, channel, word] of ran.output.matchAll(/^(\d+) CH ([0-7]{3}) ([0-7]{5})$/gm)) told.outputs.push({ cycles: Number(cycles), channel: parseInt(channel, 8), word });
    if (places.length && !ran.status) {
      const given = ["quiet on", `step ${steps}`, ...places.map((it) => `mem ${it}`), "quit", ""].join("\n");
      const replies = linesOf((await this.engine.call(["debug", "--extended", ...words], files, given)).output);
      places.forEach((it, i) => told.cells.set(it, /([0-7]{5,6})\s*$/.exec(replies[replies.length - places.length + i])?.[1] ?? null));
    }
    return told;
  }
  // A run from its first step on, of this program or of another, read by a session of its own.
  reader({ source, feed, flight }) { return new Reader(new Line(this.engine, [...(flight ? ["--flight"] : []), SOURCE, FEED], { [SOURCE]: source, [FEED]: feed })); }
  // What happens in a run, of this program or of another, after a step and up to another, by its cycles: interrupts, inputs, words put out, and the words of a cell; and where it idles.
  async timeline({ source, feed, flight, n }, from, to, cell) {
    const told = await this.engine.call(["trace", ...(flight ? ["--flight"] : []), SOURCE, FEED, String(Math.min(n, to)), "--from", String(from + 1)], { [SOURCE]: source, [FEED]: feed }, "");
    if (told.status || !told.output) return null;
    const lines = linesOf(told.output), wanted = ` ${this.traced(cell)}=`, cyclesOf = (line) => Number(line.split(/ {2,}/)[1]), ends = [lines[0], lines[lines.length - 1]].map(cyclesOf), found = { from: from ? ends[0] : 0, to: ends[1], interrupts: [], inputs: [], outputs: [], curve: [] };
    let open = null;
    for (const [i, line] of lines.entries()) {
      // (a page draws between two parts of it)
      if (i % 8000 === 7999) await new Promise((done) => { setTimeout(done); });
      if (line.includes("  INPUT  ")) found.inputs.push([cyclesOf(line), line.split(/ {2,}/)[4]]);
      else if (line.includes("  ENTRY  ")) { open = [cyclesOf(line), ends[1]]; found.interrupts.push(open); } else if (open && line.includes("  RESUME ")) { open[1] = cyclesOf(line); open = null; }
      const put = / CH ([0-7]{3}) ([0-7]{5})$/.exec(line), at = line.indexOf(wanted);
      if (put) found.outputs.push([cyclesOf(line), parseInt(put[1], 8), put[2]]);
      if (at >= 0) found.curve.push([cyclesOf(line), /^[0-7]+/.exec(line.slice(at + wanted.length))[0]]);
    }
    return { ...found, idle: cyclesOf(lines[Math.min(idleIn(lines), lines.length - 1)]) };
  }
  // The first step outside of interrupts at which two runs part, in each, as the program tells it; null where there is none.
  async parting(old, now, n) {
    const told = await this.engine.call(["differ", ...(now.flight ? ["--flight"] : []), "old.agc", "old.feed", String(n), "--with", SOURCE, FEED], { "old.agc": old.source, "old.feed": old.feed, [SOURCE]: now.source, [FEED]: now.feed }, "");
    const lines = linesOf(told.output), at = lines.indexOf("FIRST STEP");
    return told.status || at < 0 ? null : lines.slice(at + 1, at + 3).map((it) => (/^\d/.test(it) ? stepOf(it) : null));
  }
  // What the program tells of a rope image, and of two.
  async rope(command, image, other) {
    const told = await this.engine.call([command, "a.rope", ...(other ? ["b.rope"] : [])], { "a.rope": image, ...(other ? { "b.rope": other } : {}) }, "");
    return (told.output + (told.errors ? `\n${told.errors}` : "") + told.failed).trim() || "-";
  }
  async ropeSource(image) { const told = await this.engine.call(["words", "--source", "a.rope"], { "a.rope": image }, ""); return told.status ? null : told.output; }
}
