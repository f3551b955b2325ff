// The workbench: what is asked of the session, what it tells, and in which room that is shown.
import { $, el, icon, soon, unit } from './dom.js';
import { channelOf, cyclesOf, decimalOf, group, octal, stepsOf, timeOf } from './words.js';
import { T } from './texts.js';
import { engine } from './transport.js';
import { Session } from './session.js';
import { Editor } from './editor.js';
import { Axis } from './axis.js';
import { codeOf, Machine, Names, sentenceOf } from './machine.js';
import { Why } from './why.js';
import { Dsky } from './dsky.js';
import { Console, Memory, Put, Steps } from './panes.js';
import { feedOf, judge, statedBy, statedOfProgram, Tests, testsOf, toldByProgram } from './tests.js';
import { Compare } from './compare.js';
import { finder } from './find.js';
import { download, linkOf, setting, Storage, taskOf } from './storage.js';
import { handoutOf, svgOf } from './export.js';
import { bindKeys, bindTouch, showSheet } from './keys.js';

const TABS = ["steps", "dsky", "output", "memory", "tests", "compare", "console"], MOST_FILE = 32 << 20, KEY_CYCLES = 853, MOST_TIP = 420, FIRST_STEPS = 200, MOST_FIRST = 100_000;
const examples = globalThis.agcwsExamples || [];
// What stands on the page: the program, the picture of the machine and the one before it.
const S = { name: "", flight: false, isBuilt: false, builtFeed: "", names: new Names(), picture: null, old: null, tab: "steps", chosen: null, presses: [], results: [], isMoving: false, isPacing: false, testFeed: "" };

// What is said below.

function say(text, isBad) {
  $("said").textContent = text || "";
  $("said").title = text || "";
  $("said").classList.toggle("bad", Boolean(isBad));
  // (a small screen has no room for it below)
  $("toast").hidden = !text || !isRoomed();
  $("toast").textContent = text || "";
  if (text) soon("said", isBad || !isRoomed() ? 9000 : 4000, () => { $("said").textContent = ""; $("toast").hidden = true; });
}
const isRoomed = () => document.body.classList.contains("roomed");
function banner(text, ...buttons) {
  $("banner").replaceChildren(el("span", {}, text), ...buttons.map(([name, work]) => el("button", { onclick: () => { $("banner").hidden = true; work(); } }, name)), el("button", { onclick: () => { $("banner").hidden = true; } }, T.dismiss));
  $("banner").hidden = false;
}
function busy(percent) {
  $("progress").hidden = percent === null;
  if (percent === null) return;
  $("progress").classList.toggle("unknown", !percent);
  $("progress").firstElementChild.style.width = `${percent || 30}%`;
}

// The rooms.

const session = new Session(engine, {
  progress({ p, n, cycles, goal }) { axis.stand(p, Math.max(n, S.picture?.n || 0)); setPosition(p, n, cycles); busy(goal ? (100 * p) / goal : 0); },
  paced(picture) { take(picture, { isLight: true }); },
  display(display, cycles, n) { dsky.show(display); setPosition(n, n, cycles); },
});
const storage = new Storage({
  full(isFull) { banner(isFull ? T.full : T.refusedStore, [T.saveNow, saveAll]); },
  kept() { $("banner").hidden = true; say(T.keptAgain); },
  split() { banner(T.split); keep(); },
});
const axis = new Axis($("axis"), { seek, told: (text) => say(text), wordOf: (name) => (S.picture?.p === axis.p ? machine.wordOf(name) : null), windowed: () => soon("survey", 120, loadSurvey) });
// Where one begins who has nothing here yet.
function starts() {
  if (S.isOwn !== false || storage.all().length) return [];
  if (S.lesson) return S.name !== S.lesson.name ? [] : [[T.lessonBegins, T.tips.step, () => by(1)]];
  if (!examples.some((it) => it.lesson)) return [];
  return [...(S.name === "lost_sum.agc" ? [[T.firstTask, T.firstAsk, () => why("SUM")]] : []), [T.firstLesson, T.firstOpen, () => openDoc(examples.find((it) => it.lesson), { isExample: true })]];
}
const hovering = { line: (line) => toggleBreak(line), fault: explain, note: (note) => seek(note.step), word: (text) => { if (S.names.kinds.has(text)) why(text); }, hover: tip, ghost, about: tipFault, context: (event, line) => openContext(event, event.target, lineMenu(line)) };
const editor = new Editor($("editor"), "source", { edited, ...hovering });
const feed = new Editor($("feed"), "feed", { edited, fault: explain, about: tipFault, hover: () => tip(null) });
const tests = new Editor($("tests"), "tests", { edited() { S.isOwn = true; keepSoon(); soon("tests", 400, readTests); } });
const machine = new Machine($("state"), { why, seek, astray: () => astray()?.step ?? null, toAstray, curve: chooseCell, context: (event, name) => openContext(event, event.target.closest("button"), wordMenu(name)), lineText: (line) => editor.lines[editor.shownLine(line) - 1] });
const chain = new Why($("why"), {
  seek, starts, nameOf: (cell) => S.names.of(cell), isRope: (cell) => S.names.isRope(cell), more: () => why(S.chosen ?? "", (chain.asked?.count || 16) * 4),
  point(t) { axis.pointed = t; axis.draw(); editor.mark({ pointed: chain.asked?.steps[t]?.line || 0 }); }, way, hasWays: () => session.can("why", "step"), folded: () => chain.stand(S.picture.p),
});
const dsky = new Dsky($("tab-dsky"), { press, undo: undoKey });
const panes = { steps: new Steps($("tab-steps"), { seek, why }), output: new Put($("tab-output"), { until: (cycles) => move("until", cycles), why }), memory: new Memory($("tab-memory"), { why, nameAt: (at) => S.names.byPlace.get(at) }), console: new Console($("tab-console"), { command }) };
const badge = (name, text, isBad) => document.querySelector(`[data-tab="${name}"]`).replaceChildren(T.tabs[name], text ? el("i", { class: isBad ? "bad" : "good" }, text) : "");
const compare = new Compare($("tab-compare"), {
  seek, why, until: (cycles) => move("until", cycles), now: () => (S.isBuilt && session.n ? present() : null), reader: (run) => session.reader(run), cell: () => cell(), timeline: (run, from, to) => session.timeline(run, from, to, cell()), parting: (old, now, n) => session.parting(old, now, n), progress: (at, of) => busy(of ? (100 * at) / of : null), counted: (text, isBad) => badge("compare", text, isBad),
  keep() { compare.take({ ...present(), label: T.keptRun }, true); say(T.runKept); compare.show(S.tab === "compare"); },
  restore(run) {
    if (run.name !== S.name) return openDoc({ ...run, steps: run.n });
    editor.replace(run.source); if (feed.text !== run.feed) feed.text = run.feed; edited(); showFile("source"); say(T.restored);
    return null;
  },
});
const testPane = new Tests($("tab-tests"), { lesson: () => S.lesson, wrong: (i) => openDoc({ ...S.lesson, name: S.lesson.name.replace(".agc", `_wrong_${i + 1}.agc`), source: S.lesson.wrong[i], isWrong: true }, { isExample: true }).then(() => showTab("tests")), run: runTests, open: openTest, write: () => { showFile("tests"); if (!tests.text.trim()) { tests.text = `${T.testExample}\n`; readTests(); } tests.area.focus(); }, take() { if (!S.isBuilt || !session.outputs.count) { say(T.nothingPut, true); return; } S.isOwn = true; tests.text = statedBy({ ...present(), name: T.asRun }); readTests(); keepSoon(); say(T.testsTaken); }, counted: (text, isBad) => badge("tests", text, isBad) });

// What the session tells of the position.

function take(picture, { isLight = false } = {}) {
  if (!picture || picture === "stopped") return;
  const before = S.picture, isNew = !before || before.number !== picture.number, isMoved = isNew || before.p !== picture.p || before.n !== picture.n, isGrown = isNew || picture.n !== before.n;
  if (isMoved) S.old = isNew ? null : before;
  S.picture = picture;
  axis.stand(picture.p, picture.n);
  axis.follow();
  setPosition(picture.p, picture.n, picture.cycles);
  machine.chosen = S.chosen;
  machine.show(picture, S.old, S.names);
  dsky.show(picture.display);
  const isTyping = document.activeElement === editor.area;
  editor.breaks = new Set(picture.breaks.map(lineOfBreak).filter(Boolean));
  editor.stand(picture.where.line || 0, !isTyping);
  chain.stand(picture.p);
  if (S.tab === "output" && isMoved) panes.output.show(session.outputs, picture.cycles);
  if (S.tab === "memory") panes.memory.show(picture, S.old, S.names);
  showStops(picture.breaks);
  if (isLight) return;
  if (S.tab === "steps") showSteps();
  soon("cover", picture.n > 2_000_000 ? 700 : 90, loadCover);
  if (isGrown || !axis.survey) { soon("survey", picture.n > 400_000 ? 350 : 40, loadSurvey); soon("notes", picture.n > 400_000 ? 1500 : 250, loadNotes); soon("compare", 200, () => compare.show(S.tab === "compare")); }
}
// The run as it stands here, to be compared.
const present = () => ({ name: S.name, source: session.source, feed: session.feed, flight: session.flight, n: session.n, outputs: session.outputs, names: S.names, lines: session.source.split("\n"), number: session.number });
const lineOfBreak = (text) => { const found = /^(?:at|exec) (\S+)$/.exec(text); return found ? S.names.lineOf.get(found[1]) : 0; };
function setPosition(p, n, cycles) {
  if (document.activeElement !== $("position")) $("position").value = group(p);
  const size = String(p).length;
  $("position").className = size > 11 ? "longest" : size > 8 ? "longer" : size > 5 ? "long" : "";
  $("made").textContent = group(n);
  $("clock").replaceChildren(el("span", {}, `${T.cycle(group(cycles))} ·`), " ", el("span", {}, timeOf(cycles)));
}
const showSteps = () => { if (S.picture) panes.steps.show(S.picture, S.names, (line) => (/#.*/.exec(line ? editor.lines[editor.shownLine(line) - 1] || "" : "") || [""])[0].slice(0, 100)); };

// Moves.

let moves = 0;
function moving(is) {
  moves += is ? 1 : -1;
  S.isMoving = moves > 0;
  if (S.isMoving) soon("busy", 180, () => { if (S.isMoving) { busy(0); $("stop").hidden = false; } });
  else { busy(null); if (!S.isPacing) $("stop").hidden = true; }
}
async function during(work) { moving(true); try { return await work(); } finally { moving(false); } }
async function move(kind, count) {
  if (!S.isBuilt) return "";
  const why = await during(async () => { const told = await session.go(kind, count); take(await session.look()); return told; });
  tell(why);
  return why;
}
function tell(why) {
  const hit = /^HIT (\d+)/.exec(why);
  if (hit) say(T.hit(hit[1], S.picture.breaks[hit[1] - 1] || ""));
  else if (why === "NONE") say(T.none);
  else if (why?.startsWith("TOOK")) say(T.took(group(why.slice(5))));
  else if (why?.startsWith("E40")) say(T.last, true);
  else if (why === "stopped" && session.isStopped) say(T.stopped);
}
// Of many positions that are asked for while one is sought, the last counts.
const sought = { goal: null, last: 0, isBusy: false }, MOST_BY_KEYS = 1000;
async function seek(step) {
  if (!S.isBuilt) return;
  step = Math.max(0, step);
  if (step > S.picture.n + MOST_BY_KEYS) { sought.goal = null; await move("step", step - session.p); return; }
  if (step <= S.picture.n) { axis.stand(step, S.picture.n); setPosition(step, S.picture.n, axis.cyclesAt(step) ?? S.picture.cycles); }
  sought.goal = sought.last = step;
  if (sought.isBusy) return;
  sought.isBusy = true;
  try { while (sought.goal !== null) { const { goal } = sought; sought.goal = null; await (goal > session.n ? move("step", goal - session.p) : move("goto", goal)); } } finally { sought.isBusy = false; }
}
// Some steps on or back, of those that are under way already: no key that is pressed is lost.
const by = (count) => seek((sought.isBusy ? sought.last : session.p) + count);
async function run() {
  const steps = stepsOf($("count").value);
  if (steps === null) { $("count").focus(); say(T.howMany, true); return; }
  if ((isEdited() || S.testFeed) && !(await build())) return;
  if (!S.isBuilt) { if (!(await build())) return; }
  // (before the end of the run it goes on to there, and makes new steps from there alone)
  if (session.p < session.n) {
    const told = S.picture.breaks.length ? await move("on", session.n - session.p) : await seek(session.n);
    if (session.p === session.n && !/^HIT/.test(told || "")) say(T.atEnd(group(steps)));
    keepSoon();
    return;
  }
  await move("run", steps);
  // (what was asked before the source was changed is asked again)
  if (S.again) { const again = S.again; S.again = null; if (machine.wordOf(again) !== null) await why(again); }
  keepSoon();
}
const go = {
  first: () => seek(0), last: () => seek(S.picture?.n ?? 0), back: () => by(-1), step: () => by(1), back10: () => by(-10), step10: () => by(10),
  over: () => move("over", 100_000_000), out: () => move("out", 100_000_000), prev: () => (S.picture?.breaks.length ? move("seek") : say(T.noBreaks)), next: () => (S.picture?.breaks.length ? move("on", 1_000_000_000) : say(T.noBreaks)),
};
async function stop() { sought.goal = null; await session.stop(); if (!S.isMoving) take(await session.look()); }
async function pace() {
  if (S.isPacing) { await stop(); return; }
  if ((isEdited() || !S.isBuilt) && !(await build())) return;
  Object.assign(S, { isPacing: true });
  session.isPaced = true;
  $("pace").setAttribute("aria-pressed", "true");
  $("stop").hidden = false;
  const why = await session.pace();
  session.isPaced = false;
  S.isPacing = false;
  $("pace").setAttribute("aria-pressed", "false");
  $("stop").hidden = true;
  take(await session.look());
  tell(why);
}

// Keys of the DSKY, now or in the past.

async function press(text, name) {
  if (!S.isBuilt) return;
  if (!/^(CHAN 15|PRO) /.test(text) && !(await session.isInput(text))) { say(T.noInput, true); return; }
  const { p, n } = S.picture, isPast = p < n && !S.isPacing, wasPacing = S.isPacing, before = present();
  const made = await during(() => session.input(text));
  if (!made || made === "stopped") return;
  if (made.error) { say(made.error, true); return; }
  S.presses.push({ ...made, name });
  setFeed(made.feed);
  dsky.tell(S.presses);
  if (isPast) compare.take({ ...before, label: T.beforeInput });
  if (isPast) { axis.survey = null; S.picture = { ...S.picture, n: -1 }; take(await during(() => session.look())); say(T.keyPast(name, group(p))); } else if (!wasPacing) await move("until", session.end + KEY_CYCLES);
}
async function undoKey(press) {
  const lines = session.feed.split("\n"), at = lines.findIndex((it) => it === `${press.cycle} ${press.text}` || it === `EVERY ${press.cycle} 1 1 1 ${press.text}`);
  if (at < 0) return;
  lines.splice(at, 1);
  S.presses = S.presses.filter((it) => it !== press);
  compare.take({ ...present(), label: T.beforeUndo });
  setFeed(lines.join("\n"));
  dsky.tell(S.presses);
  axis.survey = null;
  take(await during(async () => { await session.refeed(feed.text); S.picture = { ...S.picture, n: -1 }; return session.look(); }));
}
function setFeed(text) { S.isOwn = true; feed.text = text; feed.built(); S.builtFeed = text; showEdited(); keepSoon(); testAgain(1500); }

// The source.

const isEdited = () => S.isBuilt && !(editor.isBuilt && feed.text === S.builtFeed);
function showEdited() {
  const is = isEdited() || !S.isBuilt;
  $("edited").classList.toggle("on", isEdited()); $("edited").textContent = isEdited() ? T.edited : "";
  $("run").textContent = is ? T.build : T.run;
}
function edited() { S.isOwn = true; showEdited(); keepSoon(); soon("check", editor.lines.length > 20_000 ? 700 : 180, check); }
async function check() {
  const faults = await session.check(editor.text, feed.text, S.flight);
  if (!faults) return;
  showFaults(faults);
  // (beside a long line there is no room for the cure)
  const here = faults.find((it) => it.kind === "error" && it.file === "source" && it.line === editor.caretLine());
  if (here && document.activeElement === editor.area && !isRoomed()) { say(saidOf(here), true); S.faultSaid = saidOf(here); } else if ($("said").textContent === S.faultSaid) say("");
}
const saidOf = (it) => `${it.number} ${it.text}${it.cure ? `: ${it.cure}` : ""}`;
let allFaults = [];
function showFaults(faults) {
  allFaults = faults;
  for (const [it, file] of [[editor, "source"], [feed, "feed"]]) it.mark({ faults: Map.groupBy ? Map.groupBy(faults.filter((one) => one.file === file), (one) => one.line) : grouped(faults.filter((one) => one.file === file)) });
  const errors = faults.filter((it) => it.kind === "error").length, warnings = faults.length - errors;
  $("faults").hidden = !faults.length;
  $("faults").textContent = [errors && T.errors(errors), warnings && T.warnings(warnings)].filter(Boolean).join(", ");
  $("faults").classList.toggle("bad", errors > 0);
  $("faults").title = faults.slice(0, 6).map((it) => `${T.files[it.file]} ${it.line}: ${it.number} ${it.text}`).join("\n");
  document.querySelector('[data-file="feed"]').classList.toggle("has-faults", faults.some((it) => it.file === "feed"));
}
function grouped(faults) { const map = new Map(); for (const it of faults) map.set(it.line, [...(map.get(it.line) || []), it]); return map; }
// From one fault to the next.
let faultAt = -1;
function nextFault() {
  faultAt = (faultAt + 1) % allFaults.length;
  const it = allFaults[faultAt];
  showFile(it.file);
  (it.file === "feed" ? feed : editor).showLine(it.line);
  say(saidOf(it), it.kind === "error");
}
async function build() {
  const source = editor.text, breaks = [...editor.breaks].map((it) => editor.shownLine(it)).filter(Boolean), others = (S.picture?.breaks || []).filter((it) => !lineOfBreak(it)), wasBuilt = S.isBuilt, before = axis.survey, chosen = S.chosen, old = wasBuilt && session.n ? present() : null;
  const opened = await during(() => session.open({ source, feed: feed.text, flight: S.flight }));
  showFaults(opened.faults);
  if (!opened.rows) { say(T.hasFaults, true); showEdited(); const bad = opened.faults.find((it) => it.kind === "error"); if (bad) { showFile(bad.file); (bad.file === "feed" ? feed : editor).showLine(bad.line); } return false; }
  // The curve of the run before stays to be compared.
  axis.ghost = wasBuilt && before?.kind === "exact" && before.from === 0 ? before : null;
  Object.assign(S, { isBuilt: true, builtFeed: feed.text, names: new Names(opened.rows, opened.symbols), old: null, chosen: null, presses: [], testFeed: "" });
  if (editor.text === source) editor.built();
  if (old) compare.take({ ...old, label: T.beforeEditRun });
  dsky.offer(session.offers());
  listCells();
  editor.mark({ places: S.names.rows, counts: new Map(), links: new Map(), breaks: new Set(), notes: new Map() });
  Object.assign(axis, { chain: [], notes: [], window: null, survey: null });
  axis.whole.hidden = true;
  chain.empty(); dsky.tell([]);
  for (const line of breaks.slice(0, 16)) await setBreak(line);
  for (const text of others) await session.breakpoint(text);
  take(await session.look());
  if (chosen && wasBuilt) S.again = chosen;
  showEdited();
  testAgain();
  return true;
}
// Where a program cannot be built, nothing of the one before is left.
function clear() {
  Object.assign(S, { names: new Names([], []), picture: null, old: null, chosen: null, presses: [] });
  listCells();
  editor.mark({ places: S.names.rows, counts: new Map(), links: new Map(), breaks: new Set(), notes: new Map() });
  editor.stand(0, false);
  Object.assign(axis, { chain: [], notes: [], window: null, survey: null, ghost: null });
  axis.whole.hidden = true;
  axis.stand(0, 0);
  setPosition(0, 0, 0);
  chain.empty(); dsky.tell([]);
  machine.picture = null;
  for (const id of ["flags", "regs", "words", "chans"]) $(id).replaceChildren();
  $("state").classList.add("bare");
  $("now").replaceChildren(el("p", { class: "says" }, T.notBuilt));
  showStops([]);
  for (const it of ["steps", "output", "memory"]) $(`tab-${it}`).replaceChildren(el("p", { class: "empty-tab" }, T.notBuilt));
}
async function setBreak(line) {
  const row = S.names.rows.get(line) || [...S.names.rows.values()].filter((it) => it.line >= line).sort((a, b) => a.line - b.line)[0];
  return row ? session.breakpoint(`at ${row.place}`) : T.noWordBelow;
}
async function toggleBreak(line) {
  if (!S.isBuilt || !line) { say(T.lineEdited); return; }
  const known = S.picture.breaks.findIndex((it) => lineOfBreak(it) === line), refused = known >= 0 ? await session.clearBreak(known + 1) : await setBreak(line);
  if (refused) say(refused, true);
  take(await session.look(), { isLight: true });
  keepSoon();
}
// What ends a move, beside the machine.
const stopText = (text) => { const [kind, place, ...rest] = text.split(" "), name = kind === "chan" ? `CH${octal(parseInt(place, 8), 3)}` : S.names.of(place); return T.stopKinds[kind]?.(name, rest.join(" ")) || text; };
function showStops(breaks) {
  $("stops").hidden = !breaks.length;
  $("stops").replaceChildren(...breaks.map((text, i) => el("span", { class: "chip-of" }, el("button", { title: T.toStop, onclick: () => toNearest(text, null, T.neverHolds) }, stopText(text)), el("button", { class: "undo", "aria-label": T.dropStop(stopText(text)), title: T.dropStop(stopText(text)), onclick: () => dropStop(i + 1) }, "\u00d7"))));
}
async function addStop(text) { const refused = await session.breakpoint(text); if (refused) say(refused, true); else say(T.stopSet(stopText(S.isBuilt ? session.breaks[session.breaks.length - 1] || text : text))); take(await session.look(), { isLight: true }); keepSoon(); }
async function dropStop(number) { const refused = await session.clearBreak(number); if (refused) say(refused, true); take(await session.look(), { isLight: true }); keepSoon(); }
// To the nearest step at which something holds: back, on, or on and else back.
async function toNearest(text, isBack, none) {
  let step = await during(() => session.nearest(text, isBack === true));
  if (step === null && isBack === null) step = await during(() => session.nearest(text, true));
  if (typeof step === "number") await seek(step); else if (step === null) say(none, true);
}
// What can be asked of a word, and of a line.
function wordMenu(name) {
  const word = machine.wordOf(name), channel = channelOf(name), stop = channel === null ? `word ${name} ${word}` : `chan ${octal(channel, 3)} ${word}`;
  return [
    { name: T.word.why, note: "W", work: () => why(name) }, ...["inputs", "interrupts"].filter((it) => session.can("why", it)).map((it) => ({ name: T.word[it], work: () => told(T.word[it], `why ${name} ${it}`) })), { name: T.word.curve, work: () => chooseCell(name) }, { name: T.word.back, work: () => toNearest(`change ${name}`, true, T.noChangeBack(name)) }, { name: T.word.on, work: () => toNearest(`change ${name}`, false, T.noChangeOn(name)) }, "-",
    { name: T.word.stopChange, work: () => addStop(`change ${name}`) }, ...(word?.length === 5 ? [{ name: T.word.stopWord(decimalOf(word)), note: word, work: () => addStop(stop) }] : []),
  ];
}
function lineMenu(line) {
  const row = S.names.rows.get(line), isSet = S.picture?.breaks.some((it) => lineOfBreak(it) === line);
  if (!row) return [{ name: T.lineMenu.none, work() { /* nothing can be done here */ } }];
  return [{ name: isSet ? T.lineMenu.drop : T.lineMenu.stop, note: "B", work: () => toggleBreak(line) }, { name: T.lineMenu.exec, work: () => addStop(`exec ${row.place}`) }, "-", ...(editor.counts.get(line) ? [] : [{ name: T.lineMenu.never, work: () => whyNever(row) }]), { name: T.lineMenu.on, work: () => toNearest(`at ${row.place}`, false, T.noStepOn) }, { name: T.lineMenu.back, work: () => toNearest(`at ${row.place}`, true, T.noStepBack) }];
}
// Why a line is never executed: the last before it that is, which always goes elsewhere. Or why not again: where it was executed last. And which interrupt waits.
async function whyNever(row) {
  const lines = session.has.has("never") ? await session.lines(`never ${row.place}`) : [];
  const later = await during(() => session.nearest(`at ${row.place}`, false));
  if (later !== null) { if (typeof later === "number") { await seek(later); say(T.comesLater); } return; }
  const { regs } = S.picture, isAsked = regs.ASKED && regs.ASKED !== "NONE", waits = isAsked && (regs.INH === "1" ? T.inhibited(regs.ASKED) : regs.INT === "1" ? T.served(regs.ASKED) : "");
  const counts = await session.cover(session.n, "never"), mine = counts?.get(row.line), before = mine ? row : [...S.names.rows.values()].filter((it) => it.line < row.line && counts?.get(it.line)).sort((a, b) => b.line - a.line)[0];
  if (!before) { say(T.neverAny, true); return; }
  await toNearest(`at ${before.place}`, mine ? true : null, T.neverAny);
  const code = codeOf(editor.lines[editor.shownLine(before.line) - 1] || "").join(" "), text = mine ? T.neverAgain(code, row.line, group(mine[0])) : T.neverCome(code, before.line, group(counts.get(before.line)[0]), row.line);
  say(text, true);
  S.chosen = null;
  const toLine = () => { document.body.dataset.room = "source"; showFile("source"); editor.pointAt(editor.shownLine(before.line)); };
  chain.answer(mine ? T.neverAgainWhy(row.line) : T.neverWhy(row.line), el("p", {}, [text, waits].filter(Boolean).join(" ")), /^E\d|^$/.test(lines[0] || "") ? "" : el("pre", { class: "rope" }, lines.join("\n")), el("button", { class: "small", onclick: toLine }, T.toLine(before.line)));
  document.body.dataset.room = "why";
}
// The menu of what has the keyboard: a word, or the next line.
function ownMenu() {
  const focused = document.activeElement.closest?.("[data-cell]"), line = S.picture?.where.line;
  if (focused) openContext(new MouseEvent("contextmenu"), focused, wordMenu(focused.dataset.cell));
  else if (S.chosen) openContext(new MouseEvent("contextmenu"), document.querySelector(`button.cell[data-cell="${CSS.escape(S.chosen)}"]`) || $("why"), wordMenu(S.chosen));
  else if (line) openContext(new MouseEvent("contextmenu"), document.querySelector("#editor .is-now .g") || $("editor"), lineMenu(line));
}
function find() { finder({ names: S.names, lines: editor.lines, wordOf: (name) => machine.wordOf(name), listed: (place, count) => (S.isBuilt ? session.listed(place, count) : null), line(line) { document.body.dataset.room = "source"; showFile("source"); editor.pointAt(line); }, word: (name) => { if (S.isBuilt) why(name); } }); }
// The word of the operand that comes next.
function ghost(text) {
  const [, operand, offset] = codeOf(text), name = operand && (/^\+?\d+$/.test(offset || "") ? `${operand} +${offset.replace("+", "")}` : operand), word = name && machine.picture && !S.names.isRope(operand) && S.names.kinds.has(operand) ? machine.wordOf(name) : null;
  return word ? T.is(name, decimalOf(word)) : "";
}
// What an instruction or a name below the pointer is.
function tip(at) {
  const box = $("hover");
  if (!at || !S.picture) { soon("tip", 60, () => { box.hidden = true; }); return; }
  let text = "";
  const named = S.names.kinds.get(at.word), line = editor.lines[at.line - 1] || "";
  if (named) { const word = machine.wordOf(at.word); text = `${at.word} ${S.names.placeOf(named)}${word && named.kind !== "FIXED" ? `\n${word} = ${decimalOf(word)}` : ""}`; }
  if (at.kind === "op") text = sentenceOf(codeOf(line), (name) => (S.names.isRope(name.split(" ")[0]) ? null : machine.wordOf(name)));
  if (!text) { box.hidden = true; return; }
  soon("tip", 350, () => showTip(text, at.x, at.y));
}
// What a fault is, beside it.
const explained = new Map();
function tipFault(fault, box) {
  if (!fault?.number) { tip(null); return; }
  soon("tip", 400, async () => {
    if (!explained.has(fault.number)) explained.set(fault.number, await session.explain(fault.number));
    const text = explained.get(fault.number), at = box.getBoundingClientRect();
    if (text && box.isConnected && box.matches(":hover")) showTip([fault.text, fault.cure, "", partOf(text)].filter((it, i) => it || i === 2).join("\n"), at.left, at.bottom);
  });
}
// As many of its paragraphs as have room.
function partOf(text) { const cut = text.lastIndexOf("\n\n", MOST_TIP); return text.length <= MOST_TIP ? text : cut > 0 ? text.slice(0, cut) : `${text.slice(0, MOST_TIP)} \u2026`; }
function showTip(text, x, y) {
  const box = $("hover"), [first, ...rest] = text.split("\n");
  box.replaceChildren(rest.length ? el("b", {}, first) : first, ...rest.flatMap((it) => ["\n", /^ *> /.test(it) ? el("code", {}, it.replace(/^ *> /, "")) : it]));
  box.hidden = false;
  box.style.left = `${Math.max(4, Math.min(innerWidth - box.offsetWidth - 8, x))}px`;
  box.style.top = `${y + 4 + box.offsetHeight > innerHeight ? Math.max(4, y - box.offsetHeight - 26) : y + 4}px`;
}
async function explain(fault) {
  if (!fault?.number) return;
  tip(null);
  showDialog(fault.number, el("pre", {}, await session.explain(fault.number)));
}
function showDialog(title, ...inside) {
  const box = $("dialog");
  box.setAttribute("aria-label", title);
  box.replaceChildren(el("div", { class: "dialog-head" }, el("h2", {}, title), el("button", { class: "plain", "aria-label": T.close, onclick: () => box.close() }, "\u00d7")), ...inside);
  if (!box.open) box.showModal();
}

// Why.

async function why(place, count = 16) {
  if (!S.isBuilt) return;
  S.chosen = place; machine.chosen = place;
  const asked = await during(() => session.why(place, count, true));
  if (!asked || asked === "stopped") return;
  // (of more of the same chain the same is open)
  const { ways, opened } = chain.asked?.place === place && chain.asked.p === asked.p ? chain.asked : {};
  showChain({ ...asked, ways, opened, word: place ? machine.wordOf(place) : null });
  machine.show(S.picture, S.old, S.names);
  if (place && place !== cell() && S.names.erasable.some((it) => it.name === place)) chooseCell(place);
  document.body.dataset.room = "why";
  if (document.documentElement.classList.contains("lecture")) document.body.classList.remove("unfolded");
}
function showChain(asked) {
  chain.show(asked);
  chain.stand(S.picture.p);
  const links = new Map();
  for (const it of Object.values(asked.steps)) if (it.line) links.set(it.line, it.t);
  editor.mark({ links });
  axis.chain = [...chain.links.map((it) => ({ t: it.t, text: it.text })), ...chain.ways.map((it) => ({ t: it.t, text: it.text, isWay: true }))];
  axis.draw();
}
// The choice by which a step of the chain was reached becomes part of the chain; once more, and it goes.
async function way(t) {
  const { asked } = chain;
  if (!asked || !session.can("why", "step")) return;
  if (!asked.ways.delete(t)) {
    const told = await during(() => session.way(t));
    if (!told || told === "stopped" || chain.asked !== asked) return;
    if (!/^WAY /.test(told.lines[0])) { say(T.noChoice); return; }
    asked.ways.set(t, told.lines);
    Object.assign(asked.steps, told.steps);
  }
  showChain(asked);
}
// The same of the step that has the keyboard; else of the position, by itself.
async function choice() {
  const at = document.activeElement.closest?.(".why .step-of")?.querySelector(".link").dataset.t;
  if (at) { await way(Number(at)); return; }
  if (!session.can("why", "step")) return;
  S.chosen = null; machine.chosen = null;
  const asked = await during(() => session.way(session.p + 1));
  if (!asked || asked === "stopped") return;
  showChain({ ...asked, word: null });
  document.body.dataset.room = "why";
}
// What the program tells in lines.
async function told(title, text) {
  const lines = await during(() => session.lines(text));
  if (!lines || lines === "stopped") return;
  S.chosen = null; machine.chosen = null;
  chain.answer(title, el("pre", { class: "rope" }, lines.join("\n").replace(/^E\d+ (COMMAND )?/, "")));
  document.body.dataset.room = "why";
}

// The curve.

const cell = () => $("cell").value;
function listCells() {
  const kept = cell(), names = [...new Set(S.names.erasable.map((it) => it.name))].slice(0, 400), box = (label, list) => el("optgroup", { label }, ...list.map((it) => el("option", { value: it }, it)));
  $("cell").replaceChildren(...(names.length ? [box(T.groups.words, names)] : []), box(T.groups.registers, ["A", "L", "Q"]), box(T.groups.counters, ["TIME1", "TIME3", "TIME4"].filter((it) => !names.includes(it))), box(T.groups.channels, ["CH010", "CH011", "CH012"]));
  $("cell").value = [kept, "SUM", "RESULT", "COUNT"].find((it) => names.includes(it)) || names[0] || "A";
}
function chooseCell(name) {
  if (![...$("cell").options].some((it) => it.value === name)) $("cell").append(el("option", { value: name }, name));
  $("cell").value = name;
  loadSurvey();
}

// What is worked out beside the session.

async function loadCover() {
  if (!S.isBuilt || S.isPacing || S.isMoving) { if (S.isMoving) soon("cover", 300, loadCover); return; }
  const counts = await session.cover();
  if (counts) editor.mark({ counts, most: Math.max(1, ...[...counts.values()].map((it) => it[0])) });
}
async function loadSurvey() {
  if (!S.isBuilt || S.isPacing || !session.n) return;
  const shown = (it) => { axis.survey = it; axis.draw(); $("sampled").hidden = it.kind !== "sampled"; $("sampled").textContent = T.sampled; $("sampled").title = T.sampledTitle(group(it.every || 1)); };
  const asked = { from: axis.from, to: Math.max(axis.window ? axis.to : session.n, 1), cell: cell(), buckets: Math.max(100, $("axis").clientWidth) };
  const found = await session.survey(asked, (part) => { if (part.cell === cell()) shown(part); });
  if (found && found.cell === cell()) shown(found);
}
async function loadNotes() {
  if (!S.isBuilt || S.isPacing || setting.get("notes") === "off") return;
  const notes = await session.notes();
  if (!notes) return;
  editor.mark({ notes: grouped(notes.filter((it) => it.line)) });
  axis.notes = notes;
  axis.draw();
  if (S.picture && astray()) machine.show(S.picture, S.old, S.names);
}
// Where the run has left the program first, as far as that is known.
const astray = () => axis.notes.find((it) => ["ERASABLE", "NOWORD"].includes(it.kind)) || null;
// To its last instruction before that.
async function toAstray() {
  const { step } = astray();
  await seek(step - 1);
  const last = S.picture.steps.filter((it) => it.t < step && it.line).pop();
  if (last) await seek(last.t - 1);
  // (by where Q leads, most of all)
  if (last && /^(?:RETURN|TC Q)\b/.test(last.text)) await why("Q");
  say(T.leftProgram(group(step)), true);
}

// Tests.

function readTests() {
  const stated = expectation(), { tests: found, faults } = stated ? { tests: stated.tests, faults: [] } : testsOf(tests.text);
  tests.mark({ faults: grouped(faults) });
  S.tests = found; S.results = [];
  testPane.show(found, []);
  testAgain(500);
}
// (of what was built before, no result stays)
function testAgain(wait = 300) { S.results = []; if (S.tests?.length && !tests.faults.size) soon("run tests", wait, runTests); }
const countOf = () => stepsOf($("count").value) || FIRST_STEPS, expectation = () => statedOfProgram(tests.text, { source: `${base()}.agc`, feed: `${base()}.feed`, steps: Math.max(countOf(), S.isBuilt ? session.n : 0) });
async function runTests() {
  const all = S.tests || [], results = S.results = [], source = editor.text, stated = expectation();
  if (stated) {
    const told = toldByProgram(stated, await session.expected(stated, { source, feed: feed.text }));
    if (results !== S.results) return;
    tests.mark({ faults: grouped(told.faults) });
    S.results = told.results;
    testPane.show(all, told.results, told.faults[0] ? T.testFault(told.faults[0].line, told.faults[0].text) : told.said);
    return;
  }
  for (const [i, test] of all.entries()) {
    const told = await session.once({ source, feed: feedOf(test, feed.text), flight: S.flight, steps: test.steps || countOf(), places: test.wanted.filter((it) => it.kind === "mem").map((it) => it.place) });
    if (results !== S.results) return;
    results[i] = { wrong: judge(test, told) };
  }
  testPane.show(all, results);
}
async function openTest(test, result) {
  const inputs = feedOf(test, feed.text), kept = feed.text;
  if (isEdited() || inputs !== session.feed) {
    if (!(await build())) return;
    if (inputs !== kept) { await session.refeed(inputs); S.testFeed = test.name; say(T.testFeed(test.name)); }
  }
  const steps = test.steps || countOf();
  if (session.n < steps) await move("step", steps - session.p);
  const wrong = result?.wrong;
  if (wrong?.cycles) await move("until", wrong.cycles);
  else if (wrong?.step) await seek(wrong.step);
  else await seek(steps);
  if (wrong?.place) await why(wrong.place);
  else if (wrong?.label) {
    const value = S.names.kinds.get(wrong.label)?.value, row = [...S.names.rows.values()].find((it) => it.place === (value ?? wrong.label));
    if (row) await whyNever(row);
  } else if (wrong && !wrong.step) {
    // (what never comes is often lost where the run has left the program)
    await loadNotes();
    if (astray()) { await toAstray(); return; }
    // (or else where it goes past what puts it out)
    const writer = [...S.names.rows.values()].find((it) => { const [code, operand = ""] = codeOf(editor.lines[editor.shownLine(it.line) - 1] || ""); return ["WRITE", "WOR", "WAND"].includes(code) && parseInt(operand, 8) === wrong.channel; });
    if (writer) await whyNever(writer);
  }
}

// The tabs.

function chooseTab(list, name, key) {
  for (const it of list.querySelectorAll('[role="tab"]')) { const is = it.dataset[key] === name; it.setAttribute("aria-selected", String(is)); it.tabIndex = is ? 0 : -1; if (is) it.scrollIntoView({ inline: "nearest", block: "nearest" }); }
}
function showTab(name) {
  S.tab = name;
  chooseTab($("tabs"), name, "tab");
  for (const it of TABS) $(`tab-${it}`).hidden = it !== name;
  // (once these have their height it stays, so that no tab moves away below a click)
  if (name === "dsky" || name === "compare") document.body.classList.add("tall");
  if (!S.picture) return;
  if (name === "steps") showSteps();
  if (name === "output") panes.output.show(session.outputs, S.picture.cycles);
  if (name === "memory") panes.memory.show(S.picture, S.old, S.names);
  if (name === "tests" && S.tests?.length && !S.results.length) runTests();
  if (name === "compare") compare.show(true);
  if (name === "console") panes.console.line.focus();
}
function showFile(name) {
  chooseTab($("files"), name, "file");
  for (const [it, id] of [[editor, "editor"], [feed, "feed"], [tests, "tests"]]) { $(id).hidden = id !== (name === "source" ? "editor" : name); it.measure(); }
}
async function command(text) {
  panes.console.asked(text);
  if (!S.isBuilt) { panes.console.told([T.hasFaults]); return; }
  const told = await during(() => session.console(text));
  if (told === "stopped") { panes.console.told([T.stopped]); return; }
  panes.console.told(told.refused ? [T.notHere[told.refused]] : told.lines);
  if (told.feed != null && told.feed !== S.builtFeed) setFeed(told.feed);
  take(await session.look());
}

// Files and links.

const document_ = () => ({ name: S.name, lesson: S.lesson?.lesson || undefined, source: editor.text, feed: feed.text, tests: tests.text, flight: S.flight, steps: S.isBuilt ? session.n : stepsOf($("count").value) || 0, count: $("count").value, position: S.isBuilt ? session.p : undefined, breaks: S.picture?.breaks || [], cell: cell(), why: S.chosen || "" });
function keep() { if (S.isOpen && S.isOwn) { $("name").classList.toggle("unkept", !storage.keep(document_())); } }
const keepSoon = () => soon("keep", 400, keep);
async function openDoc(doc, { id = null, isExample = false } = {}) {
  if (S.isOpen && !storage.isKept && isEdited() && !confirm(T.leave)) return;
  const { name = "", source, feed: inputs = "", tests: stated = "", flight = false, steps = 0, position, breaks = [], cell: wanted = "", why: asked = "" } = doc;
  S.isOpen = false;
  Object.assign(S, { flight, lesson: doc.lesson ? examples.find((it) => it.lesson === doc.lesson) : null, isBuilt: false, chosen: null, picture: null, old: null });
  named(name);
  panes.console.begin(S.name);
  compare.take(null);
  storage.begin(id);
  S.isOwn = !isExample;
  for (const it of [editor, feed, tests]) Object.assign(it, { breaks: new Set(), base: null, counts: new Map(), notes: new Map(), links: new Map(), now: 0, faults: new Map() });
  editor.text = source; feed.text = inputs; tests.text = stated;
  showFile("source");
  $("count").value = doc.count && stepsOf(doc.count) ? doc.count : group(steps || 200);
  readTests();
  S.isOpen = true;
  // (a source that cannot be built stands there all the same, with its faults)
  if (await build()) {
    if (wanted && wanted !== cell()) { if ([...$("cell").options].some((it) => it.value === wanted)) $("cell").value = wanted; }
    if (steps) await move("step", steps);
    for (const text of breaks) await session.breakpoint(text);
    if (breaks.length) take(await session.look(), { isLight: true });
    // (a lesson begins at its first step)
    if (position != null && position !== session.p) await seek(position);
    else if (doc.lesson && !doc.isWrong) { await seek(0); S.old = null; machine.show(S.picture, null, S.names); }
    if (asked) await why(asked);
    document.body.dataset.room = "source";
  } else clear();
  keep();
}
async function openPicked(files) {
  const some = [...files].slice(0, 8);
  if (some.some((it) => it.size > MOST_FILE)) { say(T.tooLarge, true); return; }
  const ropes = some.filter((it) => /\.(rope|bin)$/i.test(it.name) || it.size === 73_728);
  if (ropes.length) { await showRope(await Promise.all(ropes.slice(0, 2).map(async (it) => ({ name: it.name, bytes: new Uint8Array(await it.arrayBuffer()) })))); return; }
  const found = await Promise.all(some.map(async (it) => ({ name: it.name, text: await it.text() }))), of = (kind) => found.find((it) => it.name.toLowerCase().endsWith(kind));
  if (found.some((it) => it.text.slice(0, 4000).includes("\0"))) { say(T.notText, true); return; }
  const saved = of(".json");
  if (saved) { let doc = null; try { doc = JSON.parse(saved.text); } catch { /* told below */ } if (typeof doc?.source === "string") await openDoc(doc); else say(T.noSession, true); return; }
  const inputs = of(".feed"), stated = found.find((it) => /\.(tests?|expect)$/i.test(it.name)), source = found.find((it) => it !== inputs && it !== stated), left = found.filter((it) => ![inputs, stated, source].includes(it));
  if (source) {
    const doc = { name: source.name.replace(/\.lst$/i, ".agc"), source: sourceOf(source.text), feed: inputs?.text || "", tests: stated?.text || "" }, known = storage.all().find((it) => ["name", "source", "feed", "tests"].every((one) => it[one] === doc[one]));
    await (known ? openDoc(known, { id: known.id }) : openDoc({ ...doc, steps: stepsFor(doc) }));
    say(left.length ? T.notTaken(left.map((it) => it.name).join(", ")) : S.isBuilt ? T.opened(S.name, group(session.n)) : T.hasFaults, Boolean(left.length) || !S.isBuilt);
    return;
  }
  if (inputs) { feed.text = inputs.text; edited(); showFile("feed"); }
  if (stated) { tests.text = stated.text; S.isOwn = true; keepSoon(); readTests(); showFile("tests"); }
}
// As many steps as what is stated of it and its inputs need.
function stepsFor({ feed: inputs, tests: stated }) {
  const asked = [...stated.matchAll(/^\s*steps\s+(\d{1,6})\b/gim)].map((it) => Number(it[1])), last = Math.max(0, ...[...inputs.matchAll(/^\s*(\d{1,9})\s/gm)].map((it) => Number(it[1])));
  return Math.min(MOST_FIRST, Math.max(FIRST_STEPS, last ? last + FIRST_STEPS : 0, ...asked));
}
// A listing is taken as the source that it shows.
function sourceOf(text) {
  const lines = text.split("\n");
  if (!/^SYMBOLS \d+$/m.test(text) || !/^ *1 /.test(lines[0])) return text;
  return lines.slice(0, lines.findIndex((it) => /^SYMBOLS \d+$/.test(it))).filter((it, i, all) => it.slice(0, 5) !== all[i - 1]?.slice(0, 5)).map((it) => it.slice(21)).join("\n");
}
async function showRope(ropes) {
  const [first, second] = ropes, out = el("pre", { class: "rope", tabindex: 0 }), ask = async (name, work) => { out.textContent = T.starting; out.textContent = await work(); };
  const buttons = el("div", { class: "row" }, ...["sums", "parity", "damages", "words"].map((it) => el("button", { class: "small", onclick: () => ask(it, () => session.rope(it, first.bytes)) }, it)));
  const other = second?.bytes || session.image;
  if (session.image || second) buttons.append(el("button", { class: "small", onclick: () => ask("compare", () => session.rope("compare", first.bytes, other)) }, second ? `compare ${second.name}` : T.ropeCompare));
  buttons.append(el("button", { class: "small", onclick: async () => { const source = await session.ropeSource(first.bytes); if (source) { $("dialog").close(); await openDoc({ name: `${first.name.replace(/\.\w+$/, "")}.agc`, source, flight: true }); } else out.textContent = await session.rope("words", first.bytes); } }, T.ropeSource));
  showDialog(`${T.rope} ${first.name}`, buttons, out);
  await ask("sums", () => session.rope("sums", first.bytes));
}
const base = () => (S.name || T.unnamed).replace(/\.agc$/, "");
function rename() {
  const field = el("input", { class: "finder", value: S.name, maxlength: 80, spellcheck: "false", autocomplete: "off", "aria-label": T.newName }), take = (event) => {
    event.preventDefault();
    $("dialog").close();
    const name = field.value.trim().replace(/[\\/:*?"<>|]/g, "_");
    if (!name || name === S.name) return;
    named(/\.\w+$/.test(name) ? name : `${name}.agc`);
    S.isOwn = true;
    keepSoon();
  };
  showDialog(T.newName, el("form", { class: "row", onsubmit: take }, field, el("button", { class: "small" }, T.menu.rename.replace(/ .*/, ""))));
  field.focus(); field.setSelectionRange(0, base().length);
}
function named(name) { S.name = name || T.unnamed; $("name").textContent = S.name; document.title = `${S.name} \u00b7 agcws`; }
function save(name, data, kind) { download(name, data, kind); say(T.saved(name)); }
function saveSource() { save(`${base()}.agc`, editor.text); }
function saveTests() { const stated = expectation(); if (stated) save(`${base()}.expect`, `${stated.text.trimEnd()}\n`); else save(`${base()}.test`, tests.text); }
function saveAll() { save(`${base()}.json`, JSON.stringify(document_(), null, 1), "application/json"); }
async function copyLink() {
  const doc = document_(), hash = await linkOf({ name: doc.name, source: doc.source, feed: doc.feed, tests: doc.tests, flight: doc.flight, steps: doc.steps, position: doc.position, breaks: doc.breaks, cell: doc.cell, why: doc.why }), url = location.href.split("#")[0] + hash;
  history.replaceState(null, "", hash);
  try { await navigator.clipboard.writeText(url); say(T.linkCopied); } catch { showDialog(T.linkShown, el("textarea", { class: "link-text", readonly: true, rows: 4, "aria-label": T.linkShown }, url)); $("dialog").querySelector("textarea").select(); }
}
async function openLink() {
  try {
    const task = await taskOf(location.hash);
    if (!task) return false;
    await openDoc(task);
    history.replaceState(null, "", location.href.split("#")[0]);
    return true;
  } catch { banner(T.linkSpoilt); history.replaceState(null, "", location.href.split("#")[0]); return false; }
}

// Menus.

function openMenu(id, button, items) {
  const menu = $(id);
  if (!menu.hidden) { closeMenus(); return; }
  closeMenus();
  menu.replaceChildren(...items.map((it) => (it === "-" ? el("hr") : it.head ? el("h3", {}, it.head) : el("div", { class: "item", role: "none" }, el("button", { role: it.isOn === undefined ? "menuitem" : "menuitemcheckbox", "aria-checked": it.isOn === undefined ? null : String(it.isOn), tabindex: -1, onclick: () => { closeMenus(); it.work(); } }, el("b", {}, it.name), el("span", {}, it.note || "")), it.remove ? el("button", { class: "remove", role: "menuitem", tabindex: -1, "aria-label": `${T.menu.remove}: ${it.name}`, title: T.menu.remove, onclick: (event) => { it.remove(); event.target.closest(".item").remove(); menu.querySelector("button")?.focus(); } }, "\u00d7") : ""))));
  menu.hidden = false;
  if (id !== "context") button.setAttribute("aria-expanded", "true");
  menu.querySelector("button").focus();
}
// A menu where something was asked of a thing.
let contextOf = null;
function openContext(event, opener, items) {
  event.preventDefault();
  closeMenus();
  contextOf = opener.closest("button, .editor, .pane");
  openMenu("context", contextOf, items);
  const menu = $("context"), at = opener.getBoundingClientRect(), x = event.clientX || at.left + 12, y = event.clientY || at.bottom;
  menu.style.left = `${Math.max(4, Math.min(x, innerWidth - menu.offsetWidth - 6))}px`;
  menu.style.top = `${Math.max(4, Math.min(y, innerHeight - menu.offsetHeight - 6))}px`;
}
function closeMenus() {
  if (!$("context").hidden) { const had = $("context").contains(document.activeElement); $("context").hidden = true; if (had && contextOf?.isConnected) contextOf.focus({ preventScroll: true }); }
  for (const [id, button] of [["menu", "menu-open"], ["more-menu", "more"]]) { if ($(id).contains(document.activeElement)) $(button).focus(); $(id).hidden = true; $(button).setAttribute("aria-expanded", "false"); } }
function menuKeys(event) {
  const all = [...event.currentTarget.querySelectorAll("button")], at = all.indexOf(document.activeElement), to = { ArrowDown: at + 1, ArrowUp: at - 1, Home: 0, End: all.length - 1 }[event.key];
  if (event.key === "Escape" || event.key === "Tab") { closeMenus(); event.stopPropagation(); if (event.key === "Escape") event.preventDefault(); return; }
  if (to === undefined) return;
  event.preventDefault(); event.stopPropagation();
  all[(to + all.length) % all.length].focus();
}
function showMenu() {
  const mine = storage.all().filter((it) => it.id !== storage.id).slice(0, 12);
  openMenu("menu", $("menu-open"), [
    { name: T.menu.open, note: T.menu.openNote, work: () => $("picker").click() }, { name: T.menu.fresh, work: () => openDoc({ name: T.unnamed, source: "        SETLOC  4000\n        ", feed: "" }).then(() => { editor.area.focus(); editor.area.setSelectionRange(1e6, 1e6); }) }, { name: T.menu.rename, note: S.name, work: rename }, "-",
    { name: T.menu.save, note: `${base()}.agc`, work: saveSource }, { name: T.menu.saveFeed, note: `${base()}.feed`, work: () => save(`${base()}.feed`, feed.text) }, ...(tests.text.trim() ? [{ name: T.menu.saveTests, note: `${base()}.${expectation() ? "expect" : "test"}`, work: saveTests }] : []), { name: T.menu.saveAll, note: `${base()}.json`, work: saveAll }, { name: T.menu.link, work: copyLink },
    ...(mine.length ? [{ head: T.menu.mine }, ...mine.map((it) => ({ name: it.name || T.unnamed, note: new Date(it.at).toLocaleString("en", { dateStyle: "medium", timeStyle: "short" }), work: () => openDoc(it, { id: it.id }), remove: () => storage.remove(it.id) }))] : []),
    ...(examples.length ? [{ head: T.menu.lessons }] : []), ...examples.filter((it) => it.lesson).map((it) => ({ name: T.lesson(Number(/\d+/.exec(it.name))), note: it.lesson, work: () => openDoc(it, { isExample: true }) })),
    ...(examples.length ? [{ head: T.menu.examples }] : []), ...examples.filter((it) => !it.lesson).map((it) => ({ name: it.name, note: it.about, work: () => openDoc(it, { isExample: true }) })),
  ]);
}
// How many steps, without a key.
function showCounts(event) { openContext(event, $("counts"), [10, 100, 1000, 10_000, 100_000, 1_000_000].map((it) => ({ name: T.someOf(group(it)), work: () => { $("count").value = group(it); keepSoon(); } }))); }
function showMore() {
  const theme = document.documentElement.dataset.theme;
  openMenu("more-menu", $("more"), [
    { name: T.more[theme === "dark" ? "light" : "dark"], note: "D", work: () => setTheme(theme === "dark" ? "light" : "dark") }, { name: T.more.lecture, note: "L", isOn: document.documentElement.classList.contains("lecture"), work: lecture }, { name: T.more.notes, isOn: setting.get("notes") !== "off", work: toggleNotes }, "-",
    { name: T.more.page, work: saveHandout }, { name: T.more.png, work: () => axis.picture().toBlob((it) => save(`${base()}-time.png`, it)) }, { name: T.more.svg, work: () => { const text = svgOf(chain); if (text) save(`${base()}-${T.chainFile}.svg`, text, "image/svg+xml"); else say(T.noChain); } }, { name: T.more.print, note: "Ctrl P", work: () => print() }, "-",
    { name: T.more.about, work: async () => showDialog("agcws", el("p", {}, T.about(await engine.about))) },
  ]);
}
function toggleNotes() { const isOff = setting.get("notes") === "off"; setting.set("notes", isOff ? "on" : "off"); if (isOff) loadNotes(); else { editor.mark({ notes: new Map() }); axis.notes = []; axis.draw(); } }
const handout = () => handoutOf({ session, names: S.names, name: S.name, source: editor.lines, cell: cell(), why: S.chosen, picture: S.picture, say });
async function saveHandout() { if (S.isBuilt) save(`${base()}.html`, await handout(), "text/html"); }
function setTheme(name, isKept = true) { document.documentElement.dataset.theme = name; axis.draw(); if (isKept) setting.set("theme", name); }
function lecture() { const is = document.documentElement.classList.toggle("lecture"); setting.set("lecture", is ? "on" : "off"); scaled(); }
// The form of the page, by its width in rem.
function shape() {
  const width = innerWidth / (10 * unit()), isLow = width > 56 && innerHeight / (10 * unit()) < 50;
  for (const it of [112, 90, 70]) document.body.classList.toggle(`to${it}`, width <= it && !(it === 70 && isLow));
  for (const it of [150, 200]) document.body.classList.toggle(`from${it}`, width >= it);
  // (a low screen has one room at a time too)
  document.body.classList.toggle("low", isLow);
  document.body.classList.toggle("roomed", isLow || width <= 70);
}
function scaled() { shape(); for (const it of [editor, feed, tests]) it.scaled(); axis.draw(); if (chain.asked) chain.show(chain.asked); if (S.tab === "steps") showSteps(); if (S.tab === "compare") compare.show(true); }

// What is clicked.

function label() {
  const put = (id, text) => { $(id).textContent = text; };
  for (const [name, text] of [["run", T.run], ["stop", T.stop], ["steps-word", T.stepsWord], ["pace-word", T.realTime], ["h-regs", T.registers], ["h-words", T.words], ["h-chans", T.channels], ["of-word", T.of], ["unproved", T.unproved]]) put(name, text);
  $("unproved").title = T.unprovedTitle;
  for (const it of document.querySelectorAll("[data-go]")) { it.append(icon(it.dataset.go)); it.title = T.tips[it.dataset.go]; it.setAttribute("aria-label", it.title); }
  for (const it of document.querySelectorAll("[data-tab]")) it.textContent = T.tabs[it.dataset.tab];
  for (const it of document.querySelectorAll("[data-file]")) it.textContent = T.files[it.dataset.file];
  for (const it of document.querySelectorAll("[data-room]")) if (it.closest("nav")) it.textContent = T.rooms[it.dataset.room];
  for (const id of ["run", "stop", "pace", "more", "keys", "position"]) $(id).title = T.tips[id];
  $("pace").setAttribute("aria-label", T.realTime); $("more").append(icon("more")); $("more").setAttribute("aria-label", T.tips.more); $("keys").setAttribute("aria-label", T.tips.keys);
  $("curve").prepend(icon("curve"));
  $("find").append(icon("find")); $("find").title = T.tips.find; $("find").setAttribute("aria-label", T.tips.find);
  $("stops").setAttribute("aria-label", T.stopsHead);
  $("counts").title = T.tips.counts; $("counts").setAttribute("aria-label", T.tips.counts);
  $("run").dataset.widest = T.build;
  axis.whole.textContent = T.tips.whole.split(" (")[0].toLowerCase().replace("the ", ""); axis.whole.title = T.tips.whole;
  $("faults").setAttribute("aria-description", T.toFault);
}
function bind() {
  document.querySelector(".transport").addEventListener("click", (event) => { const it = event.target.closest("[data-go]"); if (it && S.isBuilt) go[it.dataset.go](); });
  for (const [id, work] of [["run", run], ["stop", stop], ["pace", pace], ["keys", showSheet], ["menu-open", showMenu], ["more", showMore], ["faults", nextFault], ["find", find], ["counts", showCounts]]) $(id).addEventListener("click", work);
  for (const id of ["menu", "more-menu", "context"]) $(id).addEventListener("keydown", menuKeys);
  $("picker").addEventListener("change", () => { openPicked($("picker").files); $("picker").value = ""; });
  $("count").addEventListener("keydown", (event) => { if (event.key === "Enter") run(); });
  $("position").addEventListener("focus", () => { $("position").value = session.p; $("position").select(); });
  // (in WebKit the end of a click would take the selection away)
  $("position").addEventListener("mousedown", (event) => { if (document.activeElement === $("position")) return; event.preventDefault(); $("position").focus(); });
  $("position").addEventListener("keydown", (event) => { if (event.key !== "Enter") return; const { value } = $("position"), step = stepsOf(value), cycles = cyclesOf(value); $("position").blur(); if (cycles !== null) move("until", cycles); else if (step !== null) seek(step); else say(T.whereTo, true); });
  $("position").addEventListener("blur", () => S.picture && setPosition(S.picture.p, S.picture.n, S.picture.cycles));
  $("cell").addEventListener("change", () => { loadSurvey(); keepSoon(); });
  for (const [list, key, work] of [[$("tabs"), "tab", showTab], [$("files"), "file", showFile]]) {
    list.addEventListener("click", (event) => {
      const it = event.target.closest('[role="tab"]');
      if (!it) return;
      if (key === "tab") document.body.classList.toggle("unfolded", it.dataset.tab !== S.tab || !document.body.classList.contains("unfolded"));
      work(it.dataset[key]);
    });
    list.addEventListener("keydown", (event) => {
      const all = [...list.querySelectorAll('[role="tab"]')], at = all.indexOf(event.target), by = { ArrowRight: 1, ArrowLeft: -1 }[event.key];
      if (at < 0 || !by) return;
      event.preventDefault(); event.stopPropagation();
      const next = all[(at + by + all.length) % all.length];
      next.focus(); work(next.dataset[key]); next.focus();
    });
  }
  $("rooms").addEventListener("click", (event) => { const it = event.target.closest("[data-room]"); if (it) { document.body.dataset.room = it.dataset.room; for (const one of [editor, feed, tests]) one.measure(); showTab(S.tab); axis.draw(); } });
  bindTouch({ isMenuOpen: () => ["menu", "more-menu", "context"].some((it) => !$(it).hidden), closeMenus });
  document.addEventListener("click", (event) => { if (!event.target.closest(".file, .context, #counts")) closeMenus(); });
  const dock = (height) => { document.body.classList.remove("tall"); const most = innerHeight - 330, now = Math.max(90, Math.min(most, height)); document.body.style.setProperty("--dock", `${now}px`); $("split").setAttribute("aria-valuenow", Math.round(now)); editor.measure(); };
  $("split").addEventListener("pointerdown", (event) => { $("split").setPointerCapture(event.pointerId); $("split").onpointermove = (moved) => dock(innerHeight - moved.clientY - 4); $("split").onpointerup = () => { $("split").onpointermove = null; }; });
  $("split").addEventListener("keydown", (event) => { const by = { ArrowUp: 24, ArrowDown: -24 }[event.key]; if (by) { event.preventDefault(); event.stopPropagation(); dock(document.querySelector(".dock").offsetHeight + by); } });
  addEventListener("beforeunload", (event) => { keep(); if (!storage.isKept) event.preventDefault(); });
  addEventListener("pagehide", keep);
  addEventListener("dragover", (event) => { event.preventDefault(); document.body.classList.add("dropping"); });
  for (const name of ["dragleave", "drop", "dragend"]) addEventListener(name, () => document.body.classList.remove("dropping"));
  addEventListener("drop", (event) => { event.preventDefault(); if (event.dataTransfer.files.length) openPicked(event.dataTransfer.files); });
  addEventListener("hashchange", openLink);
  addEventListener("resize", () => { const was = isRoomed(); shape(); if (was !== isRoomed()) scaled(); else if (S.tab === "compare") soon("lines", 150, () => compare.show(true)); });
  bindKeys({ go, run, stop, pace, seek, showTab(name) { document.body.classList.add("unfolded"); showTab(name); }, tabs: TABS, closeMenus, isBusy: () => S.isMoving || S.isPacing, isBuilt: () => S.isBuilt, why: () => why(S.chosen || cell()), choice, toggleBreak: () => toggleBreak(document.activeElement === editor.area ? editor.builtLine(editor.caretLine()) : S.picture?.where.line), edit: () => { showFile("source"); editor.enter(); }, find, menu: ownMenu, theme: () => setTheme(document.documentElement.dataset.theme === "dark" ? "light" : "dark"), lecture, save: saveSource, dsky: (event) => S.tab === "dsky" && dsky.key(event) });
}
async function begin() {
  setTheme(setting.get("theme") || (matchMedia("(prefers-color-scheme: dark)").matches ? "dark" : "light"), false);
  document.documentElement.classList.toggle("lecture", setting.get("lecture") === "on");
  document.body.dataset.room = "source";
  label(); bind(); shape();
  document.fonts?.ready.then(scaled);
  say(T.starting);
  engine.about.then((about) => { $("unproved").hidden = about.proved; }, (failed) => banner(`${T.failed}: ${failed.message}`));
  const given = (await engine.about.catch(() => null))?.given?.source ? (await engine.about).given : null;
  if (!(await openLink())) {
    const mine = given ? null : storage.mine();
    if (given) await openDoc({ name: given.source.name, source: given.source.text, feed: given.feed?.text || "" });
    else if (mine) await openDoc(mine, { id: mine.id });
    else { const first = examples.find((it) => it.name === "lost_sum.agc") || examples[0] || { source: "        SETLOC  4000\n\n" }; await openDoc(first, { isExample: true }); }
  }
  if ($("said").textContent === T.starting) say("");
  document.body.dataset.ready = String(Math.round(performance.now()));
}
// (for the tests of the page)
window.workbench = { S, examples, session, engine, editor, feed, tests, axis, chain, compare, handout, svg: () => svgOf(chain), go, seek, move, why, openDoc, openPicked, cell, storage };
begin();
