// What a program is to put out, test by test, and whether it does.
import { el } from './dom.js';
import { decimalOf, group, numberOf, octal } from './words.js';
import { FEED, SOURCE, withInput } from './session.js';
import { T } from './texts.js';

const MOST_STATED = 40, HEADS = ["SOURCE", "FEED", "STEPS", "TEST"];

// A word as a person states it: octal, or with a sign decimal.
function statedOf(text) {
  if (/^[+-]\d{1,5}$/.test(text)) { const value = Number(text); return Math.abs(value) < 16384 ? octal(value < 0 || Object.is(value, -0) ? 0o77777 + value : value) : null; }
  return /^[0-7]{1,5}$/.test(text) ? text.padStart(5, "0") : null;
}
const same = (word, stated) => word === stated || (word?.length === 6 && numberOf(word) === numberOf(stated));

// The tests of a text, each with its line; and the first line that is none.
export function testsOf(text) {
  const tests = [], faults = [];
  let test = null;
  text.split("\n").forEach((line, i) => {
    const words = line.split("#")[0].trim().split(/\s+/).filter(Boolean), [head, ...rest] = words, fault = (said) => faults.push({ file: "tests", line: i + 1, column: line.search(/\S/) + 1, length: line.trim().length, kind: "error", number: "", text: said, cure: "" });
    if (!head) return;
    if (head === "test") { test = { name: rest.join(" ").replace(/^"|"$/g, "") || T.test, line: i + 1, steps: 0, hasFeed: true, inputs: [], wanted: [] }; tests.push(test); return; }
    if (!test) { fault(T.testFirst); return; }
    if (head === "steps" && /^\d{1,9}$/.test(rest[0])) test.steps = Number(rest[0]);
    else if (head === "feed" && rest[0] === "none") test.hasFeed = false;
    else if (head === "in" && /^\d{1,12}$/.test(rest[0]) && rest.length > 1) test.inputs.push([Number(rest[0]), rest.slice(1).join(" ")]);
    else if (head === "out" && /^[0-7]{1,3}$/.test(rest[0]) && statedOf(rest[1] ?? "")) test.wanted.push({ kind: "out", channel: parseInt(rest[0], 8), word: statedOf(rest[1]) });
    else if (head === "mem" && rest.length >= 2 && statedOf(rest[rest.length - 1])) test.wanted.push({ kind: "mem", place: rest.slice(0, -1).join(" "), word: statedOf(rest[rest.length - 1]) });
    else if (head === "notes" && rest[0] === "none") test.wanted.push({ kind: "notes" });
    else fault(T.testLine);
  });
  return { tests, faults };
}
// A text as `agcws expect` takes it: its tests, each with its line, and the words of each line. Null where the text has the short form above.
// A text of the page may leave out its first lines: they are put before it here (`before` counts them).
export function statedOfProgram(text, { source, feed, steps }) {
  const lines = text.split("\n").map((it) => it.split("#")[0].trim()), words = lines.map((it) => it.split(/\s+/).filter(Boolean)), first = words.find((it) => it.length)?.[0];
  if (!HEADS.includes(first)) return null;
  const head = (name) => words.find((it) => it[0] === name)?.slice(1).join(" "), isWhole = head("SOURCE") !== undefined, given = isWhole ? [] : [`SOURCE ${source}`, ...(head("FEED") === undefined ? [`FEED ${feed}`] : []), ...(head("STEPS") === undefined ? [`STEPS ${steps}`] : [])];
  const tests = lines.map((it, i) => ({ kind: "expect", name: it.slice(4).trim() || T.test, line: i + 1, steps: parseInt(head("STEPS"), 10) || steps, inputs: [], hasFeed: !isWhole || head("FEED") !== undefined })).filter((_, i) => words[i][0] === "TEST");
  const rows = text.split("\n"), whole = [...given, ...rows];
  // (to the program the two files are called as those of the session)
  return { tests, words, rows, before: given.length, text: whole.join("\n"), asked: whole.map((it) => it.replace(/^(\s*)(SOURCE|FEED)\s.*/, (_, blank, name) => `${blank}${name} ${name === "SOURCE" ? SOURCE : FEED}`)).join("\n") };
}
// What the program says of each test, with where it goes wrong; and the line that it cannot read.
export function toldByProgram(stated, { output, errors }) {
  const fault = /^[^:\n]*:(\d+):(\d+): error: (.*)$/m.exec(output + errors), results = [];
  if (fault) { const line = Math.max(1, Number(fault[1]) - stated.before), column = Number(fault[2]); return { results, faults: [{ file: "tests", line, column, length: /^\S*/.exec((stated.rows[line - 1] || "").slice(column - 1))[0].length || 1, kind: "error", number: "", text: fault[3], cure: "" }] }; }
  for (const it of output.split("\n")) {
    if (/^ok {3}/.test(it)) results.push({ wrong: null });
    const found = /^FAIL .*: line (\d+), step (\d+), cycle (\d+): (.*)$/.exec(it);
    if (!found) continue;
    const claim = stated.words[Number(found[1]) - stated.before - 1] || [], channel = claim[0] === "CHANNEL" && /^[0-7]+$/.test(claim[1]) ? parseInt(claim[1], 8) : null, came = found[4].replace(/; wanted .*$/, ""), isMissed = came === "nothing came";
    if (claim[0] === "NOTES" || claim[0] === "CHECK") { results.push({ wrong: { said: `${claim.join(" ")}: ${came}`, step: Number(/^NOTE .* STEP (\d+)/.exec(came)?.[1] ?? found[2]), place: "" } }); continue; }
    const isAt = claim[0] === "AT", place = channel !== null ? `CH${octal(channel, 3)}` : claim.slice(isAt ? (/^\+/.test(claim[2]) ? 3 : 2) : 1, claim.findIndex((one) => /^[<>=]+$/.test(one))).join(" "), said = claim.join(" ");
    results.push({ wrong: isMissed ? { said: T.claimMissed(said), channel, label: isAt ? claim[1] : null } : { said: claim[0] === "CALLS" ? `${said}: ${came}` : T.claimFailed(said, came.replace(/^it is /, ""), group(found[2])), step: Number(found[2]), place } });
  }
  return { results, faults: [], said: results.length || !errors ? "" : / is refused: E\d+ LINE/.test(errors) ? T.refusedSource : errors.trim().replace(/^.*?error: |^agcws: /, "") };
}
// A test that states what a run has put out, and no more: in the order of each channel.
export function statedBy({ name, n, outputs }) {
  const lines = [`STEPS   ${n}`, `TEST    ${name}`], most = Math.min(outputs.count, MOST_STATED), put = new Map();
  for (let i = 0; i < most - outputs.first; i += 1) put.set(outputs.channels[i], [...(put.get(outputs.channels[i]) || []), octal(outputs.words[i])]);
  for (const [channel, words] of [...put].sort((a, b) => a[0] - b[0])) lines.push(`        CHANNEL ${octal(channel, 3)} ${words.join(" ")}${most === outputs.count ? " THEN NOTHING" : ""}`);
  return `${lines.join("\n")}\n`;
}
export const feedOf = (test, feed) => test.inputs.reduce((all, [cycle, text]) => withInput(all, cycle, text), test.hasFeed ? feed : "");

const say = (word) => `${word} (${decimalOf(word)})`;
// What is wrong first, or null.
export function judge(test, told) {
  if (told.status) return { said: [T.refused, told.errors.trim().replace(/^agcws: /, "")].filter(Boolean).join(": ") };
  const put = new Map();
  for (const it of test.wanted) {
    if (it.kind === "out") {
      const at = put.get(it.channel) || 0, words = told.outputs.filter((one) => one.channel === it.channel), found = words[at];
      put.set(it.channel, at + 1);
      if (!found) return { said: T.notPut(octal(it.channel, 3), at + 1, say(it.word)), place: null, channel: it.channel };
      if (found.word !== it.word) return { said: T.otherPut(octal(it.channel, 3), at + 1, say(found.word), group(found.cycles), say(it.word)), place: `CH${octal(it.channel, 3)}`, cycles: found.cycles };
    } else if (it.kind === "mem") {
      const found = told.cells.get(it.place);
      if (!same(found, it.word)) return { said: found ? T.otherWord(it.place, say(found), say(it.word)) : T.noPlace(it.place), place: found ? it.place : null };
    } else if (told.notes.length) return { said: T.noted(told.notes[0]), place: null, step: told.notes[0].step };
  }
  return null;
}

export class Tests {
  constructor(root, heard) { Object.assign(this, { root, heard, results: [] }); this.show(); }
  show(tests = [], results = [], fault = "") {
    this.results = results;
    const good = results.filter((it) => it && !it.wrong).length, all = results.filter(Boolean).length;
    this.heard.counted(fault ? "!" : all ? `${good}/${all}` : "", Boolean(fault) || (all > 0 && good < all));
    if (!tests.length) { this.root.replaceChildren(el("div", { class: "empty-tab two" }, el("div", {}, el("p", {}, T.noTests), el("p", { class: "row" }, el("button", { class: "small", onclick: () => this.heard.write() }, T.writeTests), el("button", { class: "small", onclick: () => this.heard.take() }, T.takeTests))), el("pre", {}, T.testExample))); return; }
    const list = el("div", { class: "tests", role: "list" }), lesson = this.heard.lesson();
    tests.forEach((test, i) => {
      const result = results[i], kind = !result ? "waits" : result.wrong ? "bad" : "good";
      list.append(el("div", { role: "listitem" }, el("button", { class: `test ${kind}`, title: T.testTitle, onclick: () => this.heard.open(test, result) }, el("b", { "aria-hidden": "true" }, { waits: "\u00b7", bad: "\u2715", good: "\u2713" }[kind]), el("span", {}, test.name), el("em", {}, !result ? T.testWaits : result.wrong ? result.wrong.said : T.testGood))));
    });
    if (lesson) list.append(el("p", { class: "asked", role: "listitem" }, el("b", {}, `${T.exercise} `), lesson.asked), el("p", { class: "row", role: "listitem" }, el("span", { class: "quiet" }, T.wrongOnes), ...lesson.wrong.map((_, i) => el("button", { class: "small", onclick: () => this.heard.wrong(i) }, T.wrongOne(i + 1)))));
    this.root.replaceChildren(el("div", { class: "tests-head" }, el("button", { class: "small", onclick: () => this.heard.run() }, T.runTests), el("span", { class: fault ? "bad" : "quiet" }, fault ? fault : all ? T.testsPassed(good, all) : "")), list);
  }
}
