// What the program tells of a chain, line by line: links, choices, rounds of a loop. Nothing here draws.
import { isWord } from './words.js';

// A round of a chain has at most so many links, and is told as one from so many rounds on.
const MOST_ROUND = 16, FEWEST_ROUNDS = 4;

// Pairs of a cell and its word, up to a word that begins none.
function pairsOf(words, at) {
  const pairs = [];
  while (at + 1 < words.length && isWord(words[at + 1]) && words[at] !== "NOTHING") { pairs.push([words[at], words[at + 1]]); at += 2; }
  return [pairs, at];
}
// A step of a chain, from its line.
function linkOf(line) {
  const head = /^BY (\d+) (.*)$/.exec(line);
  if (!head) return null;
  const at = head[2].indexOf(" : "), words = head[2].slice(at + 3).split(" ");
  let [written, i] = pairsOf(words, 0), read = [];
  if (words[i] === "FROM") { [read, i] = pairsOf(words, i + 1); if (words[i] === "NOTHING") i += 1; }
  return { t: Number(head[1]), text: head[2].slice(0, at), written, read, within: words[i] === "IN" ? Number(words[i + 2]) : 0, index: null };
}
// A choice, from its line: its step, its instruction, where it led, and what it was made by.
export function wayOf(line) {
  const found = /^WAY (\d+) (.*) TO ((?:\d\d|E\d),[0-7]{4}(?: \S+(?: \+[0-7]+)?)?) FROM (.*)$/.exec(line || "");
  return found && { t: Number(found[1]), text: found[2], to: found[3], read: pairsOf(found[4].split(" "), 0)[0] };
}
export function chainOf(lines) {
  const links = [], way = wayOf(lines[0]);
  let start = [], more = 0, refused = "";
  for (const line of lines) {
    const link = linkOf(line);
    if (link) links.push(link);
    else if (line.startsWith("INDEX ") && links.length) { const [, t, , sum] = /^INDEX (\d+) (.*) : ([+-][0-7]+)/.exec(line) || []; links[links.length - 1].index = { t: Number(t), sum, text: line.replace(/^INDEX \d+ /, "") }; }
    else if (line.startsWith("START ")) [start] = pairsOf(line.split(" "), 1);
    else if (line.startsWith("MORE ")) more = Number(line.slice(5));
    else if (/^E\d/.test(line)) refused = line.replace(/^E\d+ (COMMAND )?/, "");
  }
  return { links, start, more, refused, way };
}
// Links of several chains, the last step first; of one step all that any tells.
export function united(...chains) {
  const found = new Map(), both = (a, b) => [...new Map([...a, ...b].map((it) => [it[0], it])).values()];
  for (const it of chains.flat()) { const known = found.get(it.t); found.set(it.t, known ? { ...known, written: both(known.written, it.written), read: both(known.read, it.read) } : it); }
  return [...found.values()].sort((a, b) => b.t - a.t);
}

// What links of two rounds of a loop have in common: instruction and places. Of an operand that INDEX moved neither the place counts nor by how much.
function samenessOf({ text, written, read, within }) {
  const isMoved = / [+-][0-7]+$/.test(text), places = (pairs) => pairs.map(([cell]) => (isMoved && !["A", "L", "Q"].includes(cell) ? "" : cell));
  return [text.replace(/ [+-][0-7]+$/, " +"), places(written), "from", places(read), within > 0].join(" ");
}
// Rows of links and choices, of which the rounds of a loop that come again are one row.
export function foldedRows(rows) {
  const said = rows.map((it, i) => (it.kind === "link" && !it.isAlone ? samenessOf(it.link) : i)), shown = [];
  for (let at = 0; at < rows.length;) {
    let fold = null;
    for (let size = 1; !fold && size <= Math.min(MOST_ROUND, Math.floor((rows.length - at) / FEWEST_ROUNDS)); size += 1) {
      let same = 0;
      while (at + size + same < rows.length && said[at + same] === said[at + size + same]) same += 1;
      const count = Math.floor(same / size) + 1;
      if (count >= FEWEST_ROUNDS) fold = { kind: "rounds", size, count, rows: rows.slice(at + size, at + size * count) };
    }
    if (!fold) { shown.push(rows[at]); at += 1; continue; }
    shown.push(...rows.slice(at, at + fold.size), fold);
    at += fold.size * fold.count;
  }
  return shown;
}
