// The words that a run has put out, bounded: the last of them, their number, and what the display shows after any cycle.
const MOST_KEPT = 50_000;
const DISPLAYED = [0o10, 0o11];
// The end of a channel line, after its cycles: a channel of three digits and a word of five.
const END = " CH 000 00000\n".length, ZERO = 48;

// The relays of each digit, by five bits, and what each row of them sets: the sign, and the left and the right digit.
const DIGITS = new Map([[0o00, " "], [0o25, "0"], [0o03, "1"], [0o31, "2"], [0o33, "3"], [0o17, "4"], [0o36, "5"], [0o34, "6"], [0o23, "7"], [0o35, "8"], [0o37, "9"]]);
const ROWS = new Map([
  [11, [null, "PROG1", "PROG2"]], [10, [null, "VERB1", "VERB2"]], [9, [null, "NOUN1", "NOUN2"]], [8, [null, null, "R1:1"]],
  [7, ["R1+", "R1:2", "R1:3"]], [6, ["R1-", "R1:4", "R1:5"]], [5, ["R2+", "R2:1", "R2:2"]], [4, ["R2-", "R2:3", "R2:4"]],
  [3, [null, "R2:5", "R3:1"]], [2, ["R3+", "R3:2", "R3:3"]], [1, ["R3-", "R3:4", "R3:5"]],
]);
const RELAY_LAMPS = new Map([[1, "PRIO DISP"], [2, "NO DAP"], [3, "VEL"], [4, "NO ATT"], [5, "ALT"], [6, "GIMBAL LOCK"], [8, "TRACKER"], [9, "PROG"]]);
const LAMPS = new Map([[1, "ISS"], [2, "COMP ACTY"], [3, "UPLINK ACTY"], [4, "TEMP"], [5, "KEY REL"], [6, "FLASH"], [7, "OPR ERR"]]);
const lit = (lamps, word) => [...lamps].filter(([bit]) => (word >> (bit - 1)) & 1).map(([, name]) => name);

// What the words of the rows of relays, and of channel 011 (row -1), show together.
export function displayOf(words) {
  const digits = new Map(), signs = new Set(), lamps = new Set();
  for (const [row, word] of words) {
    if (row === -1) { for (const it of lit(LAMPS, word)) lamps.add(it); continue; }
    if (row === 12) for (const it of lit(RELAY_LAMPS, word)) lamps.add(it);
    const [sign, left, right] = ROWS.get(row) || [];
    if (sign && word & 0o2000) signs.add(sign);
    if (left) digits.set(left, DIGITS.get((word >> 5) & 0o37) ?? "?");
    if (right) digits.set(right, DIGITS.get(word & 0o37) ?? "?");
  }
  const field = (name, by = "", size = 2) => Array.from({ length: size }, (_, i) => digits.get(`${name}${by}${i + 1}`) ?? " ").join("");
  const register = (name) => (signs.has(`${name}+`) ? "+" : signs.has(`${name}-`) ? "-" : " ") + field(name, ":", 5);
  return { PROG: field("PROG"), VERB: field("VERB"), NOUN: field("NOUN"), R1: register("R1"), R2: register("R2"), R3: register("R3"), lamps: [...lamps].sort() };
}

// How many of some rising numbers are at most a goal.
function upTo(numbers, goal) {
  let low = 0, high = numbers.length;
  while (low < high) { const middle = (low + high) >> 1; if (numbers[middle] <= goal) low = middle + 1; else high = middle; }
  return low;
}

export class Outputs {
  constructor() { Object.assign(this, { cycles: [], channels: [], words: [], count: 0, rows: new Map(), used: new Set() }); }
  // Takes the channel lines with which a reply begins, and returns what follows them.
  take(text) {
    const digit = (at) => text.charCodeAt(at) - ZERO, octalAt = (from, to) => { let number = 0; for (let at = from; at < to; at += 1) number = number * 8 + digit(at); return number; };
    let end = 0;
    for (;;) {
      let at = end, cycles = 0;
      for (let it; (it = digit(at)) >= 0 && it <= 9; at += 1) cycles = cycles * 10 + it;
      if (at === end || !text.startsWith(" CH ", at)) return end ? text.slice(end) : text;
      this.put(cycles, octalAt(at + 4, at + 7), octalAt(at + 8, at + 13));
      end = at + END;
    }
  }
  put(cycles, channel, word) {
    this.cycles.push(cycles); this.channels.push(channel); this.words.push(word);
    this.count += 1;
    this.used.add(channel);
    if (this.cycles.length > 2 * MOST_KEPT) for (const it of [this.cycles, this.channels, this.words]) it.splice(0, MOST_KEPT);
    if (!DISPLAYED.includes(channel)) return;
    const row = channel === 0o11 ? -1 : word >> 11;
    if (!this.rows.has(row)) this.rows.set(row, [[], []]);
    const [times, words] = this.rows.get(row);
    if (words[words.length - 1] === word) return;
    times.push(cycles); words.push(word);
    if (times.length > 2 * MOST_KEPT) { times.splice(0, MOST_KEPT); words.splice(0, MOST_KEPT); }
  }
  get first() { return this.count - this.cycles.length; }
  // The number of words put out up to a cycle, of those that are kept.
  upTo(cycles) { return upTo(this.cycles, cycles); }
  display(cycles) {
    const words = [];
    for (const [row, [times, all]] of this.rows) { const at = upTo(times, cycles); if (at) words.push([row, all[at - 1]]); }
    return displayOf(words);
  }
  near(cycles, size) {
    const middle = this.upTo(cycles), from = Math.max(0, Math.min(middle - Math.floor(size / 2), this.cycles.length - size)), to = Math.min(this.cycles.length, from + size);
    return Array.from({ length: to - from }, (_, i) => ({ number: this.first + from + i, cycles: this.cycles[from + i], channel: this.channels[from + i], word: this.words[from + i] }));
  }
}
