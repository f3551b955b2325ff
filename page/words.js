// Words, places and large numbers as people read them. Nothing here asks the program anything.
export const group = (number) => Number(number).toLocaleString("en");
const MINUS = "\u2212";

// A word of 15 or 16 bits, in octal, as the number that it is: a one's complement.
export function numberOf(word) {
  if (word == null) return null;
  const bits = word.length === 6 ? 16 : 15, value = parseInt(word, 8);
  return value >= 1 << (bits - 1) ? value - ((1 << bits) - 1) : value;
}
// As a decimal number, with a minus that is as wide as a plus. Minus zero keeps its sign.
export function decimalOf(word) {
  const value = numberOf(word);
  return Object.is(value, 0) && parseInt(word, 8) ? `${MINUS}0` : String(value).replace("-", MINUS);
}
export const isWord = (text) => /^[0-7]{5,6}$/.test(text ?? "");
export const octal = (number, digits = 5) => number.toString(8).padStart(digits, "0");
export const channelName = (number) => `CH${octal(number, 3)}`;
export const channelOf = (name) => { const found = /^CH([0-7]{3})$/.exec(name ?? ""); return found ? parseInt(found[1], 8) : null; };

function bitsOf(word) {
  const width = word.length === 6 ? 16 : 15, text = parseInt(word, 8).toString(2).padStart(width, "0");
  return width === 16 ? `${text[0]} ${text.slice(1).match(/.../g).join(" ")}` : text.match(/.../g).join(" ");
}
// The same word in four ways, a line each.
export const formsOf = (word, names) => (isWord(word) ? [`${word} ${names.octal}`, `${decimalOf(word)} ${names.decimal}`, `${(numberOf(word) / 16384).toFixed(5)} ${names.fraction}`, `${bitsOf(word)} ${names.binary}`].join("\n") : word);

// A number in at most five signs.
export function short(number) {
  if (number < 10000) return String(number);
  const [unit, sign] = number < 1e6 ? [1e3, "k"] : number < 1e9 ? [1e6, "M"] : [1e9, "G"];
  const value = number / unit;
  return `${value >= 100 ? Math.round(value) : value.toFixed(1)}${sign}`;
}
// What a person means by a number of steps: 5,000, 20k, 2m.
export function stepsOf(text) {
  const found = /^(\d+(?:\.\d+)?)(k|m|g)?$/.exec(text.replace(/[ ,_]/g, "").toLowerCase());
  return found ? Math.round(Number(found[1]) * ({ k: 1e3, m: 1e6, g: 1e9 }[found[2]] || 1)) : null;
}
// What a person means by a time: 12 ms, 1.5 s, or cycle 5,000. In cycles.
export function cyclesOf(text) {
  const found = /^(?:c|cycle) ?(\d+)$|^(\d+(?:\.\d+)?) ?(ms|s)$/.exec(text.trim().replace(/[,_]/g, "").toLowerCase());
  return found && (found[1] ? Number(found[1]) : Math.round(Number(found[2]) * (found[3] === "s" ? 1 : 1e-3) * CYCLES_A_SECOND));
}

// Erasable memory: its 2048 words by number, and as a listing names them.
export const placeOf = (number) => `E${(number >> 8).toString(8)},${octal(number < 0o1400 ? number : 0o1400 | (number & 0o377), 4)}`;
export function erasableOf(place) {
  const found = /^E([0-7]),([0-7]{4})$/.exec(place ?? "");
  return found ? (parseInt(found[1], 8) << 8) | (parseInt(found[2], 8) & 0o377) : null;
}
export const isFixedPlace = (cell) => /^\d\d,[0-7]{4}$/.test(cell);
export const COUNTERS = new Map(Object.entries({ 10: "ARUPT", 11: "LRUPT", 12: "QRUPT", 15: "ZRUPT", 16: "BBRUPT", 17: "BRUPT", 24: "TIME2", 25: "TIME1", 26: "TIME3", 27: "TIME4", 30: "TIME5", 31: "TIME6", 32: "CDUX", 33: "CDUY", 34: "CDUZ", 35: "OPTY", 36: "OPTX", 37: "PIPAX", 40: "PIPAY", 41: "PIPAZ", 45: "INLINK" }).map(([at, name]) => [parseInt(at, 8), name]));
export const INTERRUPTS = [null, "T6RUPT", "T5RUPT", "T3RUPT", "T4RUPT", "KEYRUPT1", "KEYRUPT2", "UPRUPT", "DOWNRUPT", "RADARUPT", "RUPT10"];

// A cycle is 12 pulses of 1.024 MHz.
export const CYCLES_A_SECOND = 1_024_000 / 12;
export function timeOf(cycles) {
  const ms = (1000 * cycles) / CYCLES_A_SECOND;
  return ms < 1000 ? `${ms.toFixed(2)} ms` : ms < 120_000 ? `${(ms / 1000).toFixed(2)} s` : `${Math.floor(ms / 60_000)} min ${Math.round((ms % 60_000) / 1000)} s`;
}
