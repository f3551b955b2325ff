// What a person has written stands in the browser's storage, and comes back: after a crash, in another tab, from a link.
// A store that is full, or that a browser refuses, is told and never passed over.
const HEAD = "agcws:", DOC = `${HEAD}doc:`;

function stored(work, other) { try { return work(); } catch { return other; } }
const isFull = (failed) => failed?.name === "QuotaExceededError" || failed?.name === "NS_ERROR_DOM_QUOTA_REACHED";

export const setting = {
  get: (name) => stored(() => localStorage.getItem(HEAD + name), null),
  set: (name, value) => stored(() => { localStorage.setItem(HEAD + name, value); return true; }, false),
};

export class Storage {
  constructor(heard) {
    Object.assign(this, { heard, id: null, last: "", isKept: true, isTold: false });
    this.tab = stored(() => sessionStorage.getItem(`${HEAD}tab`), null) || Math.random().toString(36).slice(2, 10);
    stored(() => sessionStorage.setItem(`${HEAD}tab`, this.tab));
    window.addEventListener("storage", (event) => this.changed(event));
  }
  // Another tab has written the same program: from here on this one keeps its own beside it.
  changed(event) {
    if (!this.id || event.key !== DOC + this.id || event.newValue === this.last) return;
    const other = stored(() => JSON.parse(event.newValue), null), mine = stored(() => JSON.parse(this.last), null);
    if (other && mine && other.source === mine.source && other.feed === mine.feed && other.tests === mine.tests) return;
    this.id = this.fresh();
    this.last = "";
    this.heard.split();
  }
  fresh() { return `${Date.now().toString(36)}${Math.random().toString(36).slice(2, 6)}`; }
  // The programs that stand here, the latest first.
  all() {
    return stored(() => Object.keys(localStorage).filter((it) => it.startsWith(DOC)).map((key) => { const doc = stored(() => JSON.parse(localStorage.getItem(key)), null); return doc && { ...doc, id: key.slice(DOC.length) }; }).filter((it) => it && typeof it.source === "string").sort((a, b) => (b.at || 0) - (a.at || 0)), []);
  }
  // The program that this tab had, after a reload or a crash.
  mine() {
    const id = stored(() => sessionStorage.getItem(`${HEAD}here`), null);
    return id ? this.all().find((it) => it.id === id) || null : null;
  }
  begin(id = null) { this.id = id || this.fresh(); this.last = ""; this.isTold = false; stored(() => sessionStorage.setItem(`${HEAD}here`, this.id)); }
  keep(doc) {
    if (!this.id) this.begin();
    const text = JSON.stringify({ ...doc, at: Date.now() });
    try {
      localStorage.setItem(DOC + this.id, text);
      stored(() => sessionStorage.setItem(`${HEAD}here`, this.id));
      this.last = text; this.isKept = true;
      if (this.isTold) { this.isTold = false; this.heard.kept(); }
    } catch (failed) {
      this.isKept = false;
      if (!this.isTold) { this.isTold = true; this.heard.full(isFull(failed)); }
    }
    return this.isKept;
  }
  remove(id) { stored(() => localStorage.removeItem(DOC + id)); }
}

// A whole task in a link: JSON, packed, as letters that an address may have.
const lettersOf = (bytes) => { let text = ""; for (let i = 0; i < bytes.length; i += 8192) text += String.fromCharCode(...bytes.subarray(i, i + 8192)); return btoa(text).replace(/\+/g, "-").replace(/\//g, "_").replace(/=+$/, ""); };
const bytesOf = (text) => Uint8Array.from(atob(text.replace(/-/g, "+").replace(/_/g, "/")), (it) => it.charCodeAt(0));
const MOST_LINKED = 4_000_000;
// Packs or unpacks; what would become too long is refused before it is.
async function through(bytes, stream) {
  const reader = new Blob([bytes]).stream().pipeThrough(stream).getReader(), parts = [];
  let size = 0;
  for (let part; !(part = await reader.read()).done; parts.push(part.value)) { size += part.value.length; if (size > MOST_LINKED) { reader.cancel(); throw new Error("too long"); } }
  return new Uint8Array(await new Blob(parts).arrayBuffer());
}

export async function linkOf(task) { return `#task=${lettersOf(await through(new TextEncoder().encode(JSON.stringify(task)), new CompressionStream("deflate-raw")))}`; }
// The task of an address: null where there is none; throws where it is spoilt.
export async function taskOf(hash) {
  const found = /^#task=(.*)$/.exec(hash);
  if (!found) return null;
  const bytes = await through(bytesOf(found[1]), new DecompressionStream("deflate-raw"));
  const task = JSON.parse(new TextDecoder("utf-8", { fatal: true }).decode(bytes));
  if (typeof task?.source !== "string") throw new Error("no source");
  const text = (name) => (typeof task[name] === "string" ? task[name] : ""), number = (name, most) => (Number.isSafeInteger(task[name]) && task[name] >= 0 ? Math.min(task[name], most) : 0);
  return { name: text("name").slice(0, 80), source: task.source, feed: text("feed"), tests: text("tests"), flight: task.flight === true, steps: number("steps", 10_000_000), position: Number.isSafeInteger(task.position) ? task.position : undefined, breaks: Array.isArray(task.breaks) ? task.breaks.filter((it) => /^[ -~]{1,60}$/.test(it)).slice(0, 16) : [], cell: text("cell").slice(0, 24), why: text("why").slice(0, 24) };
}

export function download(name, data, kind = "text/plain") {
  const link = document.createElement("a");
  link.href = URL.createObjectURL(data instanceof Blob ? data : new Blob([data], { type: kind }));
  link.download = name;
  link.click();
  setTimeout(() => URL.revokeObjectURL(link.href), 2000);
}
