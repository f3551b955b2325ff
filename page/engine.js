// Calls and sessions of agcws, for pages: by the module, in workers of the page, or by the native program behind a
// server. README.md has the interface. Nothing is kept here beside what an engine holds.
//
// Both engines speak in the same messages of a run. To it: {words, files, input, memory, most, unheard} begins it, where input
// is null of a session; then {lines} or {end: true}. From it: {output} and {errors}, bytes; {waits: true}, where all that it
// was given is answered; and last {status, files, asked, seconds} or {failed, seconds}, where asked tells that its input
// was at its end when it asked for more.
import {aboutOf, callsOf, Inode, Files, Linux, run} from './module/host.js';
import {unpacked} from './module/unpack.js';

const MOST_MEMORY = 2 ** 28;
const MOST_WRITTEN = 2 ** 26;
// So many workers are kept for the next runs.
const MOST_IDLE = 2;
const STREAMS = ['output', 'errors'];

/** Some parts, as one. */
function joined(parts) {
    const all = new Uint8Array(parts.reduce((sum, it) => sum + it.length, 0));
    let at = 0;
    for (const it of parts) {
        all.set(it, at);
        at += it.length;
    }
    return all;
}

/** What a worker does: it unpacks the module, or runs it each time that it is told to begin, and takes lines meanwhile. */
function work() {
    const TOLD_SECONDS = 0.05, TOLD_BYTES = 65536;
    const now = () => performance.now() / 1000;
    let begun, given, isEnded, asked, goOn, held, heldBytes, written, toldAt;

    function tell() {
        for (const [name, parts] of Object.entries(held)) {
            if (parts.length) {
                postMessage({[name]: joined(parts)});
            }
        }
        [held, heldBytes, toldAt] = [{output: [], errors: []}, 0, now()];
    }

    function output(fd, bytes) {
        const name = fd === 1 ? 'output' : 'errors';
        if (name === begun.unheard) {
            return 0;
        }
        written += bytes.length;
        if (written > begun.most) {
            throw new Error(`it has written more than ${begun.most} bytes`);
        }
        held[name].push(bytes);
        heldBytes += bytes.length;
        if (heldBytes >= TOLD_BYTES || now() - toldAt >= TOLD_SECONDS) {
            tell();
        }
        return 0;
    }

    function input(count) {
        if (given.length) {
            const part = given[0].subarray(0, count);
            given[0] = given[0].subarray(part.length);
            if (given[0].length === 0) {
                given.shift();
            }
            return part;
        }
        if (isEnded) {
            asked = true;
            return new Uint8Array(0);
        }
        tell();
        written = 0;
        postMessage({waits: true});
        return new Promise(done => {
            goOn = () => done(input(count));
        });
    }

    function take({lines, end}) {
        if (lines?.length) {
            given.push(lines);
        }
        isEnded ||= end === true;
        const waiting = goOn;
        goOn = null;
        waiting?.();
    }

    async function begin(message) {
        begun = message;
        [given, isEnded, asked, goOn] = [[], false, false, null];
        [held, heldBytes, written, toldAt] = [{output: [], errors: []}, 0, 0, -1];
        const isCall = begun.input !== null, started = now();
        if (isCall) {
            take({lines: begun.input, end: true});
        }
        try {
            const files = new Files(begun.files), words = ['agcws', ...begun.words];
            const how = {words, files, input, output, most: begun.memory, waits: !isCall};
            const status = await run(begun.module, how);
            tell();
            postMessage({status, files: files.written(), asked, seconds: now() - started});
        } catch (error) {
            tell();
            postMessage({failed: `${error.message ?? error}`, seconds: now() - started});
        }
    }

    function unpack(text) {
        try {
            const bytes = unpacked(bytesOfBase64(text));
            postMessage({bytes}, [bytes.buffer]);
        } catch (error) {
            postMessage({failed: error.message});
        }
    }

    onmessage = ({data}) => (data.packed ? unpack(data.packed) : data.module ? begin(data) : take(data));
}

/** The runs of the module in a page, each in a worker. */
class Workers {
    constructor(source) {
        const parts = [Linux, Inode, Files, callsOf, aboutOf, run, unpacked, bytesOfBase64, joined, work];
        const text = `'use strict';\n${parts.map(String).join('\n')}\nwork();\n`;
        this.url = URL.createObjectURL(new Blob([text], {type: 'text/javascript'}));
        [this.idle, this.busy] = [[], new Set()];
        this.module = this.bytesOf(source).then(bytes => WebAssembly.compile(bytes));
        // (a page may ask for none of its runs)
        this.module.catch(() => {});
    }

    /** The bytes of a module, from its packed text, its bytes or its address. */
    async bytesOf(source) {
        if (source instanceof URL) {
            const answer = await fetch(source);
            if (!answer.ok) {
                throw new Error(`${source} cannot be read: ${answer.status}`);
            }
            return answer.arrayBuffer();
        }
        return typeof source === 'string' ? this.unpack(source) : source;
    }

    /** Unpacks a text in a worker, which is kept for the first run: the page goes on meanwhile. */
    unpack(packed) {
        return new Promise((done, fail) => {
            const worker = this.worker(({bytes, failed}) => {
                this.leave(worker, bytes !== undefined);
                return bytes ? done(bytes) : fail(new Error(failed));
            });
            worker.postMessage({packed});
        });
    }

    /** Begins a run. receive gets its messages. */
    open(begin, receive) {
        let worker = null, isOver = false;
        const take = message => {
            if (isEnd(message)) {
                isOver = true;
                this.leave(worker, 'status' in message);
            }
            receive(message);
        };
        const start = module => {
            worker = isOver ? null : this.worker(take);
            worker?.postMessage({...begin, module});
        };
        this.module.then(start, error => receive({failed: error.message, seconds: 0}));
        const stop = () => {
            if (!isOver) {
                isOver = true;
                this.leave(worker, false);
            }
        };
        return {post: message => worker.postMessage(message), stop};
    }

    worker(take) {
        const worker = this.idle.pop() ?? new Worker(this.url);
        this.busy.add(worker);
        worker.onmessage = ({data}) => take(data);
        worker.onerror = event => take({failed: event.message ?? 'a worker cannot be started', seconds: 0});
        return worker;
    }

    /** Keeps a worker for the next run, or ends it. */
    leave(worker, isGood) {
        if (!worker) {
            return;
        }
        this.busy.delete(worker);
        worker.onmessage = worker.onerror = null;
        if (isGood && this.idle.length < MOST_IDLE) {
            this.idle.push(worker);
        } else {
            worker.terminate();
        }
    }

    close() {
        [...this.idle, ...this.busy].forEach(it => it.terminate());
        [this.idle, this.busy] = [[], new Set()];
        URL.revokeObjectURL(this.url);
    }
}

/** Begins sessions where a run cannot wait: for each part of the input one begins anew, with all of it so far, and what
 * it writes beyond what the one before wrote is the reply, since the same lines are answered by the same text. */
function replayed(open) {
    return (begin, receive) => {
        let told = {output: 0, errors: 0}, given = new Uint8Array(0), last, port;
        const again = () => {
            const seen = {output: 0, errors: 0};
            const most = begin.most + told.output + told.errors;
            port = open({...begin, input: given, most}, message => {
                for (const name of STREAMS.filter(it => message[it])) {
                    const news = message[name].subarray(Math.max(0, told[name] - seen[name]));
                    seen[name] += message[name].length;
                    if (news.length) {
                        receive({[name]: news});
                    }
                }
                if ('status' in message) {
                    [told, last] = [seen, message];
                }
                if ('status' in message && message.asked) {
                    receive({waits: true});
                } else if ('status' in message || 'failed' in message) {
                    receive(message);
                }
            });
        };
        again();
        const post = ({lines, end}) => {
            if (end) {
                receive(last);
            } else {
                given = joined([given, lines]);
                again();
            }
        };
        return {post, stop: () => port.stop()};
    };
}

/** What a run writes, as it comes, as texts or bytes. */
class Written {
    constructor(asBytes, told, keeps = true) {
        Object.assign(this, {asBytes, told, keeps, parts: {output: [], errors: []}});
        const decoder = () => new TextDecoder('utf-8', {ignoreBOM: true});
        this.decoders = {output: decoder(), errors: decoder()};
    }

    part(name, bytes, isMore) {
        return this.asBytes ? bytes : this.decoders[name].decode(bytes, {stream: isMore});
    }

    all(parts) {
        return this.asBytes ? joined(parts) : parts.join('');
    }

    /** Takes some that came, and tells it. */
    take(message) {
        if (!this.keeps && !this.told) {
            return;
        }
        const news = {output: this.all([]), errors: this.all([])};
        for (const name of STREAMS.filter(it => message[it])) {
            news[name] = this.part(name, message[name], true);
            this.parts[name].push(...(this.keeps ? [news[name]] : []));
        }
        this.told?.(news);
    }

    /** All that came. */
    whole() {
        const ends = STREAMS.map(name => [name, this.all([...this.parts[name], this.part(name, new Uint8Array(0), false)])]);
        return Object.fromEntries(ends);
    }
}

const bytesOf = it => (typeof it === 'string' ? new TextEncoder().encode(it) : new Uint8Array(it));
const isWritten = message => STREAMS.some(it => message[it]);
const isEnd = message => 'status' in message || 'failed' in message;

/** What tells a run how to begin. */
function beginningOf(words, files, input, {memory = MOST_MEMORY, most = MOST_WRITTEN, unheard = ''}) {
    const given = new Map(Object.entries(files).map(([name, it]) => [name, bytesOf(it)]));
    return {words: words.map(String), files: given, input, memory, most, unheard};
}

/** How a run has ended, by its last message. */
function endOf({status = null, files = new Map(), failed = '', stopped = false, seconds = 0}) {
    return {status, files: Object.fromEntries(files), stopped, failed, seconds};
}

function callBy(open, words, files, input, options) {
    const written = new Written(options.bytes, options.told), started = performance.now();
    let end, port;
    const call = new Promise(done => {
        end = message => done({...written.whole(), ...endOf(message)});
    });
    port = open(beginningOf(words, files, bytesOf(input), options), message => {
        if (isWritten(message)) {
            written.take(message);
        } else if (isEnd(message)) {
            end(message);
        }
    });
    call.stop = () => {
        port.stop();
        end({stopped: true, seconds: (performance.now() - started) / 1000});
    };
    return call;
}

/** A run whose input comes line by line. */
class Session {
    constructor(open, words, files, options) {
        Object.assign(this, {options, waiting: [], started: performance.now(), isOver: false});
        this.written = new Written(options.bytes, options.told, false);
        this.over = new Promise(done => {
            this.finish = done;
        });
        this.opened = this.expect(undefined, {});
        this.reply = this.waiting.shift();
        this.port = open(beginningOf(words, files, null, options), message => this.receive(message));
    }

    send(lines, told) {
        const text = `${lines}`;
        return this.ask({lines: bytesOf(text.endsWith('\n') ? text : `${text}\n`)}, told);
    }

    end() {
        this.ask({end: true});
        return this.over;
    }

    stop() {
        this.port.stop();
        this.close({stopped: true, seconds: (performance.now() - this.started) / 1000});
    }

    /** Gives something to the run, once all before it is answered. */
    ask(message, told) {
        const reply = this.expect(told, message);
        if (this.isOver) {
            this.answer(this.waiting.shift());
        } else if (!this.reply) {
            this.next();
        }
        return reply;
    }

    expect(told, message) {
        return new Promise(done => {
            this.waiting.push({message, done, written: new Written(this.options.bytes, told)});
        });
    }

    next() {
        this.reply = this.waiting.shift();
        if (this.reply) {
            this.port.post(this.reply.message);
        }
    }

    answer(reply) {
        reply?.done({...reply.written.whole(), over: this.isOver});
    }

    receive(message) {
        if (isWritten(message)) {
            this.written.take(message);
            this.reply?.written.take(message);
        } else if (isEnd(message)) {
            this.close(message);
        } else if (message.waits) {
            this.answer(this.reply);
            this.next();
        }
    }

    close(message) {
        if (this.isOver) {
            return;
        }
        this.isOver = true;
        [this.reply, ...this.waiting].forEach(it => this.answer(it));
        [this.reply, this.waiting] = [null, []];
        this.finish(endOf(message));
    }
}

/** The engine of what begins its runs. */
function engineOf(runs, about, waits) {
    const open = (...begun) => runs.open(...begun);
    return {
        about,
        call: (words, files = {}, input = '', options = {}) => callBy(open, words, files, input, options),
        session: (words, files = {}, options = {}) => new Session(waits ? open : replayed(open), words, files, options),
        close: () => runs.close(),
    };
}

function bytesOfBase64(text) {
    const found = atob(text.trim()), bytes = new Uint8Array(found.length);
    for (let at = 0; at < found.length; at += 1) {
        bytes[at] = found.charCodeAt(at);
    }
    return bytes;
}

function base64Of(bytes) {
    let text = '';
    for (let at = 0; at < bytes.length; at += 32768) {
        text += String.fromCharCode(...bytes.subarray(at, at + 32768));
    }
    return btoa(text);
}

/** The engine in the page. Sessions are one run each where this browser can have one wait. */
export function moduleEngine(source, {waits = typeof WebAssembly.Suspending === 'function'} = {}) {
    const workers = new Workers(source);
    const about = workers.module.then(module => {
        const {version, proved} = aboutOf(module);
        return {version, proved, kind: 'module', waits, given: {}};
    });
    about.catch(() => {});
    return engineOf(workers, about, waits);
}

/** The message of what a run has written, of its bytes: the number of the run, the stream, and the rest. */
function writtenIn(data) {
    const head = new DataView(data);
    return {id: head.getUint32(0), [STREAMS[head.getUint8(4)]]: new Uint8Array(data, 5)};
}

/** The runs of a server, over one socket. Each message has the number of its run, and is JSON, where bytes are base64; what a
 * run has written comes as bytes. */
class Connection {
    constructor(url) {
        [this.runs, this.count, this.socket] = [new Map(), 0, new WebSocket(url)];
        this.about = new Promise((done, fail) => {
            [this.told, this.gone] = [done, fail];
        });
        this.about.catch(() => {});
        this.socket.binaryType = 'arraybuffer';
        this.socket.onmessage = ({data}) => this.receive(typeof data === 'string' ? JSON.parse(data) : writtenIn(data));
        this.socket.onclose = () => this.lose();
    }

    receive({id, about, ...message}) {
        if (about) {
            this.told({...about, kind: 'program', waits: true});
            return;
        }
        if (message.files) {
            message.files = new Map(Object.entries(message.files).map(([name, it]) => [name, bytesOfBase64(it)]));
        }
        const receive = this.runs.get(id);
        if (isEnd(message)) {
            this.runs.delete(id);
        }
        receive?.(message);
    }

    lose() {
        const failed = 'the server has gone';
        this.gone(new Error(failed));
        const left = [...this.runs.values()];
        this.runs.clear();
        left.forEach(receive => receive({failed}));
    }

    open({files, input, ...begin}, receive) {
        const id = ++this.count;
        this.runs.set(id, receive);
        const send = message => this.about.then(() => this.socket.send(JSON.stringify({id, ...message})), () => {});
        const packed = Object.fromEntries([...files].map(([name, it]) => [name, base64Of(it)]));
        send({begin: {...begin, files: packed, input: input && base64Of(input)}});
        if (this.socket.readyState > WebSocket.OPEN) {
            this.lose();
        }
        return {
            post: ({lines, end}) => send(end ? {end} : {lines: base64Of(lines)}),
            stop: () => {
                this.runs.delete(id);
                send({stop: true});
            },
        };
    }

    close() {
        this.socket.close();
    }
}

/** The native program behind a server. */
export function serverEngine(url) {
    const connection = new Connection(url);
    return engineOf(connection, connection.about, true);
}

/** The engine that a document holds. */
export function engineIn(document) {
    const module = document.getElementById('agcws-module');
    if (module?.textContent.trim()) {
        return moduleEngine(module.textContent);
    }
    const server = document.querySelector('meta[name="agcws-engine"]');
    if (server) {
        const url = new URL(server.content, document.baseURI);
        url.protocol = url.protocol === 'https:' ? 'wss:' : 'ws:';
        return serverEngine(url.href);
    }
    if (module?.href) {
        return moduleEngine(new URL(module.href, document.baseURI));
    }
    throw new Error('this page holds no engine');
}
