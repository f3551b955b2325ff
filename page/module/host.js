// What the program asks of its system, in JavaScript: arguments, three streams, and files in memory. It knows nothing of
// what the program does, and keeps nothing between two runs. The calls are those of layer.c; each answers a number, or
// minus an error of Linux.
//
// Each class and function here stands on those before it alone, and on no variable, so that their texts make a worker.

/** The errors of Linux that a call can answer, and the flags with which a file is opened. */
export class Linux {
    static ENOENT = 2;
    static EBADF = 9;
    static EEXIST = 17;
    static ENOTDIR = 20;
    static EISDIR = 21;
    static EINVAL = 22;
    static O_ACCESS = 0o3;
    static O_CREAT = 0o100;
    static O_EXCL = 0o200;
    static O_TRUNC = 0o1000;
    static O_APPEND = 0o2000;
}

/** What a path leads to: a file with its bytes, a folder, or a device. Each has a number of its own. */
export class Inode {
    constructor(number, {bytes = new Uint8Array(0), isFolder = false, isDevice = false, isPipe = false} = {}) {
        Object.assign(this, {number, bytes, isFolder, isDevice, isPipe, length: bytes.length, isWritten: false});
    }

    /** Its bytes from a place on, at most so many. */
    part(at, count) {
        return this.bytes.subarray(Math.min(at, this.length), Math.min(at + count, this.length));
    }

    /** Makes it so long; what comes to it is zero. */
    resize(length) {
        if (length > this.bytes.length) {
            const more = new Uint8Array(Math.max(length, 2 * this.bytes.length));
            more.set(this.part(0, this.length));
            this.bytes = more;
        }
        // (what was cut off before may still stand there)
        this.bytes.fill(0, Math.min(this.length, length), Math.max(this.length, length));
        this.length = length;
    }

    /** Puts bytes at a place, which may lie beyond its end. */
    put(at, bytes) {
        if (at + bytes.length > this.length) {
            this.resize(at + bytes.length);
        }
        this.bytes.set(bytes, at);
    }

    mode() {
        return this.isFolder ? 0o040755 : this.isPipe ? 0o010600 : this.isDevice ? 0o020666 : 0o100644;
    }
}

/** Files by their paths. Those that are not there are asked of look(path), which returns bytes, 'folder' or null. */
export class Files {
    constructor(given = new Map(), {look = () => null, folder = '/'} = {}) {
        Object.assign(this, {look, folder, count: 0, files: new Map()});
        this.add('', {isFolder: true});
        this.add('dev/null', {isDevice: true});
        for (const [path, bytes] of given) {
            this.add(this.name(path), {bytes});
        }
    }

    /** The one name of what a path leads to: its path from the root, without the first stroke. */
    name(path) {
        const parts = [];
        for (const part of (path.startsWith('/') ? path : `${this.folder}/${path}`).split('/')) {
            if (part === '..') {
                parts.pop();
            } else if (part !== '' && part !== '.') {
                parts.push(part);
            }
        }
        return parts.join('/');
    }

    add(name, what) {
        const file = new Inode(++this.count, what);
        this.files.set(name, file);
        return file;
    }

    /** What a name stands for, or null. */
    find(name) {
        const known = this.files.get(name);
        if (known) {
            return known;
        }
        if ([...this.files.keys()].some(it => it.startsWith(`${name}/`))) {
            return this.add(name, {isFolder: true});
        }
        const found = this.look(`/${name}`);
        return found === null ? null : this.add(name, found === 'folder' ? {isFolder: true} : {bytes: found});
    }

    /** What a path leads to; or an error, as minus a number. */
    at(path) {
        const file = path === '' ? null : this.find(this.name(path));
        if (file) {
            return path.endsWith('/') && !file.isFolder ? -Linux.ENOTDIR : file;
        }
        return path === '' ? -Linux.ENOENT : this.missing(this.name(path));
    }

    /** Why there is nothing of a name: a file stands where it has a folder, or nothing does. */
    missing(name) {
        for (let at = name.lastIndexOf('/'); at > 0; at = name.lastIndexOf('/', at - 1)) {
            const above = this.find(name.slice(0, at));
            if (above) {
                return above.isFolder ? -Linux.ENOENT : -Linux.ENOTDIR;
            }
        }
        return -Linux.ENOENT;
    }

    /** Makes an empty file where nothing is; or answers an error, as minus a number. */
    make(path) {
        const name = this.name(path), above = this.find(name.replace(/\/?[^/]*$/, ''));
        if (path === '' || !above) {
            return path === '' ? -Linux.ENOENT : this.missing(name);
        }
        return !above.isFolder ? -Linux.ENOTDIR : path.endsWith('/') ? -Linux.EISDIR : this.add(name, {});
    }

    /** The files that were written, as they are now, by name. */
    written() {
        const files = [...this.files].filter(([, it]) => it.isWritten && !it.isDevice);
        return new Map(files.map(([name, it]) => [name, it.bytes.slice(0, it.length)]));
    }
}

/**
 * The calls that layer.c makes.
 *   words            the arguments, of which the first is the program's name
 *   files            Files
 *   input(count)     returns bytes of standard input, at most so many, none at its end, or an error, as minus a number;
 *                    or a promise of them, where the engine can have a program wait
 *   output(fd, bytes)    takes what is written to stream 1 or 2, and returns 0 or an error
 */
export function callsOf({words, files, input, output, memory}) {
    const opened = new Map(), encoder = new TextEncoder(), decoder = new TextDecoder();
    const stream = new Inode(0, {isPipe: true});
    const answer = number => BigInt(number);
    const bytesAt = (at, count) => new Uint8Array(memory.buffer, Number(at), Number(count));
    const textAt = at => {
        const rest = new Uint8Array(memory.buffer, Number(at));
        return decoder.decode(rest.slice(0, rest.indexOf(0)));
    };
    const put = (at, bytes) => {
        bytesAt(at, bytes.length).set(bytes);
        return answer(bytes.length);
    };
    return {
        arg(i, at, room) {
            const word = words[Number(i)];
            const bytes = word === undefined ? null : encoder.encode(word);
            if (bytes === null || bytes.length > Number(room)) {
                put(at, bytes ? bytes.subarray(0, Number(room)) : []);
                return bytes ? -2n : -1n;
            }
            return put(at, bytes);
        },
        open(at, flags) {
            const path = textAt(at);
            let file = files.at(path);
            if (file instanceof Inode && flags & Linux.O_CREAT && flags & Linux.O_EXCL) {
                return answer(-Linux.EEXIST);
            }
            if (file === -Linux.ENOENT && flags & Linux.O_CREAT) {
                file = files.make(path);
            }
            if (!(file instanceof Inode)) {
                return answer(file);
            }
            if (file.isFolder && flags & (Linux.O_ACCESS | Linux.O_CREAT)) {
                return answer(-Linux.EISDIR);
            }
            if (flags & Linux.O_TRUNC) {
                file.resize(0);
            }
            file.isWritten ||= (flags & Linux.O_ACCESS) !== 0;
            let fd = 3;
            while (opened.has(fd)) {
                fd++;
            }
            opened.set(fd, {file, at: 0, appends: (flags & Linux.O_APPEND) !== 0});
            return answer(fd);
        },
        close: fd => answer(fd <= 2 || opened.delete(fd) ? 0 : -Linux.EBADF),
        read(fd, at, count) {
            if (fd === 0) {
                const bytes = input(Number(count));
                const give = it => (typeof it === 'number' ? answer(it) : put(at, it));
                return bytes instanceof Promise ? bytes.then(give) : give(bytes);
            }
            const it = opened.get(fd);
            if (!it || it.file.isFolder) {
                return answer(it ? -Linux.EISDIR : -Linux.EBADF);
            }
            const bytes = it.file.part(it.at, Number(count));
            it.at += bytes.length;
            return put(at, bytes);
        },
        write(fd, at, count) {
            if (fd === 1 || fd === 2) {
                const error = output(fd, bytesAt(at, count).slice());
                return error ? answer(-error) : count;
            }
            const it = opened.get(fd);
            if (!it || it.file.isDevice) {
                return it ? count : answer(-Linux.EBADF);
            }
            it.at = it.appends ? it.file.length : it.at;
            it.file.put(it.at, bytesAt(at, count));
            it.at += Number(count);
            return count;
        },
        // (a path that is empty stands for what is opened)
        stat(fd, at, to) {
            const path = textAt(at), it = fd >= 0 && fd <= 2 ? stream : opened.get(fd)?.file;
            const found = path === '' ? it ?? -Linux.EBADF : files.at(path);
            if (!(found instanceof Inode)) {
                return answer(found);
            }
            new BigUint64Array(memory.buffer, Number(to), 3).set([found.mode(), found.length, found.number].map(BigInt));
            return 0n;
        },
        truncate(fd, length) {
            const it = opened.get(fd);
            if (!it || it.file.isDevice) {
                return answer(it ? -Linux.EINVAL : -Linux.EBADF);
            }
            it.file.resize(Number(length));
            return 0n;
        },
        unlink(at) {
            const path = textAt(at), file = files.at(path);
            if (!(file instanceof Inode) || file.isFolder) {
                return answer(file instanceof Inode ? -Linux.EISDIR : file);
            }
            files.files.delete(files.name(path));
            return 0n;
        },
        rename(from, to) {
            const old = textAt(from), path = textAt(to), file = files.at(old), there = files.at(path);
            if (!(file instanceof Inode)) {
                return answer(file);
            }
            if (there instanceof Inode && there.isFolder) {
                return answer(-Linux.EISDIR);
            }
            const made = there instanceof Inode ? there : files.make(path);
            if (!(made instanceof Inode)) {
                return answer(made);
            }
            files.files.delete(files.name(old));
            files.files.set(files.name(path), file);
            return 0n;
        },
        realpath(at, to) {
            const path = textAt(at), found = files.at(path);
            if (!(found instanceof Inode)) {
                return answer(found);
            }
            put(to, encoder.encode(`/${files.name(path)}\0`));
            return 0n;
        },
    };
}

/** What the module says of itself: {version, proved, pages}, the last the memory with which it begins. */
export function aboutOf(module) {
    const [said] = WebAssembly.Module.customSections(module, 'agcws');
    if (!said) {
        throw new Error('this file is no module of agcws');
    }
    return JSON.parse(new TextDecoder().decode(said));
}

/**
 * Runs the program once, in a memory of its own, of at most so many bytes. Returns its exit status, or a promise of it
 * where it can wait (input then returns promises).
 */
export function run(module, {words, files, input, output, most = 2 ** 28, waits = false}) {
    const initial = aboutOf(module).pages, maximum = Math.max(initial, Math.min(65536, Math.floor(most / 65536)));
    const memory = new WebAssembly.Memory({initial, maximum});
    const host = callsOf({words, files, input, output, memory});
    if (waits) {
        host.read = new WebAssembly.Suspending(host.read);
    }
    const {main} = new WebAssembly.Instance(module, {host, env: {memory}}).exports;
    // (main has the two parameters of C, which it does not read)
    return waits ? WebAssembly.promising(main)(0, 0n) : main(0, 0n);
}
