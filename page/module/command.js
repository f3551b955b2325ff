// The module as a command of node, for tests: its files are those of the disk, put there at its end.
//     node command.js MODULE WORD ..     runs it once
//     node command.js --calls MODULE     runs it for each line of its input, {words, folder, input, most}, and answers
//                                        each by a line, {status, output, errors, failed}; bytes are base64
import {readFileSync, readSync, statSync, writeFileSync, writeSync} from 'node:fs';
import {createInterface} from 'node:readline';
import {Files, run} from './host.js';

const areCalls = process.argv[2] === '--calls';
const [path, ...words] = process.argv.slice(areCalls ? 3 : 2);
const module = new WebAssembly.Module(readFileSync(path));

function onDisk(path) {
    try {
        return statSync(path).isDirectory() ? 'folder' : new Uint8Array(readFileSync(path));
    } catch {
        return null;
    }
}

/** Runs it in a folder, and puts the files that it wrote on the disk. */
function runIn(folder, words, input, output, most) {
    const files = new Files([], {look: onDisk, folder});
    const status = run(module, {words: ['agcws', ...words], files, input, output, most});
    for (const [name, bytes] of files.written()) {
        const now = onDisk(`/${name}`);
        if (now === null || now === 'folder' || Buffer.compare(now, bytes)) {
            writeFileSync(`/${name}`, bytes);
        }
    }
    return status;
}

/** Bytes of standard input, as they come; or an error, as minus a number. */
function read(count) {
    const bytes = new Uint8Array(count);
    for (;;) {
        try {
            return bytes.subarray(0, readSync(0, bytes));
        } catch (error) {
            if (error.code !== 'EAGAIN') {
                return error.errno;
            }
        }
    }
}

function write(fd, bytes) {
    for (let at = 0; at < bytes.length; ) {
        try {
            at += writeSync(fd, bytes, at);
        } catch (error) {
            if (error.code !== 'EAGAIN') {
                return -error.errno;
            }
        }
    }
    return 0;
}

/** Runs it for a line of calls. */
function answer({words, folder, input, most}) {
    const parts = {1: [], 2: []};
    let given = Buffer.from(input, 'base64'), status = null, failed = '';
    const take = count => {
        const part = given.subarray(0, count);
        given = given.subarray(part.length);
        return part;
    };
    try {
        status = runIn(folder, words, take, (fd, bytes) => (parts[fd].push(bytes), 0), most);
    } catch (error) {
        failed = `${error.message ?? error}`;
    }
    const [output, errors] = [1, 2].map(fd => Buffer.concat(parts[fd]).toString('base64'));
    return {status, output, errors, failed};
}

if (areCalls) {
    for await (const line of createInterface({input: process.stdin})) {
        write(1, Buffer.from(`${JSON.stringify(answer(JSON.parse(line)))}\n`));
    }
} else {
    process.exitCode = runIn(process.cwd(), words, read, write);
}
