// What a page of tests/test_module.py does: it calls the engine as its cases say, and hands on what that answers.
import {engineIn, moduleEngine} from './engine.js';

const given = JSON.parse(document.getElementById('cases').textContent);
const started = performance.now();
const bytesOf = text => Uint8Array.from(atob(text), it => it.charCodeAt(0));
const textOf = bytes => btoa(Array.from(bytes, it => String.fromCharCode(it)).join(''));
const each = (files, change) => Object.fromEntries(Object.entries(files).map(([name, it]) => [name, change(it)]));
const post = body => fetch(given.address, {method: 'POST', mode: 'no-cors', body: JSON.stringify(body)});
const told = ({status, files, stopped, failed}) => ({status, files: each(files, textOf), stopped, failed});
const texts = ({output, errors}) => ({output: textOf(output), errors: textOf(errors)});

async function call(engine, {words, files, input, options}) {
    const end = await engine.call(words, each(files, bytesOf), bytesOf(input), {...options, bytes: true});
    return {...told(end), ...texts(end)};
}

async function session(engine, {words, files, lines, options}) {
    const begun = engine.session(words, each(files, bytesOf), {...options, bytes: true});
    const replies = [texts(await begun.opened)];
    for (const it of lines) {
        const reply = await begun.send(it);
        replies.push(texts(reply));
        if (reply.over) {
            break;
        }
    }
    return {...told(await begun.end()), replies};
}

const ENDLESS = {'my.agc': ' SETLOC 4000\nHERE TCF HERE\n', 'my.feed': ''};
const LINES = {'my.agc': ' SETLOC 4000\nHERE CA HERE\n EXTEND\n WRITE 10\n TCF HERE\n', 'my.feed': ''};
const STEPS = '1099511627774';
const pause = seconds => new Promise(done => setTimeout(done, 1000 * seconds));
const session_of = engine => engine.session(['debug', '--extended', 'my.agc', 'my.feed'], ENDLESS);

/** What an engine promises besides what the program answers: each comes to '' where it is kept. */
const PROMISES = {
    async 'an endless run is stopped'(engine) {
        const run = engine.call(['run', 'my.agc', 'my.feed', STEPS], ENDLESS);
        await pause(0.3);
        run.stop();
        const {status, stopped, seconds} = await run;
        return status === null && stopped && seconds > 0.2 ? '' : `${status} ${stopped} ${seconds}`;
    },
    async 'a run that is over is not stopped'(engine) {
        const run = engine.call(['--version']), first = await run;
        run.stop();
        const [one, other] = await Promise.all([engine.call(['--version']), engine.call(['--version'])]);
        return [first, one, other].every(it => it.status === 0 && !it.stopped && /^agcws /.test(it.output)) ? '' : first.output;
    },
    async 'a run tells how far it is'(engine) {
        let seen = '';
        const run = engine.call(['run', '--progress', 'my.agc', 'my.feed', STEPS], ENDLESS, '', {
            told: ({errors}) => {
                seen += errors;
                if (/STEPS 4194304\n/.test(seen)) {
                    run.stop();
                }
            },
        });
        const {errors, stopped} = await run;
        return stopped && errors.startsWith('agcws: STEPS 1048576\nagcws: STEPS 2097152\n') ? '' : errors;
    },
    async 'what is written is bounded'(engine) {
        const {status, output, failed} = await engine.call(['run', 'my.agc', 'my.feed', STEPS], LINES, '', {most: 1000000});
        return status === null && output.length <= 1000000 && /1000000 bytes/.test(failed) ? '' : `${status} ${output.length} ${failed}`;
    },
    async 'memory is bounded'(engine) {
        const files = {'my.agc': '# a comment\n'.repeat(60000)};
        const {status, errors} = await engine.call(['check', 'my.agc'], files, '', {memory: 3000000});
        const other = await engine.call(['check', 'my.agc'], files);
        return status === 3 && errors === 'agcws: E2\n' && other.status === 0 ? '' : `${status} ${errors} ${other.status}`;
    },
    async 'a session is stopped in a command'(engine) {
        const begun = session_of(engine);
        await begun.opened;
        const reply = begun.send('run 1000000000000'), next = begun.send('regs');
        await pause(0.3);
        begun.stop();
        const [{over}, other, end, late] = await Promise.all([reply, next, begun.over, begun.send('regs')]);
        return over && other.over && late.over && end.stopped && end.status === null ? '' : JSON.stringify([over, other, end]);
    },
    async 'what is sent at once is answered in its order'(engine) {
        const begun = session_of(engine);
        const replies = await Promise.all(['step 1', 'step 1\nstep 1', 'quit', 'step 1'].map(it => begun.send(it)));
        const seen = replies.map(it => `${it.output}|${it.over}`).join(';');
        const wanted = 'AT 1 1 02,4000\n|false;AT 2 2 02,4000\nAT 3 3 02,4000\n|false;|true;|true';
        return seen === wanted && (await begun.over).status === 0 ? '' : seen;
    },
    async 'a session ends with its input'(engine) {
        const begun = session_of(engine);
        const reply = begun.send('step 1');
        const {status, failed, stopped} = await begun.end();
        return status === 0 && !failed && !stopped && (await reply).output === 'AT 1 1 02,4000\n' ? '' : `${status} ${failed}`;
    },
    async 'a session that is refused is over at once'(engine) {
        const begun = engine.session(['debug', '--extended', 'none.agc', 'my.feed'], ENDLESS);
        const {over, errors} = await begun.opened;
        return over && errors !== '' && (await begun.over).status !== 0 ? '' : errors;
    },
    async 'a file that is no module is told'() {
        const engine = moduleEngine(new Uint8Array([1, 2, 3]));
        const why = await engine.about.then(() => '', error => error.message);
        const {failed, status} = await engine.call(['--version']);
        engine.close();
        return why && failed && status === null ? '' : `${why} ${failed}`;
    },
    async 'a packed module that is damaged is told'() {
        const text = document.getElementById('agcws-module').textContent.trim(), middle = text.length >> 1;
        const other = text[middle] === 'A' ? 'B' : 'A';
        const engine = moduleEngine(text.slice(0, middle) + other + text.slice(middle + 1));
        const why = await engine.about.then(() => '', error => error.message);
        const {failed, status} = await engine.call(['--version']);
        engine.close();
        return why.startsWith('the packed module is damaged: ') && failed === why && status === null ? '' : `${why} ${failed}`;
    },
    async 'an engine that is closed runs nothing more'() {
        const engine = engineIn(document);
        await engine.call(['--version']);
        engine.close();
        return '';
    },
};

async function all() {
    const engine = engineIn(document);
    const about = await engine.about, ready = (performance.now() - started) / 1000;
    const again = moduleEngine(document.getElementById('agcws-module').textContent, {waits: false});
    const answers = [];
    for (const it of given.cases) {
        const chosen = it.replays ? again : engine;
        answers.push(await (it.lines ? session : call)(chosen, it));
    }
    const promises = {};
    for (const [name, promise] of Object.entries(PROMISES)) {
        promises[name] = await promise(engine).catch(error => `${error}`);
        promises[`${name}, where lines are given anew`] = await promise(again).catch(error => `${error}`);
    }
    return {about, ready, opened: performance.timeOrigin, answers, promises, agent: navigator.userAgent};
}

all().then(post, error => post({failed: `${error.stack ?? error}`}));
