/** The engine: all that a page knows of the program, calls of it and sessions (engine.js, which needs module/host.js and module/unpack.js alone). */

/** What comes from the program's two streams. What is not UTF-8 is U+FFFD. */
export interface Written<T = string> {
    output: T;
    errors: T;
}

/** What an engine is. */
export interface About {
    /** As `agcws --version` has it, "0.1.0". */
    version: string;
    /** False where the program was built without proofs: a page has to say so. */
    proved: boolean;
    /** The module in the page, or the native program behind a server. */
    kind: 'module' | 'program';
    /** Whether a session is one run, which waits for the next line. Where it is false (WebKit, today) each send runs the session anew from its first line. */
    waits: boolean;
    /** Files with which the server was started, of which each may be missing; {} of a module. */
    given: {source?: {name: string, text: string}, feed?: {name: string, text: string}};
}

export interface Options {
    /** Is called with what was written since its last call, some 20 times a second, and after each 65,536 bytes. */
    told?: (parts: Written<string | Uint8Array>) => void;
    /** The most bytes of memory that the program gets, a whole number of 65,536; else 268,435,456. Beyond, `agcws: E2`, status 3. A server holds to a bound of its own. */
    memory?: number;
    /** The most bytes that it may write to its streams, of a session for each reply; else 67,108,864. Beyond, it is ended, and `failed` says so. */
    most?: number;
    /** A stream that is thrown away: what is written there is not told, and is none of `most`. */
    unheard?: 'output' | 'errors';
    /** Whether `output` and `errors` are Uint8Array, here and for `told`. */
    bytes?: boolean;
}

/** How a run ended. */
export interface Ended {
    /** The exit code, or null where the program did not come to its end. */
    status: number | null;
    /** The files that it made or wrote, by name. */
    files: Record<string, Uint8Array>;
    /** Whether stop() ended it; what it had written by then is there. */
    stopped: boolean;
    /** Why the engine could not go on, else '': no memory of the browser, a server that has gone, more than `most` bytes written. */
    failed: string;
    /** How long it ran, by the clock. */
    seconds: number;
}

export type Called = Ended & Written<string | Uint8Array>;

/** A reply: what was written until the program waits for the next line, or, where `over` is true, has ended. */
export type Reply = Written<string | Uint8Array> & {over: boolean};

/** A run whose standard input comes line by line. */
export interface Session {
    /** What was written before it waits for the first line. */
    opened: Promise<Reply>;
    /** Gives a line, or some with newlines between them. What is sent before a reply has come waits for it; once the session has ended the reply is empty, with `over`.
     * A line that takes long is ended by stop() alone, so a page asks for long runs in parts (`run 2000000`). */
    send(lines: string, told?: (parts: Written<string | Uint8Array>) => void): Promise<Reply>;
    /** Ends the input, after what was sent. */
    end(): Promise<Ended>;
    /** Ends it now. What waits for a reply gets what has come so far, with `over`. */
    stop(): void;
    /** Once it has ended; never rejected. */
    over: Promise<Ended>;
}

export interface Engine {
    /** Rejected with an Error that a person can read where this browser cannot run it. */
    about: Promise<About>;
    /** Calls the program once, as `agcws WORD ..` in a folder that holds these files and nothing else; `input` is all of its standard input.
     * Calls run side by side, each in a worker of its own. Never rejected. */
    call(words: string[], files: Record<string, string | Uint8Array>, input?: string | Uint8Array, options?: Options): Promise<Called> & {stop(): void};
    /** Begins a session, as of ["debug", "--extended", "my.agc", "my.feed"]. */
    session(words: string[], files: Record<string, string | Uint8Array>, options?: Options): Session;
    /** Ends all that runs. */
    close(): void;
}

/** The engine in the page. The module is a text, as one_file.py packs it; or its bytes; or the URL of its file, which pages opened from the disk cannot read. */
export function moduleEngine(module: string | Uint8Array | ArrayBuffer | URL): Engine;

/** The native program behind `views/web`: the URL is a WebSocket's. */
export function serverEngine(url: string): Engine;

/** The engine that a document holds: <script type="text/plain" id="agcws-module">PACKED MODULE</script>, or <meta name="agcws-engine" content="PATH OF THE SOCKET">,
 * or <link id="agcws-module" href="agcws.wasm">, in this order; throws where there is none. */
export function engineIn(document: Document): Engine;
