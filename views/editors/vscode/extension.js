// The client of views/lsp for VS Code: it starts the server, tells it of open sources, and hands on what VS Code asks. It needs no package.
'use strict';
const { spawn } = require('child_process');
const fs = require('fs');
const path = require('path');
const vscode = require('vscode');

const LANGUAGE = 'agc';
const MOST_STARTS = 5;

/** Where the views are: in a package beside this file, in a clone two folders up. */
function views() {
    return [path.join(__dirname, 'views'), path.join(__dirname, '..', '..')].find((it) => fs.existsSync(path.join(it, 'lsp')));
}

/** A server, and what is asked of it. */
class Server {
    constructor(program, options, published) {
        this.published = published;
        this.waiting = new Map();
        this.number = 0;
        this.bytes = Buffer.alloc(0);
        const env = program ? { ...process.env, AGCWS: program } : process.env;
        this.process = spawn('python3', [path.join(views(), 'lsp')], { stdio: ['pipe', 'pipe', 'ignore'], env });
        this.process.stdout.on('data', (it) => this.take(it));
        this.process.stdin.on('error', () => {});
        this.ended = new Promise((done) => this.process.on('close', done).on('error', done)).then(() => {
            for (const { refuse } of this.waiting.values()) {
                refuse(new Error('the server has ended'));
            }
            this.waiting.clear();
        });
        this.ready = this.ask('initialize', { processId: process.pid, capabilities: {}, initializationOptions: options });
        this.ready.then(() => this.tell('initialized', {}), () => {});
    }

    send(message) {
        const text = Buffer.from(JSON.stringify({ jsonrpc: '2.0', ...message }));
        this.process.stdin.write(`Content-Length: ${text.length}\r\n\r\n`);
        this.process.stdin.write(text);
    }

    tell(method, params) {
        this.send({ method, params });
    }

    ask(method, params) {
        const id = (this.number += 1);
        this.send({ id, method, params });
        return new Promise((done, refuse) => this.waiting.set(id, { done, refuse }));
    }

    take(bytes) {
        this.bytes = Buffer.concat([this.bytes, bytes]);
        for (;;) {
            const head = this.bytes.indexOf('\r\n\r\n');
            const length = head < 0 ? null : /content-length: *(\d+)/i.exec(this.bytes.toString('latin1', 0, head));
            if (!length || this.bytes.length < head + 4 + Number(length[1])) {
                return;
            }
            const end = head + 4 + Number(length[1]);
            const message = JSON.parse(this.bytes.toString('utf8', head + 4, end));
            this.bytes = this.bytes.subarray(end);
            this.answer(message);
        }
    }

    answer({ id, method, params, result, error }) {
        const asked = this.waiting.get(id);
        if (method === 'textDocument/publishDiagnostics') {
            this.published(params);
        } else if (asked) {
            this.waiting.delete(id);
            if (error) {
                asked.refuse(new Error(error.message));
            } else {
                asked.done(result);
            }
        }
    }

    async end() {
        await this.ask('shutdown', null).catch(() => {});
        this.tell('exit', null);
        return this.ended;
    }
}

// What the protocol has, as VS Code has it, and the other way.
const place = (it) => new vscode.Position(it.line, it.character);
const range = (it) => new vscode.Range(place(it.start), place(it.end));
const placeOf = (it) => ({ line: it.line, character: it.character });
const rangeOf = (it) => ({ start: placeOf(it.start), end: placeOf(it.end) });
const location = (it) => new vscode.Location(vscode.Uri.parse(it.uri), range(it.range));
const edits = (list) => list.map((it) => new vscode.TextEdit(range(it.range), it.newText));

function change(found) {
    const made = new vscode.WorkspaceEdit();
    for (const [uri, list] of Object.entries(found.changes)) {
        made.set(vscode.Uri.parse(uri), edits(list));
    }
    return made;
}

function diagnostic(it) {
    const made = new vscode.Diagnostic(range(it.range), it.message, it.severity - 1);
    made.code = it.code;
    made.source = it.source;
    made.tags = it.tags;
    made.relatedInformation = (it.relatedInformation || []).map((one) => new vscode.DiagnosticRelatedInformation(location(one.location), one.message));
    return made;
}

function hover(it) {
    return it && new vscode.Hover(new vscode.MarkdownString(it.contents.value), range(it.range));
}

function symbol(it) {
    return new vscode.DocumentSymbol(it.name, it.detail, it.kind - 1, range(it.range), range(it.selectionRange));
}

function completion(it) {
    const made = new vscode.CompletionItem(it.label, it.kind - 1);
    made.detail = it.detail;
    made.documentation = it.documentation && new vscode.MarkdownString(it.documentation.value);
    made.additionalTextEdits = it.additionalTextEdits && edits(it.additionalTextEdits);
    return made;
}

function action(it) {
    const made = new vscode.CodeAction(it.title, vscode.CodeActionKind.QuickFix);
    made.edit = change(it.edit);
    made.isPreferred = it.isPreferred;
    return made;
}

function hint(it) {
    const made = new vscode.InlayHint(place(it.position), it.label);
    made.paddingLeft = it.paddingLeft;
    return made;
}

/** The server of this window, which is started anew where it has ended. */
class Client {
    constructor() {
        this.starts = 0;
        this.found = vscode.languages.createDiagnosticCollection(LANGUAGE);
        this.start();
    }

    start() {
        const settings = vscode.workspace.getConfiguration('agcws');
        const options = { flight: settings.get('flight', false), inlayHints: settings.get('inlayHints', false), steps: settings.get('steps', 0) };
        this.starts += 1;
        this.server = new Server(settings.get('program', ''), options, (it) => this.found.set(vscode.Uri.parse(it.uri), it.diagnostics.map(diagnostic)));
        this.server.ended.then(() => {
            if (!this.isOver && this.starts < MOST_STARTS) {
                this.start();
            }
        });
        vscode.workspace.textDocuments.forEach((it) => this.open(it));
    }

    isOurs(document) {
        return document.languageId === LANGUAGE;
    }

    async open(document) {
        if (this.isOurs(document) && await this.server.ready.then(() => true, () => false)) {
            this.server.tell('textDocument/didOpen', { textDocument: { uri: String(document.uri), languageId: LANGUAGE, version: document.version, text: document.getText() } });
        }
    }

    change({ document, contentChanges }) {
        if (this.isOurs(document)) {
            const changes = contentChanges.map((it) => ({ range: rangeOf(it.range), text: it.text }));
            this.server.tell('textDocument/didChange', { textDocument: { uri: String(document.uri), version: document.version }, contentChanges: changes });
        }
    }

    close(document) {
        if (this.isOurs(document)) {
            this.server.tell('textDocument/didClose', { textDocument: { uri: String(document.uri) } });
        }
    }

    of(method, document, params) {
        return this.server.ask(`textDocument/${method}`, { textDocument: { uri: String(document.uri) }, ...params });
    }

    at(method, document, position, more) {
        return this.of(method, document, { position: placeOf(position), ...more });
    }

    async end() {
        this.isOver = true;
        await this.server.end();
    }
}

/** What VS Code asks, each by a request of the protocol. */
function providers(client) {
    const { languages } = vscode;
    return [
        languages.registerHoverProvider(LANGUAGE, { provideHover: async (document, position) => hover(await client.at('hover', document, position)) }),
        languages.registerDefinitionProvider(LANGUAGE, {
            provideDefinition: async (document, position) => { const found = await client.at('definition', document, position); return found && location(found); },
        }),
        languages.registerReferenceProvider(LANGUAGE, {
            provideReferences: async (document, position, context) => (await client.at('references', document, position, { context })).map(location),
        }),
        languages.registerRenameProvider(LANGUAGE, {
            prepareRename: async (document, position) => { const found = await client.at('prepareRename', document, position); return { range: range(found.range), placeholder: found.placeholder }; },
            provideRenameEdits: async (document, position, newName) => change(await client.at('rename', document, position, { newName })),
        }),
        languages.registerDocumentSymbolProvider(LANGUAGE, { provideDocumentSymbols: async (document) => (await client.of('documentSymbol', document)).map(symbol) }),
        languages.registerCompletionItemProvider(LANGUAGE, { provideCompletionItems: async (document, position) => (await client.at('completion', document, position)).map(completion) }),
        languages.registerCodeActionsProvider(LANGUAGE, {
            provideCodeActions: async (document, asked) => (await client.of('codeAction', document, { range: rangeOf(asked), context: { diagnostics: [] } })).map(action),
        }),
        languages.registerFoldingRangeProvider(LANGUAGE, {
            provideFoldingRanges: async (document) => (await client.of('foldingRange', document)).map((it) => new vscode.FoldingRange(it.startLine, it.endLine)),
        }),
        languages.registerDocumentFormattingEditProvider(LANGUAGE, { provideDocumentFormattingEdits: async (document, options) => edits(await client.of('formatting', document, { options })) }),
        languages.registerCodeLensProvider(LANGUAGE, { provideCodeLenses: async (document) => (await client.of('codeLens', document)).map((it) => new vscode.CodeLens(range(it.range), it.command)) }),
        languages.registerInlayHintsProvider(LANGUAGE, { provideInlayHints: async (document, asked) => (await client.of('inlayHint', document, { range: rangeOf(asked) })).map(hint) }),
    ];
}

let client = null;

function activate(context) {
    client = new Client();
    const { workspace } = vscode;
    context.subscriptions.push(
        client.found,
        workspace.onDidOpenTextDocument((it) => client.open(it)),
        workspace.onDidChangeTextDocument((it) => client.change(it)),
        workspace.onDidCloseTextDocument((it) => client.close(it)),
        ...providers(client),
    );
}

module.exports = { activate, deactivate: () => client && client.end() };
