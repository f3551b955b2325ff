// Runs extension.js with a stand-in for VS Code, which keeps what it is given: tests/test_lsp.py compares the lines that it tells.
//     node check-extension.js EXTENSION FILE
'use strict';
const fs = require('fs');
const Module = require('module');
const [extension, file] = process.argv.slice(2);
const text = fs.readFileSync(file, 'utf8');
const given = {}, shown = new Map();
const made = (names) => class { constructor(...values) { names.forEach((it, i) => { this[it] = values[i]; }); } };
const document = { uri: `file://${file}`, languageId: 'agc', version: 1, getText: () => text };
const keeps = (name) => (_, provider) => { given[name] = provider; return {}; };
class WorkspaceEdit { constructor() { this.all = []; } set(uri, list) { this.all.push(...list); } }
const languages = new Proxy({ createDiagnosticCollection: () => ({ set: (uri, list) => shown.set(String(uri), list) }) }, { get: (all, name) => all[name] || keeps(name.replace(/^register|Provider$/g, '')) });
const vscode = {
    languages, WorkspaceEdit, workspace: { textDocuments: [document], getConfiguration: () => ({ get: (name, other) => (name === 'steps' ? 100 : other) }), onDidOpenTextDocument: () => ({}), onDidChangeTextDocument: (it) => { given.change = it; return {}; }, onDidCloseTextDocument: () => ({}) },
    Position: made(['line', 'character']), Range: made(['start', 'end']), Location: made(['uri', 'range']), TextEdit: made(['range', 'newText']), Diagnostic: made(['range', 'message', 'severity']), DiagnosticRelatedInformation: made(['location', 'message']),
    Hover: made(['contents', 'range']), MarkdownString: made(['value']), DocumentSymbol: made(['name', 'detail', 'kind', 'range', 'selectionRange']), CompletionItem: made(['label', 'kind']), CodeAction: made(['title', 'kind']), CodeActionKind: { QuickFix: 'quickfix' },
    FoldingRange: made(['start', 'end']), InlayHint: made(['position', 'label']), CodeLens: made(['range', 'command']), Uri: { parse: (it) => it },
};
const load = Module._load;
Module._load = (name, ...more) => (name === 'vscode' ? vscode : load(name, ...more));
const { activate, deactivate } = require(extension);
const wait = async (test) => { for (let i = 0; i < 1000 && !test(); i += 1) await new Promise((done) => setTimeout(done, 20)); };
const marks = () => shown.get(document.uri) || [];

(async () => {
    activate({ subscriptions: [] });
    await wait(() => marks().length);
    for (const it of marks()) {
        console.log('mark', it.range.start.line + 1, text.split('\n')[it.range.start.line].slice(it.range.start.character, it.range.end.character));
    }
    const place = new vscode.Position(6, 17), all = new vscode.Range(new vscode.Position(0, 0), new vscode.Position(9, 0));
    console.log('definition', (await given.Definition.provideDefinition(document, place)).range.start.line + 1);
    console.log('renamed', (await given.Rename.provideRenameEdits(document, place, 'AGAIN')).all.length);
    console.log('refused', await given.Rename.provideRenameEdits(document, place, 'FIVE').catch((it) => it.message));
    console.log('actions', (await given.CodeActions.provideCodeActions(document, all)).map((it) => it.title).join(', '));
    console.log('hover', (await given.Hover.provideHover(document, new vscode.Position(2, 7))).contents.value.includes('CA K'));
    console.log('symbols', (await given.DocumentSymbol.provideDocumentSymbols(document)).map((it) => it.name).join(' '));
    given.change({ document: { ...document, version: 2 }, contentChanges: [{ range: new vscode.Range(new vscode.Position(2, 12), new vscode.Position(2, 12)), text: 'E' }] });
    const before = marks();
    await wait(() => marks() !== before);
    console.log('after a change', !marks().some((it) => it.range.start.line === 2));
    console.log('lenses', (await given.CodeLens.provideCodeLenses(document)).length);
    await deactivate();
    console.log('ended');
})();
