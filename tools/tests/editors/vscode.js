"use strict";
// A session of the extension with a stand-in for the editor: puts what the editor would show as one line of JSON.
// node vscode.js EXTENSION COMMAND MODEL
const fs = require("fs");
const Module = require("module");
const [extensionPath, command, model] = process.argv.slice(2);

class Position { constructor(line, character) { Object.assign(this, { line, character }); } }
class Range { constructor(start, end) { Object.assign(this, { start, end }); } }
class Diagnostic { constructor(range, message, severity) { Object.assign(this, { range, message, severity }); } }
class Plain { constructor(...parts) { this.parts = parts; } }

const uri = { toString: () => `file://${model}` };
const document = { uri, languageId: "smv", version: 1, getText: () => fs.readFileSync(model, "utf8") };
const providers = {};
const events = {};
const shown = { errors: [], marks: [] };
let marked;
const registered = (name) => (_, provider) => { providers[name] = provider; return {}; };
const event = (name) => (listener) => { events[name] = listener; return {}; };

const editor = {
  Position, Range, Diagnostic,
  Location: Plain, DiagnosticRelatedInformation: Plain, DocumentSymbol: Plain, CompletionItem: Plain, TextEdit: Plain,
  Hover: Plain, MarkdownString: Plain, Task: Plain, ProcessExecution: Plain, CodeAction: Plain,
  CodeActionKind: { QuickFix: "quickfix" }, TaskScope: { Workspace: 2 }, TaskGroup: { Build: "build" },
  WorkspaceEdit: class { set(where, edits) { this.edits = edits; } },
  Uri: { parse: (text) => text },
  window: { showErrorMessage: (text) => shown.errors.push(text) },
  tasks: { registerTaskProvider: registered("tasks") },
  languages: {
    createDiagnosticCollection: () => ({ set: (_, marks) => { shown.marks = marks; if (marked) marked(); } }),
    registerHoverProvider: registered("hover"), registerDefinitionProvider: registered("definition"),
    registerCompletionItemProvider: registered("completion"), registerDocumentSymbolProvider: registered("symbols"),
    registerDocumentFormattingEditProvider: registered("layout"), registerCodeActionsProvider: registered("actions"),
  },
  workspace: {
    textDocuments: [document],
    getConfiguration: () => ({ get: (name) => ({ command, nodes: 0, seconds: 60 })[name] }),
    onDidOpenTextDocument: event("open"), onDidChangeTextDocument: event("change"),
    onDidSaveTextDocument: event("save"), onDidCloseTextDocument: event("close"),
  },
};

const load = Module._load;
Module._load = (name, ...more) => (name === "vscode" ? editor : load(name, ...more));
const extension = require(extensionPath);
const tokens = { onCancellationRequested: () => {} };

async function session() {
  const marks = new Promise((done) => { marked = done; });
  await extension.activate({ subscriptions: [] });
  await marks;
  const found = { marks: shown.marks.map((it) => [it.range.start.line, it.message, it.severity]) };
  const place = new Position(5, 9);
  found.hover = (await providers.hover.provideHover(document, place, tokens)).parts[0].parts[0];
  found.definition = (await providers.definition.provideDefinition(document, place, tokens)).map((it) => it.parts[1].start);
  found.choices = (await providers.completion.provideCompletionItems(document, place, tokens)).map((it) => it.parts[0]);
  found.symbols = (await providers.symbols.provideDocumentSymbols(document, tokens)).map((it) => it.parts[0]);
  events.change({ document, contentChanges: [{ range: new Range(new Position(5, 5), new Position(5, 7)), text: "AG  " }] });
  found.layout = (await providers.layout.provideDocumentFormattingEdits(document, { tabSize: 2 }, tokens)).map((it) => it.parts[1]);
  found.task = providers.tasks.provideTasks()[0].parts[4].parts;
  const again = new Promise((done) => { marked = done; });
  events.close(document);
  await again;
  found.after = shown.marks.length;
  found.errors = shown.errors;
  await extension.deactivate();
  console.log(JSON.stringify(found));
}

session();
