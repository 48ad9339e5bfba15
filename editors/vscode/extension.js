"use strict";
// The client of `smv lsp`: hands texts to the language server, and its answers to the editor. It needs no other package.
const childProcess = require("child_process");
const vscode = require("vscode");
const { Connection } = require("./connection");

const LANGUAGE = "smv";
let connection;
let marks;

// ---- what the protocol has as the editor has it, and back

const position = (it) => new vscode.Position(it.line, it.character);
const range = (it) => new vscode.Range(position(it.start), position(it.end));
const plain = (it) => ({ line: it.line, character: it.character });
const plainRange = (it) => ({ start: plain(it.start), end: plain(it.end) });
const location = (it) => new vscode.Location(vscode.Uri.parse(it.uri), range(it.range));
const named = (document) => ({ uri: document.uri.toString() });
const edit = (it) => new vscode.TextEdit(range(it.range), it.newText);

function diagnostic(it) {
  const found = new vscode.Diagnostic(range(it.range), it.message, it.severity - 1);
  found.source = it.source;
  found.code = it.code;
  found.relatedInformation = (it.relatedInformation || []).map(
    (other) => new vscode.DiagnosticRelatedInformation(location(other.location), other.message));
  return found;
}

function symbol(it) {
  const found = new vscode.DocumentSymbol(it.name, "", it.kind - 1, range(it.range), range(it.selectionRange));
  found.children = it.children.map(symbol);
  return found;
}

function choice(it) {
  const found = new vscode.CompletionItem(it.label, it.kind - 1);
  found.detail = it.detail;
  return found;
}

function action(it) {
  const found = new vscode.CodeAction(it.title, vscode.CodeActionKind.QuickFix);
  found.diagnostics = it.diagnostics.map(diagnostic);
  found.edit = new vscode.WorkspaceEdit();
  for (const [uri, edits] of Object.entries(it.edit.changes)) found.edit.set(vscode.Uri.parse(uri), edits.map(edit));
  return found;
}

// ---- the server

function words() {
  const settings = vscode.workspace.getConfiguration(LANGUAGE);
  const nodes = settings.get("nodes");
  return ["lsp", "--seconds", String(settings.get("seconds")), ...(nodes > 0 ? ["--nodes", String(nodes)] : [])];
}

function heard(method, params) {
  if (method === "textDocument/publishDiagnostics") {
    marks.set(vscode.Uri.parse(params.uri), params.diagnostics.map(diagnostic));
  } else if (method === "window/showMessage") {
    vscode.window.showErrorMessage(params.message);
  }
}

async function start() {
  const command = vscode.workspace.getConfiguration(LANGUAGE).get("command");
  const running = childProcess.spawn(command, words(), { stdio: ["pipe", "pipe", "ignore"], env: { ...process.env, SMV_QUIET: "1" } });
  running.on("error", (error) => vscode.window.showErrorMessage(`smv: ${command} can't be started: ${error.message}`));
  connection = new Connection(running, heard);
  await connection.request("initialize", { processId: process.pid, rootUri: null, capabilities: {} });
  connection.notify("initialized", {});
  vscode.workspace.textDocuments.forEach(opened);
}

// ---- texts

const isModel = (document) => document.languageId === LANGUAGE;

function opened(document) {
  if (!isModel(document)) return;
  const text = { ...named(document), languageId: LANGUAGE, version: document.version, text: document.getText() };
  connection.notify("textDocument/didOpen", { textDocument: text });
}

function changed({ document, contentChanges }) {
  if (!isModel(document) || contentChanges.length === 0) return;
  // The editor lists changes from the end of the text, each in the places of the text before.
  const changes = contentChanges.map((it) => ({ range: plainRange(it.range), text: it.text }));
  connection.notify("textDocument/didChange",
    { textDocument: { ...named(document), version: document.version }, contentChanges: changes });
}

const told = (method) => (document) => isModel(document) && connection.notify(method, { textDocument: named(document) });

// ---- what the editor asks

function at(document, place, token, method) {
  return connection.request(method, { textDocument: named(document), position: plain(place) }, token);
}

const providers = {
  async provideHover(document, place, token) {
    const found = await at(document, place, token, "textDocument/hover");
    return found && new vscode.Hover(new vscode.MarkdownString(found.contents.value), range(found.range));
  },
  async provideDefinition(document, place, token) {
    return ((await at(document, place, token, "textDocument/definition")) || []).map(location);
  },
  async provideCompletionItems(document, place, token) {
    const found = await at(document, place, token, "textDocument/completion");
    return ((found && found.items) || []).map(choice);
  },
  async provideDocumentSymbols(document, token) {
    return ((await connection.request("textDocument/documentSymbol", { textDocument: named(document) }, token)) || []).map(symbol);
  },
  async provideDocumentFormattingEdits(document, options, token) {
    const params = { textDocument: named(document), options: { tabSize: options.tabSize, insertSpaces: true } };
    return ((await connection.request("textDocument/formatting", params, token)) || []).map(edit);
  },
  async provideCodeActions(document, where, _, token) {
    const params = { textDocument: named(document), range: plainRange(where), context: { diagnostics: [] } };
    return ((await connection.request("textDocument/codeAction", params, token)) || []).map(action);
  },
};

// ---- the task

function task(definition) {
  const command = vscode.workspace.getConfiguration(LANGUAGE).get("command");
  const execution = new vscode.ProcessExecution(command, ["diagnose", "--", definition.file || "${file}"]);
  const found = new vscode.Task(definition, vscode.TaskScope.Workspace, "check the model", LANGUAGE, execution, ["$smv"]);
  found.group = vscode.TaskGroup.Build;
  return found;
}

const tasks = { provideTasks: () => [task({ type: LANGUAGE })], resolveTask: (asked) => task(asked.definition) };

async function activate(context) {
  marks = vscode.languages.createDiagnosticCollection(LANGUAGE);
  await start();
  const { languages, workspace } = vscode;
  context.subscriptions.push(
    marks,
    workspace.onDidOpenTextDocument(opened),
    workspace.onDidChangeTextDocument(changed),
    workspace.onDidSaveTextDocument(told("textDocument/didSave")),
    workspace.onDidCloseTextDocument(told("textDocument/didClose")),
    languages.registerHoverProvider(LANGUAGE, providers),
    languages.registerDefinitionProvider(LANGUAGE, providers),
    languages.registerCompletionItemProvider(LANGUAGE, providers, "."),
    languages.registerDocumentSymbolProvider(LANGUAGE, providers),
    languages.registerDocumentFormattingEditProvider(LANGUAGE, providers),
    languages.registerCodeActionsProvider(LANGUAGE, providers),
    vscode.tasks.registerTaskProvider(LANGUAGE, tasks),
  );
}

async function deactivate() {
  if (!connection) return;
  await connection.request("shutdown", null);
  connection.notify("exit", null);
}

module.exports = { activate, deactivate };
