// A small client of the language server (tools/language_server), with nothing but VS Code's own interface.
"use strict";
const vscode = require("vscode");
const { spawn } = require("child_process");

const SELECTOR = { language: "esterel" };

// A server that is running: requests get promises, and notices a listener.
class Connection {
  constructor(command, listener) {
    this.server = spawn(command, ["--stdio"], { stdio: ["pipe", "pipe", "ignore"] });
    this.waiting = new Map();
    this.last = 0;
    this.data = Buffer.alloc(0);
    this.listener = listener;
    this.server.on("error", () => this.end());
    this.server.on("exit", () => this.end());
    this.server.stdin.on("error", () => {});
    this.server.stdout.on("data", data => this.take(data));
  }

  end() {
    this.isEnded = true;
    this.waiting.forEach(answer => answer(null));
    this.waiting.clear();
  }

  send(message) {
    if (this.isEnded) return;
    const text = JSON.stringify({ jsonrpc: "2.0", ...message });
    this.server.stdin.write("Content-Length: " + Buffer.byteLength(text) + "\r\n\r\n" + text);
  }

  ask(method, params) {
    if (this.isEnded) return Promise.resolve({ result: null });
    const id = ++this.last;
    const answer = new Promise(resolve => this.waiting.set(id, resolve));
    this.send({ id, method, params });
    return answer.then(message => message || { result: null });
  }

  take(data) {
    this.data = Buffer.concat([this.data, data]);
    for (;;) {
      const end = this.data.indexOf("\r\n\r\n");
      if (end < 0) return;
      const length = Number(/content-length: *(\d+)/i.exec(this.data.toString("ascii", 0, end))[1]);
      if (this.data.length < end + 4 + length) return;
      const message = JSON.parse(this.data.toString("utf8", end + 4, end + 4 + length));
      this.data = this.data.subarray(end + 4 + length);
      if (this.waiting.has(message.id)) {
        this.waiting.get(message.id)(message);
        this.waiting.delete(message.id);
      } else if (message.method) this.listener(message);
    }
  }
}

const range = it => new vscode.Range(it.start.line, it.start.character, it.end.line, it.end.character);
const edit = it => new vscode.TextEdit(range(it.range), it.newText);
const at = (document, position) => ({
  textDocument: { uri: document.uri.toString() },
  position: { line: position.line, character: position.character },
});
const location = it => new vscode.Location(vscode.Uri.parse(it.uri), range(it.range));

function diagnostic(it) {
  // The protocol counts severities from 1, and VS Code from 0.
  const made = new vscode.Diagnostic(range(it.range), it.message, it.severity - 1);
  made.source = it.source;
  made.relatedInformation = it.relatedInformation.map(
    note => new vscode.DiagnosticRelatedInformation(location(note.location), note.message));
  return made;
}

function watch(context, connection) {
  const document = it => ({ uri: it.uri.toString(), languageId: "esterel", version: it.version, text: it.getText() });
  const opened = it => it.languageId === "esterel" && connection.send({ method: "textDocument/didOpen", params: { textDocument: document(it) } });
  vscode.workspace.textDocuments.forEach(opened);
  context.subscriptions.push(
    vscode.workspace.onDidOpenTextDocument(opened),
    vscode.workspace.onDidChangeTextDocument(event => event.document.languageId === "esterel" && connection.send({
      method: "textDocument/didChange",
      params: { textDocument: document(event.document), contentChanges: [{ text: event.document.getText() }] },
    })),
    vscode.workspace.onDidCloseTextDocument(it => it.languageId === "esterel" && connection.send({
      method: "textDocument/didClose", params: { textDocument: { uri: it.uri.toString() } },
    })));
}

function provide(context, connection) {
  const ask = (method, params) => connection.ask("textDocument/" + method, params);
  context.subscriptions.push(
    vscode.languages.registerDefinitionProvider(SELECTOR, {
      provideDefinition: (document, position) => ask("definition", at(document, position)).then(it => it.result && location(it.result)),
    }),
    vscode.languages.registerReferenceProvider(SELECTOR, {
      provideReferences: (document, position, context) =>
        ask("references", { ...at(document, position), context }).then(it => (it.result || []).map(location)),
    }),
    vscode.languages.registerHoverProvider(SELECTOR, {
      provideHover: (document, position) => ask("hover", at(document, position)).then(
        it => it.result && new vscode.Hover(new vscode.MarkdownString(it.result.contents.value), range(it.result.range))),
    }),
    vscode.languages.registerRenameProvider(SELECTOR, {
      provideRenameEdits: (document, position, newName) => ask("rename", { ...at(document, position), newName }).then(it => {
        if (it.error) throw new Error(it.error.message);
        const made = new vscode.WorkspaceEdit();
        for (const [uri, edits] of Object.entries(it.result.changes)) made.set(vscode.Uri.parse(uri), edits.map(edit));
        return made;
      }),
    }),
    vscode.languages.registerDocumentFormattingEditProvider(SELECTOR, {
      provideDocumentFormattingEdits: (document, options) =>
        ask("formatting", { textDocument: { uri: document.uri.toString() }, options }).then(it => (it.result || []).map(edit)),
    }),
    vscode.languages.registerOnTypeFormattingEditProvider(SELECTOR, {
      provideOnTypeFormattingEdits: (document, position, ch, options) =>
        ask("onTypeFormatting", { ...at(document, position), ch, options }).then(it => (it.result || []).map(edit)),
    }, "\n", "d", "e", "|", "]", "h", "n"));
}

function activate(context) {
  const command = vscode.workspace.getConfiguration("cec").get("languageServer");
  if (!command) return undefined;
  const found = vscode.languages.createDiagnosticCollection("cec");
  const connection = new Connection(command, message => {
    if (message.method === "textDocument/publishDiagnostics")
      found.set(vscode.Uri.parse(message.params.uri), message.params.diagnostics.map(diagnostic));
  });
  context.subscriptions.push(found, {
    dispose: () => connection.ask("shutdown", null).then(() => connection.send({ method: "exit" })),
  });
  return connection.ask("initialize", { processId: process.pid, rootUri: null, capabilities: {} }).then(() => {
    connection.send({ method: "initialized", params: {} });
    watch(context, connection);
    provide(context, connection);
  });
}

module.exports = { activate };
