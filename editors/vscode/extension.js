// An extension of VS Code for `mbe-lsp`, without dependencies: it starts the server, sends it the
// open Rust documents, and shows its answers.
"use strict";

const childProcess = require("child_process");
const vscode = require("vscode");
const { Connection } = require("./connection");

const SEVERITIES = [
  vscode.DiagnosticSeverity.Error,
  vscode.DiagnosticSeverity.Warning,
  vscode.DiagnosticSeverity.Information,
  vscode.DiagnosticSeverity.Hint,
];

// Positions of VS Code count units of UTF-16, as those of the server do unless both agree on bytes.
function position(at) {
  return new vscode.Position(at.line, at.character);
}

function range(it) {
  return new vscode.Range(position(it.start), position(it.end));
}

function location(it) {
  return new vscode.Location(vscode.Uri.parse(it.uri), range(it.range));
}

function diagnostic(it) {
  const made = new vscode.Diagnostic(range(it.range), it.message, SEVERITIES[it.severity - 1]);
  made.source = it.source;
  made.tags = it.tags;
  made.relatedInformation = it.relatedInformation.map(
    (one) => new vscode.DiagnosticRelatedInformation(location(one.location), one.message));
  return made;
}

function symbol(it) {
  const made = new vscode.DocumentSymbol(
    it.name, "", it.kind - 1, range(it.range), range(it.selectionRange));
  made.children = (it.children || []).map(symbol);
  return made;
}

function workspaceEdit(change) {
  const made = new vscode.WorkspaceEdit();
  for (const [uri, edits] of Object.entries(change.changes)) {
    for (const edit of edits) made.replace(vscode.Uri.parse(uri), range(edit.range), edit.newText);
  }
  return made;
}

const KINDS = {
  "refactor.inline": vscode.CodeActionKind.RefactorInline,
  quickfix: vscode.CodeActionKind.QuickFix,
};

function codeAction(it) {
  const made = new vscode.CodeAction(it.title, KINDS[it.kind]);
  made.edit = workspaceEdit(it.edit);
  return made;
}

function completion(it) {
  const made = new vscode.CompletionItem(it.label, it.kind - 1);
  made.detail = it.detail;
  if (it.textEdit) {
    made.range = range(it.textEdit.range);
    made.insertText = it.textEdit.newText;
    made.filterText = it.filterText;
  }
  return made;
}

function selection(it) {
  return new vscode.SelectionRange(range(it.range), it.parent && selection(it.parent));
}

function semanticTokens(found) {
  return found && new vscode.SemanticTokens(new Uint32Array(found.data));
}

function signatureHelp(it) {
  const made = new vscode.SignatureHelp();
  made.signatures = it.signatures.map((one) => new vscode.SignatureInformation(one.label));
  made.activeSignature = 0;
  made.activeParameter = 0;
  return made;
}

// The scheme of the document that shows expansions. The server isn't told of it.
const SCHEME = "mbe-expansion";

function isRust(document) {
  return document.languageId === "rust" && document.uri.scheme !== SCHEME;
}

function at(document, place) {
  return {
    textDocument: { uri: document.uri.toString() },
    position: { line: place.line, character: place.character },
  };
}

// Sends the documents as they are opened, changed, saved and closed.
function follow(context, server) {
  const uri = (document) => document.uri.toString();
  const open = (document) => isRust(document) && server.notify("textDocument/didOpen", {
    textDocument: {
      uri: uri(document), languageId: "rust", version: document.version, text: document.getText(),
    },
  });
  vscode.workspace.textDocuments.forEach(open);
  context.subscriptions.push(
    vscode.workspace.onDidOpenTextDocument(open),
    vscode.workspace.onDidChangeTextDocument(({ document, contentChanges }) => {
      if (!isRust(document) || contentChanges.length === 0) return;
      server.notify("textDocument/didChange", {
        textDocument: { uri: uri(document), version: document.version },
        contentChanges: contentChanges.map((it) => ({ range: it.range, text: it.text })),
      });
    }),
    vscode.workspace.onDidSaveTextDocument((document) => isRust(document)
      && server.notify("textDocument/didSave", { textDocument: { uri: uri(document) } })),
    vscode.workspace.onDidCloseTextDocument((document) => isRust(document)
      && server.notify("textDocument/didClose", { textDocument: { uri: uri(document) } })));
}

// Asks the server for what VS Code shows. `able` says what the server can do.
function provide(context, server, able) {
  const rust = ["file", "untitled"].map((scheme) => ({ language: "rust", scheme }));
  const { tokenTypes, tokenModifiers } = able.semanticTokensProvider.legend;
  const legend = new vscode.SemanticTokensLegend(tokenTypes, tokenModifiers);
  const ask = (method, document, place) =>
    server.request(`textDocument/${method}`, at(document, place));
  context.subscriptions.push(
    vscode.languages.registerHoverProvider(rust, {
      provideHover: async (document, place) => {
        const found = await ask("hover", document, place);
        return found && new vscode.Hover(
          new vscode.MarkdownString(found.contents.value), range(found.range));
      },
    }),
    vscode.languages.registerDefinitionProvider(rust, {
      provideDefinition: async (document, place) => {
        const found = await ask("definition", document, place);
        return found && location(found);
      },
    }),
    vscode.languages.registerReferenceProvider(rust, {
      provideReferences: async (document, place, context) => {
        const params = { ...at(document, place), context };
        return (await server.request("textDocument/references", params)).map(location);
      },
    }),
    vscode.languages.registerRenameProvider(rust, {
      prepareRename: async (document, place) => {
        const found = await ask("prepareRename", document, place);
        if (!found) throw new Error("there is no macro and no variable of a rule here");
        return { range: range(found.range), placeholder: found.placeholder };
      },
      provideRenameEdits: async (document, place, newName) => workspaceEdit(
        await server.request("textDocument/rename", { ...at(document, place), newName })),
    }),
    vscode.languages.registerFoldingRangeProvider(rust, {
      provideFoldingRanges: async (document) => {
        const params = { textDocument: { uri: document.uri.toString() } };
        return (await server.request("textDocument/foldingRange", params)).map(
          (it) => new vscode.FoldingRange(it.startLine, it.endLine));
      },
    }),
    vscode.languages.registerSelectionRangeProvider(rust, {
      provideSelectionRanges: async (document, places) => {
        const { textDocument } = at(document, places[0]);
        const positions = places.map(({ line, character }) => ({ line, character }));
        const params = { textDocument, positions };
        return (await server.request("textDocument/selectionRange", params)).map(selection);
      },
    }),
    vscode.languages.registerDocumentSymbolProvider(rust, {
      provideDocumentSymbols: async (document) => {
        const params = { textDocument: { uri: document.uri.toString() } };
        return (await server.request("textDocument/documentSymbol", params)).map(symbol);
      },
    }),
    vscode.languages.registerCodeActionsProvider(rust, {
      provideCodeActions: async (document, where) => {
        const { textDocument } = at(document, where.start);
        const params = { textDocument, range: where, context: { diagnostics: [] } };
        return (await server.request("textDocument/codeAction", params)).map(codeAction);
      },
    }),
    vscode.languages.registerCompletionItemProvider(rust, {
      provideCompletionItems: async (document, place) =>
        (await ask("completion", document, place)).map(completion),
    }, ":", "$", "{"),
    vscode.languages.registerSignatureHelpProvider(rust, {
      provideSignatureHelp: async (document, place) => {
        const found = await ask("signatureHelp", document, place);
        return found && signatureHelp(found);
      },
    }, "(", "[", "{"),
    vscode.languages.registerCodeLensProvider(rust, {
      provideCodeLenses: async (document) => {
        const params = { textDocument: { uri: document.uri.toString() } };
        return (await server.request("textDocument/codeLens", params)).map(
          (it) => new vscode.CodeLens(range(it.range), it.command));
      },
    }),
    vscode.languages.registerDocumentSemanticTokensProvider(rust, {
      provideDocumentSemanticTokens: async (document) => {
        const params = { textDocument: { uri: document.uri.toString() } };
        return semanticTokens(await server.request("textDocument/semanticTokens/full", params));
      },
    }, legend),
    vscode.languages.registerDocumentRangeSemanticTokensProvider(rust, {
      provideDocumentRangeSemanticTokens: async (document, where) => {
        const params = { textDocument: { uri: document.uri.toString() }, range: where };
        return semanticTokens(await server.request("textDocument/semanticTokens/range", params));
      },
    }, legend),
    vscode.commands.registerCommand("mbe-lsp.expandMacro", async () => {
      const editor = vscode.window.activeTextEditor;
      if (!editor) return;
      const found = await server.request(
        "mbe/expansion", at(editor.document, editor.selection.active));
      if (!found) return;
      const document = await vscode.workspace.openTextDocument(
        { language: "rust", content: expansionText(found) });
      await vscode.window.showTextDocument(document, { viewColumn: vscode.ViewColumn.Beside });
    }));
}

function expansionText(found) {
  return `// Expansion of ${found.name}!\n${found.expansion}\n`;
}

// Whether a range has this position.
function holds({ start, end }, { line, character }) {
  return line === start.line && start.character <= character
    && (line < end.line || character <= end.character);
}

// Shows beside the document the expansion of the call that the cursor is in, and follows the cursor
// while it is in Rust documents. A definition of a token there is where the token is from.
function preview(context, server) {
  const uri = vscode.Uri.parse(`${SCHEME}:/expansion.rs`);
  const changed = new vscode.EventEmitter();
  let text = "";
  let asked = null;
  const show = async (editor) => {
    if (!editor || !isRust(editor.document)) return;
    asked = at(editor.document, editor.selection.active);
    const found = await server.request("mbe/expansion", asked);
    text = found ? expansionText(found) : "// The cursor is in no call that expands\n";
    changed.fire(uri);
  };
  // The first line of the document is a comment.
  const origin = async ({ line, character }) => {
    const found = asked && await server.request("mbe/expansion", { ...asked, origins: true });
    if (!found || expansionText(found) !== text) return null;
    const token = found.origins.find((it) => holds(it.range, { line: line - 1, character }));
    return token && location(token.location);
  };
  let followed = null;
  context.subscriptions.push(
    vscode.workspace.registerTextDocumentContentProvider(SCHEME, {
      onDidChange: changed.event,
      provideTextDocumentContent: () => text,
    }),
    vscode.languages.registerDefinitionProvider({ scheme: SCHEME }, {
      provideDefinition: (_, place) => origin(place),
    }),
    vscode.commands.registerCommand("mbe-lsp.followExpansion", async () => {
      await show(vscode.window.activeTextEditor);
      followed = followed || vscode.window.onDidChangeTextEditorSelection(
        ({ textEditor }) => show(textEditor));
      context.subscriptions.push(followed);
      const document = await vscode.workspace.openTextDocument(uri);
      await vscode.window.showTextDocument(
        document, { viewColumn: vscode.ViewColumn.Beside, preserveFocus: true });
    }));
}

let running;

async function activate(context) {
  const program = vscode.workspace.getConfiguration("mbe-lsp").get("path");
  const process = childProcess.spawn(program, [], { stdio: ["pipe", "pipe", "inherit"] });
  process.on("error", (error) => vscode.window.showErrorMessage(`${program}: ${error.message}`));
  const diagnostics = vscode.languages.createDiagnosticCollection("mbe");
  context.subscriptions.push(diagnostics);
  running = new Connection(process.stdin, process.stdout, (method, params) => {
    if (method === "textDocument/publishDiagnostics") {
      diagnostics.set(vscode.Uri.parse(params.uri), params.diagnostics.map(diagnostic));
    }
  });
  const { capabilities } = await running.request("initialize", {
    processId: null, rootUri: null,
    capabilities: { general: { positionEncodings: ["utf-16"] } },
  });
  running.notify("initialized", {});
  follow(context, running);
  provide(context, running, capabilities);
  preview(context, running);
}

async function deactivate() {
  if (!running) return;
  await running.request("shutdown");
  running.notify("exit");
}

module.exports = { activate, deactivate };
