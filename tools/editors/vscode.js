// Runs the extension of editors/vscode with a stand-in for VS Code, and prints what it shows, one
// line each. The environment names the server (MBE_LSP) and the file (MBE_FILE).
"use strict";

const fs = require("fs");
const Module = require("module");
const path = require("path");

class Plain {
  constructor(...parts) { this.parts = parts; }
}
class Position {
  constructor(line, character) { Object.assign(this, { line, character }); }
}
class Range {
  constructor(start, end) { Object.assign(this, { start, end }); }
}
class Diagnostic {
  constructor(range, message, severity) { Object.assign(this, { range, message, severity }); }
}
class WorkspaceEdit {
  constructor() { this.edits = []; }
  replace(uri, range, text) { this.edits.push({ uri, range, text }); }
}
class Uri {
  constructor(text) { this.text = text; }
  static parse(text) { return new Uri(text); }
  toString() { return this.text; }
}

const say = (name, value) => console.log(`${name}\t${JSON.stringify(value)}`);
const events = {};
const on = (name) => (heard) => { events[name] = heard; return {}; };
const providers = {};
// The provider of the document that shows expansions has the name of its scheme.
const keep = (name) => ({ scheme }, provider) => {
  providers[scheme || name] = provider;
  return {};
};
const commands = {};
let diagnostics = [];
let waiting = null;
let opened = null;
let contents = null;

const file = process.env.MBE_FILE;
const document = {
  languageId: "rust", version: 1, uri: new Uri(`file://${file}`),
  text: fs.readFileSync(file, "utf8"),
  getText() { return this.text; },
};
const editor = { document, selection: { active: new Position(2, 20) } };

const vscode = {
  Position, Range, Diagnostic, WorkspaceEdit, Uri,
  Location: Plain, DiagnosticRelatedInformation: Plain, DocumentSymbol: Plain, Hover: Plain,
  MarkdownString: Plain, CodeAction: Plain, CompletionItem: Plain, CodeLens: Plain,
  SignatureHelp: Plain, SignatureInformation: Plain, FoldingRange: Plain, SelectionRange: Plain,
  SemanticTokens: Plain, SemanticTokensLegend: Plain,
  EventEmitter: class { constructor() { this.event = () => {}; } fire() {} },
  CodeActionKind: { RefactorInline: "refactor.inline", QuickFix: "quickfix" },
  ViewColumn: { Beside: -2 },
  DiagnosticSeverity: { Error: 0, Warning: 1, Information: 2, Hint: 3 },
  languages: {
    createDiagnosticCollection: () => ({
      set(_, found) { diagnostics = found; if (waiting) waiting(); },
    }),
    registerHoverProvider: keep("hover"), registerDefinitionProvider: keep("definition"),
    registerReferenceProvider: keep("references"), registerDocumentSymbolProvider: keep("symbols"),
    registerCodeActionsProvider: keep("actions"),
    registerCompletionItemProvider: keep("completion"),
    registerSignatureHelpProvider: keep("signatures"), registerCodeLensProvider: keep("lenses"),
    registerRenameProvider: keep("renames"), registerFoldingRangeProvider: keep("folds"),
    registerSelectionRangeProvider: keep("selections"),
    registerDocumentSemanticTokensProvider: keep("tokens"),
    registerDocumentRangeSemanticTokensProvider: keep("part"),
  },
  commands: { registerCommand(name, run) { commands[name] = run; return {}; } },
  window: {
    activeTextEditor: editor,
    showErrorMessage: (text) => say("error", text),
    showTextDocument: async () => {},
    onDidChangeTextEditorSelection: on("selection"),
  },
  workspace: {
    textDocuments: [document],
    getConfiguration: () => ({ get: () => process.env.MBE_LSP }),
    onDidOpenTextDocument: on("open"), onDidChangeTextDocument: on("change"),
    onDidSaveTextDocument: on("save"), onDidCloseTextDocument: on("close"),
    openTextDocument: async (it) => { opened = it.content || contents.provideTextDocumentContent(); },
    registerTextDocumentContentProvider: (_, provider) => { contents = provider; return {}; },
  },
};

const load = Module._load;
Module._load = (name, ...rest) => (name === "vscode" ? vscode : load(name, ...rest));

const published = () => new Promise((done) => { waiting = done; });

// Replaces a part of the line 2 of the document, as a person types.
function type(start, end, text) {
  const lines = document.text.split("\n");
  lines[2] = lines[2].slice(0, start) + text + lines[2].slice(end);
  document.text = lines.join("\n");
  document.version += 1;
  const range = new Range(new Position(2, start), new Position(2, end));
  events.change({ document, contentChanges: [{ range, text }] });
}

async function main() {
  const extension = require(path.join(__dirname, "../../editors/vscode/extension.js"));
  let heard = published();
  await extension.activate({ subscriptions: [] });
  await heard;
  say("opened", diagnostics.length);
  heard = published();
  type(25, 26, "fn");
  await heard;
  say("diagnostics", diagnostics.map((it) => [it.range.start.line, it.range.start.character,
    it.severity, it.message, it.source, it.relatedInformation.length]));
  heard = published();
  type(25, 27, "1");
  await heard;
  say("undone", diagnostics.length);
  const place = new Position(2, 21);
  say("hover", (await providers.hover.provideHover(document, place)).parts[0].parts[0]);
  say("jump", (await providers.definition.provideDefinition(document, place)).parts[1].start);
  say("references", (await providers.references.provideReferences(document, place, {})).length);
  const renamed = await providers.renames.provideRenameEdits(document, place, "pair");
  say("renames", renamed.edits.map((it) => [it.range.start.line, it.range.start.character, it.text]));
  const asked = await providers.renames.prepareRename(document, place);
  say("renamed", [asked.range.start.character, asked.placeholder]);
  say("folds", (await providers.folds.provideFoldingRanges(document)).length);
  const [grown] = await providers.selections.provideSelectionRanges(document, [new Position(2, 25)]);
  say("selection", grown.parts[0].start);
  say("symbols", (await providers.symbols.provideDocumentSymbols(document))
    .map((it) => [it.parts[0], it.children.map((rule) => rule.parts[0])]));
  const here = new Range(place, place);
  const actions = await providers.actions.provideCodeActions(document, here);
  say("actions", actions.map((it) => [it.parts[0], it.edit.edits[0].text]));
  const names = await providers.completion.provideCompletionItems(document, new Position(2, 22));
  say("completion", names.map((it) => it.parts[0]));
  const help = await providers.signatures.provideSignatureHelp(document, new Position(2, 25));
  say("signatures", help.signatures.map((it) => it.parts[0]));
  const lenses = await providers.lenses.provideCodeLenses(document);
  say("lenses", lenses.map((it) => [it.parts[0].start.line, it.parts[1].title]));
  await commands["mbe-lsp.expandMacro"]();
  say("expansion", opened);
  await commands["mbe-lsp.followExpansion"]();
  say("followed", opened);
  const shown = providers["mbe-expansion"];
  const origin = await shown.provideDefinition(null, new Position(1, 1));
  say("origin", origin && origin.parts[1].start);
  const tokens = await providers.tokens.provideDocumentSemanticTokens(document);
  say("tokens", Array.from(tokens.parts[0]));
  const part = new Range(new Position(2, 25), new Position(2, 26));
  const some = await providers.part.provideDocumentRangeSemanticTokens(document, part);
  say("part", Array.from(some.parts[0]));
  await extension.deactivate();
  say("stopped", true);
}

main().catch((error) => { say("error", String(error.stack)); process.exit(1); });
