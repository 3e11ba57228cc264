// Theories in VS Code: starts the language server, and shows the state at the cursor in a view beside the text.
"use strict";

const vscode = require("vscode");
const { LanguageClient } = require("vscode-languageclient/node");

const DELAY = 100; // milliseconds from a move of the cursor until the state is asked for
const AGAIN = 500; // milliseconds until a state that is pending is asked for again

let client;
let panel;
let timer;

function serverOptions() {
  const settings = vscode.workspace.getConfiguration("pide");
  const [command, ...args] = settings.get("command");
  const env = { ...process.env };
  const python = settings.get("pythonPath");
  if (python) env.PYTHONPATH = env.PYTHONPATH ? `${python}:${env.PYTHONPATH}` : python;
  if (settings.get("program")) env.PIDE = settings.get("program");
  return { command, args, options: { env } };
}

async function start() {
  client = new LanguageClient("pide", "Theories", serverOptions(), {
    documentSelector: [{ language: "pide" }],
  });
  await client.start();
}

function textOf(state) {
  const lines = [state.state || (state.pending ? "not checked yet" : "")];
  for (const error of state.errors) lines.push(`error: ${error}`);
  if (state.suggestion) lines.push(`found: ${state.suggestion}`);
  return lines.join("\n");
}

function escaped(text) {
  return text.replace(/&/g, "&amp;").replace(/</g, "&lt;").replace(/>/g, "&gt;");
}

async function update() {
  const editor = vscode.window.activeTextEditor;
  if (!panel || !client || !editor || editor.document.languageId !== "pide") return;
  const position = client.code2ProtocolConverter.asPosition(editor.selection.active);
  const state = await client.sendRequest("pide/state", {
    textDocument: { uri: client.code2ProtocolConverter.asUri(editor.document.uri) },
    position,
  });
  if (!state || !panel) return;
  panel.webview.html = `<pre>${escaped(textOf(state))}</pre>`;
  if (state.pending) schedule(AGAIN);
}

function schedule(delay) {
  clearTimeout(timer);
  timer = setTimeout(() => update().catch(() => {}), delay);
}

function showState() {
  if (!panel) {
    const place = { viewColumn: vscode.ViewColumn.Beside, preserveFocus: true };
    panel = vscode.window.createWebviewPanel("pideState", "State", place, {});
    panel.onDidDispose(() => { panel = undefined; });
  }
  schedule(0);
}

async function activate(context) {
  context.subscriptions.push(
    vscode.commands.registerCommand("pide.showState", showState),
    vscode.commands.registerCommand("pide.restart", () => client && client.restart()),
    vscode.window.onDidChangeTextEditorSelection(() => schedule(DELAY)),
    vscode.workspace.onDidChangeTextDocument(() => schedule(DELAY)),
  );
  await start();
}

async function deactivate() {
  clearTimeout(timer);
  if (client) await client.stop();
}

module.exports = { activate, deactivate };
