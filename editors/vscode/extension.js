// The language DIL in Visual Studio Code.
'use strict';

const vscode = require('vscode');
const { Checker } = require('./checker');
const commands = require('./commands');

/** A function that tells each text once, with a way to the settings, and one that lets it tell all again. */
function teller() {
    const told = new Set();
    async function tell(text) {
        if (told.has(text)) {
            return;
        }
        told.add(text);
        const button = 'Open Settings';
        if ((await vscode.window.showWarningMessage(text, button)) === button) {
            vscode.commands.executeCommand('workbench.action.openSettings', 'dil.');
        }
    }
    return { tell, again: () => told.clear() };
}

function activate(context) {
    const { tell, again } = teller();
    const checker = new Checker(tell);
    const checkAll = () => vscode.workspace.textDocuments.forEach((document) => checker.later(document));
    context.subscriptions.push(
        checker,
        vscode.workspace.onDidOpenTextDocument((document) => checker.later(document)),
        vscode.workspace.onDidChangeTextDocument((event) => checker.later(event.document)),
        vscode.workspace.onDidSaveTextDocument((document) => checker.later(document)),
        vscode.workspace.onDidCloseTextDocument((document) => checker.forget(document)),
        vscode.workspace.onDidChangeConfiguration((event) => {
            if (event.affectsConfiguration('dil')) {
                again();
                checkAll();
            }
        }),
        vscode.languages.registerHoverProvider('dil', {
            provideHover: (document, position) => checker.hover(document, position),
        }),
    );
    commands.register(context);
    checkAll();
}

module.exports = { activate, deactivate: () => {} };
