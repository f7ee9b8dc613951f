// A stand-in for the interface of Visual Studio Code: as much of it as the extension uses. What the extension shows, asks and
// opens is noted in `noted`; what the user does is done by the functions of `user`.
'use strict';

const fs = require('fs');
const path = require('path');

class Position {
    constructor(line, character) {
        Object.assign(this, { line, character });
    }
}

class Range {
    constructor(line, character, endLine, endCharacter) {
        this.start = new Position(line, character);
        this.end = new Position(endLine, endCharacter);
    }

    contains(position) {
        const behind = (a, b) => a.line > b.line || (a.line === b.line && a.character >= b.character);
        return behind(position, this.start) && behind(this.end, position);
    }
}

class Diagnostic {
    constructor(range, message, severity) {
        Object.assign(this, { range, message, severity });
    }
}

class Hover {
    constructor(contents, range) {
        Object.assign(this, { contents, range });
    }
}

class MarkdownString {
    constructor(value) {
        this.value = value;
    }
}

class Uri {
    constructor(scheme, name) {
        Object.assign(this, { scheme, path: name, fsPath: name });
    }

    toString() {
        return `${this.scheme}:${this.path}`;
    }

    static file(name) {
        return new Uri('file', name);
    }

    static from(parts) {
        return new Uri(parts.scheme, parts.path);
    }
}

class EventEmitter {
    constructor() {
        this.listeners = [];
        this.event = (listener) => {
            this.listeners.push(listener);
            return { dispose: () => this.listeners.splice(this.listeners.indexOf(listener), 1) };
        };
    }

    fire(value) {
        this.listeners.forEach((listener) => listener(value));
    }
}

/** Of work that can be cancelled, which the user then does after a while. */
class Token {
    isCancellationRequested = false;

    onCancellationRequested(listener) {
        if (user.cancels) {
            setTimeout(() => {
                this.isCancellationRequested = true;
                listener();
            }, 300);
        }
        return { dispose: () => {} };
    }
}

class CancellationError extends Error {}

class Document {
    constructor(name, text, scheme = 'file') {
        this.uri = new Uri(scheme, name);
        this.languageId = name.endsWith('.dil') || scheme === 'untitled' ? 'dil' : 'plaintext';
        this.isUntitled = scheme === 'untitled';
        this.isDirty = this.isUntitled;
        this.text = text;
    }

    getText() {
        return this.text;
    }

    async save() {
        if (user.savesNothing) {
            return false;
        }
        fs.writeFileSync(this.uri.fsPath, this.text);
        this.isDirty = false;
        events.save.fire(this);
        return true;
    }
}

const events = Object.fromEntries(['open', 'change', 'save', 'close', 'configuration'].map((name) => [name, new EventEmitter()]));
const lists = ['warnings', 'errors', 'informations', 'picks', 'terminals', 'opened', 'executed'];
const noted = { ...Object.fromEntries(lists.map((name) => [name, []])), diagnostics: new Map() };
const contents = new Map();
const commands = new Map();
const hovers = [];
let settings = {};

const user = {
    savesNothing: false,
    // The label of the next item to pick, and the file of the next dialog.
    picks: undefined,
    file: undefined,
    // The button to press at a message, and whether to cancel what shows its progress.
    presses: undefined,
    cancels: false,
    open(name, text, scheme) {
        if (scheme === undefined) {
            fs.writeFileSync(name, text);
        }
        const document = new Document(name, text, scheme);
        vscode.workspace.textDocuments.push(document);
        vscode.window.activeTextEditor = { document };
        events.open.fire(document);
        return document;
    },
    types(document, text) {
        Object.assign(document, { text, isDirty: true });
        events.change.fire({ document });
    },
    closes(document) {
        vscode.workspace.textDocuments.splice(vscode.workspace.textDocuments.indexOf(document), 1);
        events.close.fire(document);
    },
    sets(values) {
        settings = values;
        events.configuration.fire({ affectsConfiguration: (section) => section === 'dil' });
    },
    calls: (command) => commands.get(command)(),
    hovers: (document, position) => hovers.map((provider) => provider.provideHover(document, position)).filter((one) => one),
    forgets() {
        for (const list of Object.values(noted)) {
            list instanceof Map ? list.clear() : (list.length = 0);
        }
    },
};

const declared = JSON.parse(fs.readFileSync(path.join(__dirname, '../vscode/package.json'), 'utf8')).contributes;

function setting(name) {
    const property = declared.configuration.properties[`dil.${name}`];
    if (property === undefined) {
        throw new Error(`the setting dil.${name} is not declared`);
    }
    return settings[name] ?? property.default;
}

const message = (list) => async (text) => {
    list.push(text);
    return user.presses;
};

const vscode = {
    CancellationError,
    Diagnostic,
    EventEmitter,
    Hover,
    MarkdownString,
    Position,
    Range,
    Uri,
    DiagnosticSeverity: { Error: 0, Warning: 1 },
    ProgressLocation: { Notification: 15 },
    ViewColumn: { Beside: -2 },
    languages: {
        createDiagnosticCollection: () => ({
            set: (uri, list) => noted.diagnostics.set(uri.toString(), list),
            delete: (uri) => noted.diagnostics.delete(uri.toString()),
            dispose: () => noted.diagnostics.clear(),
        }),
        registerHoverProvider: (language, provider) => {
            hovers.push(provider);
            return { dispose: () => {} };
        },
    },
    workspace: {
        textDocuments: [],
        getConfiguration: () => ({ get: setting }),
        onDidOpenTextDocument: events.open.event,
        onDidChangeTextDocument: events.change.event,
        onDidSaveTextDocument: events.save.event,
        onDidCloseTextDocument: events.close.event,
        onDidChangeConfiguration: events.configuration.event,
        registerTextDocumentContentProvider: (scheme, provider) => {
            contents.set(scheme, provider);
            return { dispose: () => {} };
        },
        openTextDocument: async (uri) => {
            const text = contents.get(uri.scheme).provideTextDocumentContent(uri);
            return new Document(uri.path, text, uri.scheme);
        },
    },
    window: {
        activeTextEditor: undefined,
        showWarningMessage: message(noted.warnings),
        showErrorMessage: message(noted.errors),
        showInformationMessage: message(noted.informations),
        showQuickPick: async (items) => {
            noted.picks.push(items.map((item) => item.label));
            return items.find((item) => item.label === user.picks);
        },
        showOpenDialog: async () => user.file && [Uri.file(user.file)],
        createTerminal: (options) => {
            noted.terminals.push(options);
            return { show: () => {} };
        },
        showTextDocument: async (document) => noted.opened.push(document),
        withProgress: async (options, work) => work({}, new Token()),
    },
    commands: {
        registerCommand: (name, work) => {
            commands.set(name, work);
            return { dispose: () => {} };
        },
        executeCommand: async (name, ...words) => noted.executed.push([name, ...words]),
    },
};

module.exports = { vscode, user, noted, commands, declared };
