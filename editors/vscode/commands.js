// The commands: a run, the cost, the waveform.
'use strict';

const childProcess = require('child_process');
const fs = require('fs');
const path = require('path');
const vscode = require('vscode');
const programs = require('./programs');
const settings = require('./settings');

/** The scheme of documents that tell a cost. */
const COST = 'dil-cost';

// Keeps the terminal of a run open behind its end, also where Ctrl-C ended the run.
const STAY = 'trap : INT; "$@"; printf "\\n[ended with status %s; the Enter key closes this]\\n" "$?"; read -r line';

/** The documents that tell costs, by the path of the program. */
class Costs {
    constructor() {
        this.texts = new Map();
        this.changed = new vscode.EventEmitter();
        this.onDidChange = this.changed.event;
    }

    provideTextDocumentContent(uri) {
        return this.texts.get(uri.path) ?? '';
    }

    put(uri, text) {
        this.texts.set(uri.path, text);
        this.changed.fire(uri);
    }
}

/** The program in the editor, saved; undefined where there is none, or where the user did not save it. */
async function savedProgram() {
    const document = vscode.window.activeTextEditor?.document;
    if (document?.languageId !== 'dil') {
        vscode.window.showInformationMessage('Open a program, a file that ends in .dil, first.');
        return undefined;
    }
    if ((document.isDirty || document.isUntitled) && !(await document.save())) {
        return undefined;
    }
    return vscode.window.activeTextEditor.document.uri;
}

/** A sample file that the user chooses: one beside the program, the one chosen last first, or any other. */
async function chosenSamples(program, memory) {
    const folder = path.dirname(program.fsPath);
    const key = `samples of ${program.fsPath}`;
    const names = fs.readdirSync(folder).filter((name) => /\.(txt|csv)$/.test(name));
    const beside = names.map((name) => path.join(folder, name));
    const last = memory.get(key);
    const files = [...new Set([...(last && fs.existsSync(last) ? [last] : []), ...beside])];
    const other = { label: 'Another file...', file: undefined };
    const items = files.map((file) => ({ label: path.basename(file), description: path.dirname(file), file }));
    const item = await vscode.window.showQuickPick([...items, other], { placeHolder: 'The samples, one line for each' });
    let file = item?.file;
    if (item === other) {
        file = (await vscode.window.showOpenDialog({ defaultUri: vscode.Uri.file(folder), title: 'Samples' }))?.[0]?.fsPath;
    }
    if (file !== undefined) {
        await memory.update(key, file);
    }
    return file;
}

/** `piperench run` in a terminal. */
async function run(memory) {
    const program = await savedProgram();
    const samples = program && (await chosenSamples(program, memory));
    if (!samples) {
        return;
    }
    const words = ['run', program.fsPath, samples, ...settings.run(program)];
    const [shell, shellWords] = programs.command(programs.find('piperench', settings.folder()), words);
    const terminal = vscode.window.createTerminal({
        name: `run ${path.basename(program.fsPath)}`,
        shellPath: '/bin/sh',
        shellArgs: ['-c', STAY, 'sh', shell, ...shellWords],
    });
    terminal.show(true);
}

/**
 * Waits for a program of which the user can cancel the call. Throws Unavailable where it ends with another status than 0, and
 * CancellationError where the user cancelled it.
 */
async function answer(child, token) {
    const watch = token?.onCancellationRequested(() => child.kill());
    const { status, signal, out, err } = await programs.ended(child);
    watch?.dispose();
    if (token?.isCancellationRequested) {
        throw new vscode.CancellationError();
    }
    if (status !== 0) {
        throw new programs.Unavailable(err.split('\n')[0] || `ended by ${signal ?? status}`);
    }
    return out;
}

/** `pipelens cost` in a document beside the program. */
async function cost(costs) {
    const program = await savedProgram();
    if (!program) {
        return;
    }
    const lens = programs.find('pipelens', settings.folder());
    const text = await answer(programs.start(lens, ['cost', program.fsPath, ...settings.fabric(program)]));
    const uri = vscode.Uri.from({ scheme: COST, path: `${program.fsPath} cost` });
    costs.put(uri, text);
    const document = await vscode.workspace.openTextDocument(uri);
    await vscode.window.showTextDocument(document, { viewColumn: vscode.ViewColumn.Beside, preserveFocus: true });
}

/** Writes the waveform of a run into a folder, by way of a log, and gives the path of the waveform. */
async function waveform(program, samples, folder, token) {
    const runner = programs.find('piperench', settings.folder());
    const lens = programs.find('pipelens', settings.folder());
    fs.mkdirSync(folder, { recursive: true });
    const name = path.join(folder, path.basename(program.fsPath, '.dil'));
    try {
        await answer(programs.start(runner, ['trace', program.fsPath, samples, ...settings.run(program)], `${name}.log`), token);
        await answer(programs.start(lens, ['wave', `${name}.log`], `${name}.vcd`), token);
    } finally {
        fs.rmSync(`${name}.log`, { force: true });
    }
    return `${name}.vcd`;
}

/** The waveform of a run, in the viewer that is set, or in the editor. */
async function wave(memory, folder) {
    const program = await savedProgram();
    const samples = program && (await chosenSamples(program, memory));
    if (!samples) {
        return;
    }
    const progress = { location: vscode.ProgressLocation.Notification, title: 'Waveform of the run', cancellable: true };
    const file = await vscode.window.withProgress(progress, (_, token) => waveform(program, samples, folder, token));
    const viewer = settings.waveViewer();
    if (viewer === '') {
        await vscode.commands.executeCommand('vscode.open', vscode.Uri.file(file));
        return;
    }
    const child = childProcess.spawn(viewer, [file], { detached: true, stdio: 'ignore' });
    child.on('error', () => {
        vscode.window.showErrorMessage(`The program ${viewer}, which dil.waveViewer names, cannot be started.`);
    });
    child.unref();
}

/** A command that says why it could not do its work. */
function told(work) {
    return async () => {
        try {
            await work();
        } catch (error) {
            if (!(error instanceof vscode.CancellationError)) {
                vscode.window.showErrorMessage(error.message);
            }
        }
    };
}

/** Makes the commands known. */
function register(context) {
    const costs = new Costs();
    const memory = context.workspaceState;
    context.subscriptions.push(
        vscode.workspace.registerTextDocumentContentProvider(COST, costs),
        vscode.commands.registerCommand('dil.run', told(() => run(memory))),
        vscode.commands.registerCommand('dil.cost', told(() => cost(costs))),
        vscode.commands.registerCommand('dil.wave', told(() => wave(memory, context.globalStorageUri.fsPath))),
    );
}

module.exports = { register };
